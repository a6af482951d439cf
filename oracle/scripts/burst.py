"""Table 3-9, the order of a fill's doublewords, and the fills that the sources print."""

from unit486_model import directory as steps
from unit486_model.access import Result
from unit486_model.bus import ANSWERS, BS8, BS16, GROUP, KEN
from unit486_model.carried import CarriedWrite

from checks.unit_calls import ALL_KEN, address_flags, answers_of, check
from checks.vectors import FILL_VECTORS

from .random_source import RandomSource
from .source_tables import BURST_ORDERS, fill_records
from .writer import RAM_BYTES, Script


def burst() -> Script:
    script = Script("burst.txt")
    _table(script)
    _vectors(script)
    _mixed_sizes(script)
    _wanted_bytes(script)
    _table_during_writes(script)
    return script


def _filled(script: Script, address: int, width: int, group: list[int]) -> None:
    """A kept fill of a line that is not held, its records as the printed tables have them."""
    result = script.read(address, width, answers_of(group))
    expected = fill_records(address, answers_of(group))
    check(f"fill from {address:x} {group}", address_flags(result), expected)
    line, way = steps.line_address(address), script.held(address)
    check("held", way is not None, True)
    start = steps.data_offset(steps.set_of(address), way or 0)
    check("line", script.unit.data[start : start + 16], script.unit.ram[line : line + 16])
    held = script.unit.ram[address : address + width]
    check("value", result.value, int.from_bytes(held, "little"))


def _check_order(result: Result, line: int, order: list[int], answers: list[int]) -> None:
    moved = [record.address - line for record in result.records]
    check(f"order from {order[0]}", list(dict.fromkeys(moved)), order)
    expected = fill_records(line + order[0], answers)
    check(f"records from {order[0]}", address_flags(result), expected)


def _table(script: Script) -> None:
    """Each start in a line of its own, by whole doublewords, halves and bytes."""
    script.new(cd=False)
    line = 0
    for size in (0, BS16, BS8, BS8 + BS16):
        for order in BURST_ORDERS.values():
            answers = [KEN + size] * ANSWERS
            _check_order(script.read(line + order[0], 4, answers), line, order, answers)
            line += 16


def _vectors(script: Script) -> None:
    for address, group, expected in FILL_VECTORS:
        script.new(cd=False)
        _filled(script, address, 4, group)
        check("printed", fill_records(address, answers_of(group)), expected)


def _mixed_sizes(script: Script) -> None:
    """Sizes that change within the fill, KEN# active all the time: from 4 to 16 cycles."""
    source = RandomSource("replay burst")
    script.new(ram=2048, cd=False)
    for line in range(0, 2048, 16):
        group = [KEN + source.choice((0, BS16, BS8, BS8 + BS16)) for _ in range(GROUP)]
        _filled(script, line + source.choice((0, 4, 8, 12)), 4, group)


def _wanted_bytes(script: Script) -> None:
    """The first doubleword moves all four bytes too, whichever byte is wanted."""
    script.new(cd=False)
    line = 0
    for width, byte in [(1, byte) for byte in range(16)] + [(2, 1), (2, 6), (2, 10), (2, 13)]:
        for size in (0, BS16, BS8):
            _filled(script, line + byte, width, [KEN + size])
            line += 16


def _table_during_writes(script: Script) -> None:
    """Each start while another master writes elsewhere: cycles are made one by one."""
    script.new(cd=False)
    for place, order in enumerate(BURST_ORDERS.values()):
        line, write = 16 * place, CarriedWrite(2, RAM_BYTES // 2 + place, b"\x5a")
        result = script.read_carrying(line + order[0], 4, [write])
        _check_order(result, line, order, list(ALL_KEN))
