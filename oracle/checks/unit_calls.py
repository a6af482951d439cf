"""What the checks share: a unit, its calls with the usual arguments, how a result is checked."""

import sys
from collections import Counter
from collections.abc import Callable, Sequence
from pathlib import Path
from typing import Any

from unit486_model import access, diagnostics, memory
from unit486_model import directory as steps
from unit486_model.access import Part, Result
from unit486_model.bus import ANSWERS, DOUBLEWORDS, GROUP, KEN, LOG_WORDS
from unit486_model.carried import CarriedWrite
from unit486_model.diagnostics import TestLine
from unit486_model.directory import Directory, line_index
from unit486_model.events import Unit
from unit486_model.ranges import Range
from unit486_model.refusal import DATA_BYTES

ORACLE = Path(__file__).resolve().parent.parent
RAM_BYTES = 0x4000
ALL_KEN = [KEN] * ANSWERS
NO_KEN = [0] * ANSWERS
BAD_WIDTHS = (0, 3, 5, 6, 7, 9, 16, 4_294_967_295)


class Mismatch(Exception):
    """A result of the model that is not the papers'."""


done = Counter[str]()


def check(what: str, got: Any, expected: Any) -> None:
    done["checks"] += 1
    if got != expected:
        caller = sys._getframe(1)
        file = Path(caller.f_code.co_filename).resolve().relative_to(ORACLE)
        place = f"{file}:{caller.f_lineno}"
        raise Mismatch(f"{place}: {what}: got {got!r}, expected {expected!r}")


def tells(checks: Callable[[], object], kind: type[Mismatch] = Mismatch) -> bool:
    """Whether the checks end with a mismatch."""
    try:
        checks()
    except kind:
        return True
    return False


def run_script(main: Callable[[list[str]], int]) -> int:
    """A mismatch ends a script with one line and 1."""
    try:
        return main(sys.argv[1:])
    except Mismatch as mismatch:
        print(mismatch, file=sys.stderr)
        return 1


def unit_of(ram_bytes: int = RAM_BYTES, cd: bool = False, nw: bool = False) -> Unit:
    """A unit after reset, with CD and NW set directly and parity that agrees."""
    ram = bytearray((7 * address + 3) % 251 for address in range(ram_bytes))
    directory = steps.first()
    directory.cd, directory.nw = cd, nw
    return Unit(directory, ram, memory.parity_for(ram), bytearray(DATA_BYTES))


def read(
    unit: Unit,
    address: int,
    width: int,
    answers: Sequence[int] = tuple(ALL_KEN),
    pcd: bool = False,
    log: list[int] | None = None,
) -> Result:
    log = [0] * LOG_WORDS if log is None else log
    lent = (unit.directory, unit.ram, unit.parity, unit.data)
    return access.read(*lent, address, width, pcd, answers, log)


def read_carrying(
    unit: Unit,
    address: int,
    width: int,
    carried: Sequence[CarriedWrite],
    answers: Sequence[int] = tuple(ALL_KEN),
    pcd: bool = False,
    log: list[int] | None = None,
) -> Result:
    log = [0] * LOG_WORDS if log is None else log
    lent = (unit.directory, unit.ram, unit.parity, unit.data)
    return access.read_carrying(*lent, address, width, pcd, answers, log, carried)


def write(
    unit: Unit,
    address: int,
    width: int,
    value: int,
    answers: Sequence[int] = tuple(ALL_KEN),
    log: list[int] | None = None,
) -> Result:
    log = [0] * LOG_WORDS if log is None else log
    lent = (unit.directory, unit.ram, unit.parity, unit.data)
    return access.write(*lent, address, width, value, answers, log)


def external(unit: Unit, address: int, written: bytes) -> Result:
    return access.external_write(unit.directory, unit.ram, unit.parity, address, written)


def view(unit: Unit, address: int) -> tuple[int, Part]:
    lent = (unit.directory, unit.ram, unit.data)
    return access.view_number(*lent, address), access.view(*lent, address)


def test_write(
    unit: Unit, set_index: int, way: int, tag: int, valid: bool, sixteen: bytes
) -> Result:
    lent = (unit.directory, unit.data)
    return diagnostics.test_write(*lent, set_index, way, tag, valid, sixteen)


def test_read(unit: Unit, set_index: int, way: int) -> TestLine:
    return diagnostics.test_read(unit.directory, unit.data, set_index, way)


def set_ranges(unit: Unit, *given: Range) -> Result:
    return access.set_ranges(unit.directory, unit.ram, given)


def store_line(unit: Unit, set_index: int, way: int, tag: int) -> None:
    unit.directory.tags[line_index(set_index, way)] = tag
    unit.directory.valid[line_index(set_index, way)] = True


def valid_and_tags(directory: Directory) -> list[tuple[bool, int]]:
    return list(zip(directory.valid, directory.tags))


def snapshot(unit: Unit) -> tuple[Any, ...]:
    """A copy of all that a unit is lent, to compare with later."""
    directory = unit.directory
    arrays = (list(directory.tags), list(directory.valid), list(directory.lru))
    buffers = (bytes(unit.ram), bytes(unit.parity), bytes(unit.data))
    ranges = (directory.ranges.count, *directory.ranges.places)
    return (*arrays, directory.cd, directory.nw, ranges, *buffers)


def number_with_ram(length: int) -> int:
    """The number of a read where RAM has this length, all else being right."""
    unit = Unit(steps.first(), bytearray(length), bytearray(length // 4), bytearray(DATA_BYTES))
    return read(unit, 0, 4).number


def flags(result: Result) -> list[int]:
    return [record.flags for record in result.records]


def address_flags(result: Result) -> list[tuple[int, int]]:
    return [(record.address, record.flags) for record in result.records]


def held(unit: Unit, address: int) -> int | None:
    return steps.lookup(unit.directory, address)


def answers_of(*given: Sequence[int]) -> list[int]:
    """Groups of answers, the last of each repeated, missing groups 0."""
    filled = [list(group) + [group[-1]] * (GROUP - len(group)) for group in given]
    filled += [[0] * GROUP] * (DOUBLEWORDS - len(filled))
    return [answer for group in filled for answer in group]
