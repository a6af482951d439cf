"""KEN#: the first cycle makes a fill, the last one keeps it; PCD and CD forbid it."""

from itertools import product

from unit486_model.bus import ANSWERS, BS8, BS16, FILL, GROUP, KEN, WRITE

from checks.unit_calls import ALL_KEN, address_flags, answers_of, check, flags

from .source_tables import AddressFlags, fill_records, plain_records
from .writer import Script

BITS = (False, True)

# Sizes of a group's answers and how many cycles a fill with them takes.
SIZES = {
    "doublewords": ([0] * GROUP, 4),
    "halves": ([BS16] * GROUP, 8),
    "bytes": ([BS8] * GROUP, 16),
    "bytes at the end": ([0, 0, 0] + [BS8] * 13, 7),
    "a byte first": ([BS8] + [0] * 15, 5),
}


def ken() -> Script:
    script = Script("ken.txt")
    _first_and_last(script)
    _pcd_and_cd(script)
    _crossing(script)
    _writes(script)
    return script


def group_of(
    sizes: list[int], last: int, first_ken: bool, last_ken: bool, others: int
) -> list[int]:
    """A fill's answers, with KEN# in the first and last cycle as told, and in the others."""
    group = [size | others for size in sizes]
    group[0] = sizes[0] | (KEN if first_ken else 0)
    group[last] = sizes[last] | (KEN if last_ken else 0)
    return group


def _first_and_last(script: Script) -> None:
    """Whatever the cycles between have, and whatever the answers after the last."""
    script.new(cd=False)
    line = 0
    for sizes, cycles in SIZES.values():
        for first, last, others in product(BITS, BITS, (0, KEN)):
            for start in (0, 4, 8, 12):
                group = group_of(sizes, cycles - 1, first, last, others)
                _read_line(script, line + start, group, first, first and last)
                line = (line + 16) % 4096


def _read_line(script: Script, address: int, group: list[int], fills: bool, kept: bool) -> None:
    before = script.held(address)
    check("not held", before, None)
    answers = answers_of(group)
    result = script.read(address, 4, answers)
    printed = fill_records(address, group) if fills else plain_records(address, 4, answers)
    check(f"records of {group}", address_flags(result), printed)
    check(f"kept with {group}", script.held(address) is not None, kept)


def _pcd_and_cd(script: Script) -> None:
    """PCD and CD against each other, for misses and for hits in the same line."""
    for cd, nw, pcd in product(BITS, BITS, BITS):
        script.new(cd=False)
        script.read(0x40, 4)
        script.mode(cd, nw)
        check("hit", script.read(0x44, 4, ALL_KEN, pcd).cycles, 0)
        missed = script.read(0x82, 4, ALL_KEN, pcd)
        fills = not cd and not pcd
        check(f"fill with CD {cd}, PCD {pcd}", bool(flags(missed)[0] & FILL), fills)
        check("held", script.held(0x82) is not None, fills)
        check("again", script.read(0x82, 4, ALL_KEN, pcd).cycles, 0 if fills else 2)


def _crossing(script: Script) -> None:
    """Two doublewords, each with its own first and last KEN#, in one line and in two."""
    for address in (0x102, 0x10E, 0x7FE):
        for lower_first, lower_last, upper_first, upper_last in product(BITS, repeat=4):
            script.new(cd=False)
            lower = group_of([0] * GROUP, 3, lower_first, lower_last, 0)
            upper = group_of([0] * GROUP, 3, upper_first, upper_last, 0)
            result = script.read(address, 4, answers_of(lower, upper))
            printed = _crossing_records(address, lower, upper)
            check(f"crossing at {address:x} {lower} {upper}", address_flags(result), printed)
            held = int.from_bytes(script.unit.ram[address : address + 4], "little")
            check("value", result.value, held)


def _crossing_records(address: int, lower: list[int], upper: list[int]) -> AddressFlags:
    """A line that the lower doubleword's fill kept serves the upper one without a cycle."""
    start = address - address % 4
    made = fill_records(start, lower) if lower[0] else [(start, 76)]
    one_line = start // 16 == (start + 4) // 16
    if one_line and lower[0] and lower[3]:
        return made
    return made + (fill_records(start + 4, upper) if upper[0] else [(start + 4, 67)])


def _writes(script: Script) -> None:
    """A miss never fills, and a hit's cycles are the same whatever KEN# is."""
    script.new(cd=False)
    script.read(0x200, 4)
    for address in (0x200, 0x300):
        for answer in (0, KEN):
            result = script.write(address, 4, 0xA1B2C3D4 + answer, [answer] * ANSWERS)
            check("write", address_flags(result), [(address, 79 + WRITE)])
    check("no fill", script.held(0x300), None)
