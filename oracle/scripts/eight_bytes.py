"""Operands of eight bytes (C-15): up to three doublewords in one line or two, each with its own
group of answers; fills, hits, writes, carried writes, parity, numbers."""

from collections.abc import Sequence
from itertools import product

from unit486_model.access import Result
from unit486_model.bus import ANSWERS, BS8, BS16, KEN, WRITE, WRONG
from unit486_model.carried import CarriedWrite
from unit486_model.events import NUMBER_LIMIT
from unit486_model.memory import parity_for

from checks.carried import FILLS
from checks.unit_calls import ALL_KEN, NO_KEN, address_flags, answers_of, check, flags, snapshot
from checks.vectors import MODES

from .expected_reads import Course, Ends, Fill, Hit, Plain, carries, reads
from .source_tables import AddressFlags, fill_records, plain_records
from .states import FAULTS
from .writer import Script

RAM_BYTES = 0x850
VALUE = 0x8F7E_6D5C_4B3A_2918

# Two lines, one after the other.
LINE, ABOVE = 0x40, 0x50

# A group that keeps its fill, one that drops it, and one that makes none.
KEPT, DROPPED, NONE = [1], [1, 1, 1, 0], [0]


def eight_bytes() -> Script:
    script = Script("eight_bytes.txt")
    _transfers(script)
    _every_byte(script)
    _fills(script)
    _longest_read(script)
    _two_lines(script)
    _writes(script)
    _parity(script)
    _carried_by_byte(script)
    _carried_into_fills(script)
    _carried_before_lookups(script)
    _limits(script)
    _states(script)
    return script


def _new(script: Script, cd: bool = False, nw: bool = False) -> None:
    script.new(ram=RAM_BYTES, cd=cd, nw=nw)


def _empty(script: Script) -> None:
    """No line is held any more."""
    for index, valid in enumerate(script.directory.valid):
        if valid:
            script.store("K", index, 0)


def _parts(address: int, answers: Sequence[int]) -> list[AddressFlags]:
    """The records of each doubleword, none of them filling."""
    records = plain_records(address, 8, answers)
    return [
        [record for record in records if record[0] == doubleword]
        for doubleword in sorted({record[0] for record in records})
    ]


# --- cycles


def _transfers(script: Script) -> None:
    """Source document 002: a 64-bit read that is not cacheable has two transfers, a 64-bit write
    too; by halves and bytes they are four and eight."""
    for size, moved in ((0, [79]), (BS16, [3, 76]), (BS8, [1, 2, 4, 72])):
        for start in (LINE, LINE + 4, LINE + 12):
            _new(script)
            held = int.from_bytes(script.unit.ram[start : start + 8], "little")
            result = script.read(start, 8, [size + KEN] * ANSWERS, pcd=True)
            check("read", (flags(result), result.value), (moved * 2, held))
            result = script.write(start, 8, VALUE, [size] * ANSWERS)
            check("write", flags(result), [flag + WRITE for flag in moved] * 2)
            check("read back", script.read(start, 8, NO_KEN).value, VALUE)


def _every_byte(script: Script) -> None:
    """Each start in a line, a size for each doubleword, in turn one after the other: reads and
    writes."""
    _new(script)
    for start, turn in product(range(16), range(3)):
        sizes = ((0, BS16, BS8)[(turn + index * (1 + start % 2)) % 3] for index in range(3))
        answers = answers_of(*([size] for size in sizes))
        address = LINE + start
        reads(script, address, 8, [Plain(part) for part in _parts(address, answers)], answers)
        value = VALUE * (2 * start + 5) % 2**64
        result = script.write(address, 8, value, answers)
        check("write", address_flags(result), plain_records(address, 8, answers, WRITE))
        check("bytes", script.unit.ram[address : address + 8], value.to_bytes(8, "little"))


# --- fills and hits


def _fill(address: int, way: int | None = 0, group: Sequence[int] = ALL_KEN) -> Fill:
    return Fill(fill_records(address, group), way)


def _fills(script: Script) -> None:
    """Three doublewords of one line: the lowest's fill, the middle's and the upper's; a dropped one
    leaves the next its own. By doublewords, halves and bytes."""
    for start, (size, cycles) in product((1, 7), FILLS):
        address = LINE + start
        kept, dropped = [KEN + size], [KEN + size] * (cycles - 1) + [size]
        none = [size]
        for groups in (
            (kept, none, none),
            (none, kept, none),
            (none, none, kept),
            (dropped, kept, dropped),
            (dropped, none, kept),
            (none, dropped, kept),
        ):
            _new(script)
            answers = answers_of(*groups)
            reads(script, address, 8, _course(address, groups, kept, none), answers)
    _new(script)
    course: Course = [_fill(LINE, None), _fill(LINE + 4, None), _fill(LINE + 8, None)]
    reads(script, LINE + 2, 8, course, answers_of(DROPPED, DROPPED, DROPPED))


def _course(
    address: int, groups: Sequence[list[int]], kept: list[int], none: list[int]
) -> Course:
    """What each doubleword of one line does with its group."""
    course: list[Hit | Plain | Fill] = []
    parts = _parts(address, answers_of(*groups))
    for index, group in enumerate(groups):
        start = address - address % 4 + 4 * index
        if kept in groups[:index]:
            course.append(Hit(0))
        elif group == none:
            course.append(Plain(parts[index]))
        else:
            course.append(_fill(start, 0 if group == kept else None, answers_of(group)))
    return course


def _longest_read(script: Script) -> None:
    """Three fills by bytes, each dropped in its last cycle: 48 cycles, with a log that has no word
    to spare, and with one that has."""
    for log in (144, 145):
        script.new(ram=RAM_BYTES, log=log, cd=False)
        group = [KEN + BS8] * 15 + [BS8]
        course = [_fill(LINE + offset, None, group) for offset in (4, 8, 12)]
        reads(script, LINE + 5, 8, course, answers_of(group, group, group))


def _two_lines(script: Script) -> None:
    """The middle doubleword in the lower line or in the upper; neither line held, one, or both,
    with bytes that are not RAM's; each of the three alone is a hit somewhere."""
    for start, lower, upper in product((9, 10, 11, 12, 13, 14, 15), (0, 1), (0, 1)):
        for answers in (ALL_KEN, NO_KEN):
            _new(script)
            for set_index, is_held in ((4, lower), (5, upper)):
                if is_held:
                    script.store_line(set_index, 2, 0)
            ways = [2 if is_held else None for is_held in (lower, upper)]
            course = _course_of_lines(LINE + start, ways, answers)
            reads(script, LINE + start, 8, course, answers)
    for start, groups in product((9, 11, 13, 15), ((KEPT, NONE, NONE), (NONE, KEPT, NONE))):
        _new(script)
        answers = answers_of(*groups)
        course = _course_of_lines(LINE + start, [None, None], answers)
        reads(script, LINE + start, 8, course, answers)


def _course_of_lines(address: int, ways: list[int | None], answers: Sequence[int]) -> Course:
    """What each doubleword does, with the ways that hold the lower line and the upper; a fill by
    doublewords goes to way 0."""
    course: list[Hit | Plain | Fill] = []
    for index, part in enumerate(_parts(address, answers)):
        doubleword = part[0][0]
        upper = doubleword >= ABOVE
        way = ways[upper]
        if way is not None:
            course.append(Hit(way))
        elif answers[16 * index] & KEN:
            course.append(_fill(doubleword))
            ways[upper] = 0
        else:
            course.append(Plain(part))
    return course


# --- writes and parity


def _writes(script: Script) -> None:
    """In each mode, with each of the lines held or not: what goes to RAM and what stays inside."""
    for (cd, nw), start in product(MODES, (2, 9, 12, 14)):
        through = MODES[cd, nw][1]
        for sets in ((), (4,), (5,), (4, 5)):
            _new(script, bool(cd), bool(nw))
            for set_index in sets:
                script.store_line(set_index, 1, 0)
            before, array = bytearray(script.unit.ram), bytearray(script.unit.data)
            inside = () if through else sets
            for place, byte in enumerate(VALUE.to_bytes(8, "little"), start=LINE + start):
                if place // 16 not in inside:
                    before[place] = byte
                if place // 16 in sets:
                    array[place // 16 * 64 + 16 + place % 16] = byte
            result = script.write(LINE + start, 8, VALUE, ALL_KEN)
            records = plain_records(LINE + start, 8, NO_KEN, WRITE)
            expected = [record for record in records if record[0] // 16 not in inside]
            check("write", address_flags(result), expected)
            check("RAM", (script.unit.ram, script.unit.data), (before, array))
            check("parity", script.unit.parity, parity_for(before))


def _parity(script: Script) -> None:
    """A fault in a lane of the lowest, the middle or the upper doubleword, and upper bits that are
    ignored; a write mends the lanes that it moves, with the upper four bits."""
    for start, place, size in product((3, 10), (0, 2, 4, 6, 7), (0, BS8)):
        _new(script)
        fault = LINE + start + place
        script.flip(fault // 4, 0xF0 + (1 << fault % 4))
        answers = [size] * ANSWERS
        right = plain_records(LINE + start, 8, answers)
        wrong = [
            (address, flag + (WRONG if address == fault // 4 * 4 and flag >> fault % 4 & 1 else 0))
            for address, flag in right
        ]
        result = script.read(LINE + start, 8, answers)
        check("fault", address_flags(result), wrong)
        script.write(LINE + start, 8, VALUE, answers)
        check("mended", script.unit.parity, parity_for(script.unit.ram))


# --- carried writes


def _write(script: Script, cycle: int, address: int, count: int) -> CarriedWrite:
    """A write of bytes that RAM does not have there, each with the other DP bit."""
    written = bytes(byte ^ 0x57 for byte in script.unit.ram[address : address + count])
    return CarriedWrite(cycle, address, written)


def _carried_by_byte(script: Script) -> None:
    """A write over all eight bytes before each cycle of the three doublewords, and past the last:
    numbers are counted over the access."""
    for start, size in ((1, BS8), (3, BS16), (6, 0)):
        _new(script)
        answers = [size] * ANSWERS
        parts = [Plain(part) for part in _parts(LINE + start, answers)]
        cycles = sum(len(part.records) for part in parts)
        for number in range(cycles + 1):
            writes = [_write(script, number, LINE + start, 8)]
            carries(script, LINE + start, 8, writes, parts, answers)


def _carried_into_fills(script: Script) -> None:
    """The lowest doubleword makes cycle 0, the middle one a fill of 1 to 4, the upper one, where
    that is dropped, a fill of 5 to 8: a write into the line at each number; and into the line of
    the upper doubleword alone."""
    answers = answers_of([0], [1], [1])
    _new(script)
    for number in range(10):
        _empty(script)
        plain = Plain(_parts(LINE + 1, answers)[0])
        again = [_fill(LINE + 4, None), _fill(LINE + 8)]
        course: Course = [plain, *(again if 2 <= number <= 4 else [_fill(LINE + 4), Hit(0)])]
        if number > 4:
            course = [*course, Ends(LINE, 0)]
        carries(script, LINE + 1, 8, [_write(script, number, LINE + 8, 2)], course, answers)
    for number in (4, 5, 6, 8, 9):
        _empty(script)
        plain = Plain(_parts(LINE + 10, answers)[0])
        upper = _fill(ABOVE, None if 6 <= number <= 8 else 0)
        course = [plain, _fill(LINE + 12), upper, *([Ends(ABOVE, 0)] if number == 9 else [])]
        carries(script, LINE + 10, 8, [_write(script, number, ABOVE, 2)], course, answers)


def _carried_before_lookups(script: Script) -> None:
    """A held line ended before the middle's lookup or the upper's, or just after it."""
    for start, size in product((10, 13), (0, BS8)):
        answers = [size] * ANSWERS
        parts = [Plain(part) for part in _parts(LINE + start, answers)]
        # The doublewords below the held line make so many cycles.
        below = parts[: (2 if start == 10 else 1)]
        cycles = sum(len(part.records) for part in below)
        for number in (0, cycles - 1, cycles, NUMBER_LIMIT):
            _new(script)
            script.store_line(5, 3, 0)
            hits = [Hit(3)] * (len(parts) - len(below))
            course: Course = [*below, *hits, Ends(ABOVE, 3)]
            if number < cycles:
                course = [*below, Ends(ABOVE, 3), *parts[len(below) :]]
            writes = [_write(script, number, ABOVE, 4)]
            carries(script, LINE + start, 8, writes, course, answers)


# --- numbers


def _refused(script: Script, address: int, number: int, width: int = 8) -> None:
    """A read, a write and a carrying read that answer this number and change nothing."""
    before = snapshot(script.unit)
    check("read", script.read(address, width, NO_KEN), Result(number))
    check("write", script.write(address, width, VALUE, NO_KEN), Result(number))
    carrying = script.read_carrying(address, width, [CarriedWrite(0, 0, b"\x01")], NO_KEN)
    check("carrying read", carrying, Result(number))
    check("nothing changed", snapshot(script.unit), before)


def _limits(script: Script) -> None:
    """4, 5 and 8; RAM of one line and of two."""
    for ram in (16, 32):
        script.new(ram=ram, cd=False)
        for address in (0, ram - 11, ram - 9, ram - 8):
            check("write", script.write(address, 8, VALUE, NO_KEN).number, 0)
            check("read", script.read(address, 8).value, VALUE)
        for address in (ram - 7, ram - 4, ram, NUMBER_LIMIT - 7, NUMBER_LIMIT):
            _refused(script, address, 5)
        for width in (0, 3, 5, 6, 7, 9, 10, 12, 16, 64, 256 + 8, NUMBER_LIMIT):
            _refused(script, 0, 4, width)
    for width in (1, 2, 4):
        check("value", script.write(3, width, 2**32, NO_KEN), Result(8))
        check("value", script.write(3, width, 2**64 - 1, NO_KEN), Result(8))
        check("value", script.write(3, width, 256**width - 1, NO_KEN).number, 0)


def _states(script: Script) -> None:
    """21 to 23 in the set of the first byte and in that of the last; not in the set above a line's
    last eight bytes."""
    for lower, upper in ((21, 0), (22, 21), (23, 22), (0, 21), (0, 22), (0, 23)):
        for set_index, above in ((4, 5), (127, 0)):
            _new(script)
            for place, number in ((set_index, lower), (above, upper)):
                if number:
                    FAULTS[number](script, place)
            for start in (9, 12, 15):
                _refused(script, 16 * set_index + start, lower or upper)
            if not lower:
                check("below", script.read(16 * set_index + 8, 8, NO_KEN).number, 0)
