"""Sentences of document 02's request C-15, each with an input that tells, and what source document
002 says of 64-bit reads and writes."""

import copy
import random
from collections.abc import Sequence
from itertools import product

from unit486_model import board, events, memory
from unit486_model.access import Result
from unit486_model.bus import ANSWERS, BS8, BS16, FILL, GROUP, KEN, LAST, LOG_WORDS, Record
from unit486_model.carried import CarriedWrite
from unit486_model.directory import LRU_LIMIT, data_offset, set_of
from unit486_model.events import NUMBER_LIMIT, VALUE_LIMIT, Unit
from unit486_model.plain import PlainMemory

from .unit_calls import (
    ALL_KEN,
    NO_KEN,
    address_flags,
    answers_of,
    check,
    flags,
    held,
    read,
    read_carrying,
    snapshot,
    store_line,
    unit_of,
    write,
)
from .vectors import BURST_TABLE, FLAG_TABLE

WIDTHS = (1, 2, 4, 8)
VALUE = 0x8877_6655_4433_2211

# Three lines one after the other, and RAM that has them in its middle.
BELOW, LINE, ABOVE = 0x30, 0x40, 0x50
RAM_BYTES = 0x80

# The columns of FLAG_TABLE by the answer's sizes.
COLUMNS = {0: 0, BS16: 1, BS8: 2}


def _unit(cd: bool = False, nw: bool = False) -> Unit:
    return unit_of(RAM_BYTES, cd, nw)


def _value(ram: bytes | bytearray, address: int, width: int = 8) -> int:
    return int.from_bytes(ram[address : address + width], "little")


def _plain_flags(address: int, sizes: Sequence[int]) -> list[tuple[int, int]]:
    """Addresses and flags of eight bytes that fill nothing, by the flag table, each doubleword
    with a size of its own."""
    rows = [FLAG_TABLE[8, address % 4][COLUMNS[size]].split("|") for size in sizes]
    start = address - address % 4
    return [
        (start + 4 * index, int(flag))
        for index in range(len(rows[0]))
        for flag in rows[index][index].split(",")
    ]


def _fill_flags(address: int) -> list[tuple[int, int]]:
    """A fill by doublewords, from the doubleword of this address."""
    line, start = address - address % 16, address % 16 // 4
    offsets = [int(offset, 16) for offset in BURST_TABLE[start].split()]
    return [(line + offset, 15 + FILL) for offset in offsets[:3]] + [
        (line + offsets[3], 15 + FILL + LAST)
    ]


# --- numbers


def widths() -> None:
    """ "Add width 8": no other width beside it."""
    for width in (*range(20), 32, 64, 256, 264, NUMBER_LIMIT):
        number = 0 if width in WIDTHS else 4
        check(f"read of {width}", read(_unit(), 0, width).number, number)
        check(f"write of {width}", write(_unit(), 0, width, 0).number, number)


def ends_of_ram() -> None:
    """5: address + 8, which does not wrap."""
    for ram in (16, 32, 2064):
        for address in (0, ram - 9, ram - 8, ram - 7, ram - 4, ram, NUMBER_LIMIT - 7, NUMBER_LIMIT):
            number = 0 if address + 8 <= ram else 5
            check(f"read at {address}", read(unit_of(ram), address, 8).number, number)
            check(f"write at {address}", write(unit_of(ram), address, 8, VALUE).number, number)


def counts_for_all_widths() -> None:
    """ "Numbers 4, 6, 7 and 8 read with these sizes, for all widths": 48 answers, none above 7, the
    unused ones too, and a log of 144 words, also for one byte."""
    for width, address in product(WIDTHS, (LINE, LINE + 3)):
        for count in (0, 16, 32, 47, 48, 49, 64, 96):
            number = 0 if count == 48 else 6
            check(f"{count} answers", read(_unit(), address, width, [1] * count).number, number)
            result = write(_unit(), address, width, 1, [1] * count)
            check(f"{count} answers to a write", result.number, number)
        for place in range(48):
            answers = [1] * place + [8] + [1] * (47 - place)
            check(f"8 at {place}", read(_unit(), address, width, answers), Result(6))
        for words in (0, 48, 95, 96, 97, 143, 144, 145):
            number, log = 0 if words >= 144 else 7, [0] * words
            check(f"log of {words}", read(_unit(), address, width, log=log).number, number)
            result = write(_unit(), address, width, 1, log=[0] * words)
            check(f"log of {words} for a write", result.number, number)


def values_by_width() -> None:
    """8 for a value of 256^width and more; any 64-bit value has eight bytes."""
    for width, bits in product(WIDTHS, (8, 16, 32, 63, 64)):
        for value in (2**bits - 1, min(2**bits, VALUE_LIMIT)):
            unit = _unit()
            before = snapshot(unit)
            result = write(unit, LINE + 1, width, value)
            number = 8 if width < 8 and value >= 256**width else 0
            check(f"{value} of {width} bytes", result.number, number)
            if number:
                check("nothing changed", snapshot(unit), before)
            else:
                check("its bytes", _value(unit.ram, LINE + 1, width), value)


def order_of_numbers() -> None:
    """4 before 5 before 6 before 7 before 8, with these sizes."""
    unit, short = _unit(), [0] * 143
    check("4", write(unit, RAM_BYTES, 9, VALUE, NO_KEN[1:], short), Result(4))
    check("5", write(unit, RAM_BYTES - 7, 8, VALUE, NO_KEN[1:], short), Result(5))
    check("6", write(unit, LINE, 4, VALUE, NO_KEN[1:], short), Result(6))
    check("7", write(unit, LINE, 4, VALUE, NO_KEN, short), Result(7))
    check("8", write(unit, LINE, 4, VALUE, NO_KEN), Result(8))
    for width, value, number in ((4, 2**32, 8), (4, 2**32 - 1, 23), (8, VALUE, 23)):
        unit = _unit()
        unit.directory.lru[4] = LRU_LIMIT + 1
        check("8 before 23", write(unit, LINE, width, value), Result(number))


def touched_sets() -> None:
    """Three doublewords lie in at most two lines: the first byte and the last name every touched
    set, the lower one's numbers first."""
    unit = _unit()
    unit.directory.lru[4] = LRU_LIMIT + 1
    store_line(unit, 6, 0, 9)
    store_line(unit, 6, 3, 9)
    before = snapshot(unit)
    # The last start below each set, the first in it, the last in it, and the first above.
    starts = [(BELOW + 8, 0), (BELOW + 9, 23), (BELOW + 15, 23), (LINE, 23), (LINE + 15, 23)]
    starts += [(ABOVE, 0), (ABOVE + 8, 0), (ABOVE + 9, 21), (0x60, 21), (0x6F, 21), (0x70, 0)]
    for address, number in starts:
        check(f"read at {address:x}", read(unit, address, 8, NO_KEN).number, number)
        if number:
            check(f"write at {address:x}", write(unit, address, 8, 1), Result(number))
            check("nothing changed", snapshot(unit), before)
    unit = unit_of(0x810)
    unit.directory.lru[127], unit.directory.lru[0] = LRU_LIMIT + 1, LRU_LIMIT + 1
    store_line(unit, 0, 1, 2**21)
    for address, number in ((0x7F7, 23), (0x7F9, 23), (0x7FF, 23), (0x800, 22), (0x808, 22)):
        check(f"set 127 and then 0 at {address:x}", read(unit, address, 8).number, number)
    unit.directory.lru[127] = 0
    for address, number in ((0x7F8, 0), (0x7F9, 22), (0x7FD, 22)):
        check(f"set 0 after 127 at {address:x}", read(unit, address, 8, NO_KEN).number, number)


# --- doublewords and their answers


def source_tables() -> None:
    """Source document 002: a 64-bit read that is not cacheable moves its eight bytes only, 79 and
    79; a 64-bit write needs at least two transfers, 95 and 95."""
    for address in (LINE, LINE + 4, LINE + 8, LINE + 12):
        for cd, pcd, ken in ((True, False, KEN), (False, True, KEN), (False, False, 0)):
            unit = _unit(cd)
            result = read(unit, address, 8, [ken] * ANSWERS, pcd)
            check("64-bit read", address_flags(result), [(address, 79), (address + 4, 79)])
            check("its value", result.value, _value(unit.ram, address))
        result = write(_unit(), address, 8, VALUE, NO_KEN)
        check("64-bit write", address_flags(result), [(address, 95), (address + 4, 95)])
        check("its words", [r.word for r in result.records], [0x44332211, 0x88776655])


def groups_of_answers() -> None:
    """ "48 answers in groups of 16": each doubleword has its own, wherever the one below stopped;
    all starts in a line, so that they lie in one line and in two."""
    for start, sizes in product(range(16), product((0, BS16, BS8), repeat=3)):
        answers = answers_of(*([size] for size in sizes))
        expected = _plain_flags(LINE + start, sizes)
        unit = _unit()
        result = read(unit, LINE + start, 8, answers)
        check(f"read at {start} by {sizes}", address_flags(result), expected)
        check("value", result.value, _value(unit.ram, LINE + start))
        words = [memory.read_lanes(unit.ram, r.address, r.flags & 15) for r in result.records]
        check("words", [r.word for r in result.records], words)
        before = bytes(unit.ram)
        result = write(unit, LINE + start, 8, VALUE, answers)
        expected = [(address, flag + 16) for address, flag in expected]
        check(f"write at {start} by {sizes}", address_flags(result), expected)
        _written(unit, before, LINE + start)


def _written(unit: Unit, before: bytes, address: int) -> None:
    """Eight bytes of RAM are the value's, the others as before; parity agrees."""
    expected = before[:address] + VALUE.to_bytes(8, "little") + before[address + 8 :]
    check("RAM", bytes(unit.ram), expected)
    check("parity", memory.parity_agrees(unit.ram, unit.parity), True)


def one_after_the_other() -> None:
    """Document 01: "the lower one completed first (H)". At an even start eight bytes do what
    accesses of each doubleword's bytes do in turn, whatever is held and answered."""
    source = random.Random(815)
    for _ in range(400):
        whole = _unit(source.random() < 0.3, source.random() < 0.3)
        for set_index in (3, 4, 5):
            if source.random() < 0.4:
                store_line(whole, set_index, source.randrange(4), 0)
        parts, address = copy.deepcopy(whole), LINE + 2 * source.randrange(-3, 8)
        ken = source.choice((0, KEN))
        answers = [source.choice((0, 0, BS16, BS8, KEN)) | ken for _ in range(ANSWERS)]
        value = source.getrandbits(64) if source.random() < 0.5 else None
        result = _accessed(whole, address, 8, value, answers)
        check(f"at {address:x}", result, _by_doublewords(parts, address, value, answers))
        check("what is left", snapshot(whole), snapshot(parts))


def _accessed(
    unit: Unit, address: int, width: int, value: int | None, answers: list[int]
) -> Result:
    """A write of this value, or a read."""
    if value is None:
        return read(unit, address, width, answers)
    return write(unit, address, width, value % 256**width, answers)


def _by_doublewords(unit: Unit, address: int, value: int | None, answers: list[int]) -> Result:
    """Each doubleword's bytes by an access of their own, with its group in the lowest's place."""
    joined, place = 0, 0
    records: tuple[Record, ...] = ()
    for index, width in enumerate((2, 4, 2) if address % 4 else (4, 4)):
        group = answers[GROUP * index : GROUP * (index + 1)]
        part = None if value is None else value >> 8 * place
        result = _accessed(unit, address + place, width, part, answers_of(group))
        joined |= result.value << 8 * place
        records += result.records
        place += width
    return Result(0, joined, len(records), records)


def own_last_cycle() -> None:
    """A middle doubleword has its own 64."""
    for size, cycles in ((0, (1, 1, 1)), (BS16, (1, 2, 2)), (BS8, (1, 4, 3))):
        given = flags(read(_unit(), LINE + 3, 8, [size] * ANSWERS))
        last = [index + 1 for index, flag in enumerate(given) if flag & LAST]
        check("64", last, [cycles[0], sum(cycles[:2]), sum(cycles)])


def board_table() -> None:
    """ "the board table fills the third group from its own doubleword, or from the lowest where
    there is none": not from the middle's. A refused width has the lowest only."""
    for address, width, given in (
        (0x7FFFFE, 4, "151"),
        (0x7FFFFF, 2, "151"),
        (0x7FFFFC, 4, "111"),
        (0x7FFFFC, 8, "151"),
        (0x7FFFF8, 8, "111"),
        (0x7FFFFA, 8, "115"),
        (0x7FFFFB, 8, "115"),
        (0x7FFFFD, 8, "155"),
        (0x7FFFFF, 8, "155"),
        (0x800000, 8, "555"),
        (0xDFFFFE, 8, "422"),
        (0xEFFFF9, 8, "223"),
        (0xEFFFFE, 4, "232"),
        (0xFFFFF9, 8, "331"),
        (0xFFFFFFFF, 8, "311"),
        (0xFFFFFFF9, 8, "331"),
        (0xFFFFFFFC, 8, "313"),
    ):
        expected = [int(answer) for answer in given for _ in range(GROUP)]
        check(f"{width} at {address:x}", board.answers(board.TABLE, address, width), expected)
    for width in (0, 3, 5, 6, 7, 9, 12, 16, NUMBER_LIMIT):
        check(f"width {width}", board.answers(board.TABLE, 0x7FFFFE, width), [1] * 48)


# --- fills and hits


def fills_in_one_line() -> None:
    """The lowest doubleword's fill serves the others; without it the middle's, from the middle;
    without both the upper's. A dropped one leaves the next its own fill."""
    lowest, middle, upper = (_fill_flags(LINE + offset) for offset in (0, 4, 8))
    plain = _plain_flags(LINE + 1, (0, 0, 0))
    kept, dropped, none = [1], [1, 1, 1, 0], [0]
    cases = (
        ((kept, none, none), lowest),
        ((none, kept, none), plain[:1] + middle),
        ((none, none, kept), plain[:2] + upper),
        ((dropped, none, none), lowest + plain[1:]),
        ((dropped, kept, none), lowest + middle),
        ((none, dropped, kept), plain[:1] + middle + upper),
        ((dropped, none, kept), lowest + plain[1:2] + upper),
        ((dropped, dropped, kept), lowest + middle + upper),
        ((dropped, dropped, dropped), lowest + middle + upper),
    )
    for groups, expected in cases:
        unit = _unit()
        result = read(unit, LINE + 1, 8, answers_of(*groups))
        check(f"records with {groups}", address_flags(result), expected)
        check("value", result.value, _value(unit.ram, LINE + 1))
        is_kept = kept in groups
        check("held", held(unit, LINE), 0 if is_kept else None)
        check("array", unit.data[256:272] == unit.ram[LINE:ABOVE], is_kept)


def longest_read() -> None:
    """Three fills by bytes, each dropped: 48 cycles fill the log of 144 words."""
    unit, log = _unit(), [7] * LOG_WORDS
    group = [KEN + BS8] * 15 + [BS8]
    result = read(unit, LINE + 5, 8, answers_of(group, group, group), log=log)
    check("cycles", result.cycles, 48)
    check("log", log, [word for record in result.records for word in record])
    check("value", result.value, _value(unit.ram, LINE + 5))
    starts = [record.address for record in result.records[::16]]
    check("each from its own", starts, [LINE + 4, LINE + 8, LINE + 12])
    last = [index for index, flag in enumerate(flags(result)) if flag & LAST]
    check("64", last, [15, 31, 47])


def lines_held() -> None:
    """Three doublewords in two lines, the middle one in the lower or the upper; neither line held,
    one, or both. Filled and not filled."""
    for start, lower, upper in product((9, 11, 12, 13, 15), (False, True), (False, True)):
        for answers in (ALL_KEN, NO_KEN):
            unit = _unit()
            for line, is_held in ((LINE, lower), (ABOVE, upper)):
                if is_held:
                    read(unit, line, 4)
            result = read(unit, LINE + start, 8, answers)
            check("value", result.value, _value(unit.ram, LINE + start))
            expected = _missed(LINE + start, (lower, upper), answers is ALL_KEN)
            check(f"at {start} {lower} {upper}", address_flags(result), expected)
            fills = answers is ALL_KEN
            both = held(unit, LINE) is not None, held(unit, ABOVE) is not None
            check("held", both, (lower or fills, upper or fills))


def _missed(address: int, held_lines: tuple[bool, bool], fills: bool) -> list[tuple[int, int]]:
    """The records of the doublewords whose line is not held; the first of a line fills it."""
    is_held, made = list(held_lines), []
    for doubleword, flag in _plain_flags(address, (0, 0, 0)):
        upper = doubleword >= ABOVE
        if not is_held[upper]:
            made += _fill_flags(doubleword) if fills else [(doubleword, flag)]
            is_held[upper] = fills
    return made


def one_hit() -> None:
    """Each of the three hits alone. The middle one does so where the lowest has just filled their
    line; the array's bytes are seen in the doubleword that hits, RAM's in the others."""
    for start, line, groups, cycles in (
        (13, LINE, ([0], [0], [0]), 2),
        (11, ABOVE, ([0], [0], [0]), 2),
        (11, None, ([1], [0], [0]), 5),
        (13, None, ([0], [1], [0]), 5),
    ):
        unit = _unit()
        if line is not None:
            store_line(unit, set_of(line), 2, 0)
        result = read(unit, LINE + start, 8, answers_of(*groups))
        check(f"cycles at {start}", result.cycles, cycles)
        expected = bytearray(unit.ram[LINE + start : LINE + start + 8])
        for index, address in enumerate(range(LINE + start, LINE + start + 8)):
            if line is not None and line <= address < line + 16:
                expected[index] = unit.data[data_offset(set_of(line), 2) + address % 16]
        check("value", result.value, int.from_bytes(expected, "little"))


def uses() -> None:
    """Each touched line is used, whichever doublewords lie in it."""
    for start in (1, 9, 13):
        unit = _unit()
        store_line(unit, 4, 2, 0)
        store_line(unit, 5, 1, 0)
        unit.directory.lru[4] = unit.directory.lru[5] = 3
        check("hits", read(unit, LINE + start, 8).cycles, 0)
        # Way 2 "clears B0, sets B2", way 1 "sets B0, clears B1".
        check("used", unit.directory.lru[4:6], [6, 1 if start > 8 else 3])


# --- writes


def writes_by_mode() -> None:
    """Hits and misses of a write over two lines, in each mode: with CD = NW = 1 a doubleword that
    hits stays inside, judged for each."""
    for cd, nw, start in product((False, True), (False, True), (1, 9, 12, 13)):
        for lines in ((), (LINE,), (ABOVE,), (LINE, ABOVE)):
            _write_with_lines(cd, nw, LINE + start, lines)


def _write_with_lines(cd: bool, nw: bool, address: int, lines: Sequence[int]) -> None:
    unit = _unit()
    for line in lines:
        read(unit, line, 4)
    unit.directory.cd, unit.directory.nw = cd, nw
    before, arrays = bytes(unit.ram), bytes(unit.data)
    result = write(unit, address, 8, VALUE, NO_KEN)
    through = [
        (doubleword, flag + 16)
        for doubleword, flag in _plain_flags(address, (0, 0, 0))
        if not (cd and nw and doubleword - doubleword % 16 in lines)
    ]
    check(f"write at {address:x} {lines}", address_flags(result), through)
    expected, array = bytearray(before), bytearray(arrays)
    for place, byte in enumerate(VALUE.to_bytes(8, "little"), start=address):
        line = place - place % 16
        if not (cd and nw and line in lines):
            expected[place] = byte
        if line in lines:
            array[data_offset(set_of(line), 0) + place % 16] = byte
    check("RAM", unit.ram, expected)
    check("array", unit.data, array)
    check("parity", memory.parity_agrees(unit.ram, unit.parity), True)
    check("no fill", sum(unit.directory.valid), len(lines))


def parity_of_three() -> None:
    """A fault in each doubleword shows in the cycles that move its lane, and in no other."""
    for place, size in product(range(8), (0, BS16, BS8)):
        unit = _unit()
        unit.parity[(LINE + 3 + place) // 4] ^= 1 << (LINE + 3 + place) % 4
        result = read(unit, LINE + 3, 8, [size] * ANSWERS)
        lane = 1 << (LINE + 3 + place) % 4
        doubleword = (LINE + 3 + place) // 4 * 4
        wrong = [record.flags >= 128 for record in result.records]
        moved = [r.address == doubleword and bool(r.flags & lane) for r in result.records]
        check(f"fault at {place}", wrong, moved)


# --- carried writes


def _cycle_of_each_byte(address: int, size: int) -> list[int]:
    """The number of the cycle that moves each of eight bytes, no doubleword filling."""
    numbers = {}
    for number, (doubleword, flag) in enumerate(_plain_flags(address, (size,) * 3)):
        for lane in range(4):
            if flag >> lane & 1:
                numbers[doubleword + lane] = number
    return [numbers[byte] for byte in range(address, address + 8)]


def carried_by_byte() -> None:
    """C-12: "every wanted byte is what it holds at that byte's cycle", counted over all three
    doublewords; the plain memory is told so by the records."""
    for start, size in product((0, 1, 2, 3, 5, 8), (0, BS16, BS8)):
        numbers = _cycle_of_each_byte(LINE + start, size)
        for number in range(numbers[-1] + 2):
            unit = _unit()
            plain, old = PlainMemory(bytearray(unit.ram)), unit.ram[LINE + start :][:8]
            new = bytes(byte ^ 0x57 for byte in old)
            carried = [CarriedWrite(number, LINE + start, new)]
            answers = [size] * ANSWERS
            result = read_carrying(unit, LINE + start, 8, carried, answers)
            expected = bytes(
                new[index] if number <= cycle else old[index]
                for index, cycle in enumerate(numbers)
            )
            value = int.from_bytes(expected, "little")
            check(f"{start} by {size} at {number}", result.value, value)
            told = (answers, LOG_WORDS, carried, result.records)
            check("plain", plain.read_carrying(LINE + start, 8, False, *told), (0, value))


def carried_into_fills() -> None:
    """A write into the line at each number. The lowest doubleword makes cycle 0, the middle one a
    fill of 1 to 4, and the upper one, where that is dropped, a fill of 5 to 8."""
    for number in range(11):
        unit = _unit()
        old = bytes(unit.ram)
        carried = [CarriedWrite(number, LINE + 12, b"\xf5\xfa")]
        result = read_carrying(unit, LINE + 1, 8, carried, answers_of([0], [1], [1]))
        plain = _plain_flags(LINE + 1, (0, 0, 0))
        expected = plain[:1] + _fill_flags(LINE + 4)
        if 2 <= number <= 4:
            expected += _fill_flags(LINE + 8)
        check(f"records with {number}", address_flags(result), expected)
        check("value", result.value, _value(old, LINE + 1))
        # Numbered past the last cycle it snoops the line that was kept.
        check(f"held with {number}", held(unit, LINE) is not None, number <= 4)


def carried_before_lookups() -> None:
    """A line that the upper doubleword's lookup would find, ended by a write ahead of a cycle of
    the lowest or the middle one; with the number that its own first cycle would have it hits."""
    for number in range(4):
        unit = _unit()
        read(unit, ABOVE, 4)
        plain, old = PlainMemory(bytearray(unit.ram)), bytes(unit.ram)
        carried = [CarriedWrite(number, ABOVE, b"\xf5\xfa")]
        result = read_carrying(unit, LINE + 10, 8, carried, NO_KEN)
        missed = number < 2
        check(f"cycles with {number}", result.cycles, 3 if missed else 2)
        seen = 0xFAF5 if missed else _value(old, ABOVE, 2)
        check("value", result.value, _value(old, LINE + 10, 6) + (seen << 48))
        told = (NO_KEN, LOG_WORDS, carried, result.records)
        answer = plain.read_carrying(LINE + 10, 8, False, *told)
        check("plain", answer, (0, result.value))


# --- the program


def _rows(*lines: bytes) -> list[bytes]:
    """What the last columns show for these lines, after C 0 0."""
    text = b"C\t0\t0\n" + b"\n".join(lines)
    return [row.split(b"\t", 1)[1] for row in events.run_program(text).splitlines()[2:]]


def value_field() -> None:
    """ "W's value field takes any 64-bit number, 1 to 20 digits", whatever the width; one too large
    for its width gets 8, and other numbers keep ten digits."""
    for width in (1, 2, 3, 4, 8):
        for text, value in (
            *((b"0" * digits, 0) for digits in range(1, 21)),
            *((b"7".zfill(digits), 7) for digits in range(1, 21)),
            *((b"%d" % 10**zeros, 10**zeros) for zeros in range(20)),
            *((b"%d" % value, value) for value in (255, 256, 65_535, 65_536)),
            *((b"%d" % value, value) for value in (2**32 - 1, 2**32, 2**63, 2**64 - 1)),
            *((text, None) for text in (b"", b"0" * 21, b"7".zfill(21), b"1" * 21)),
            *((b"%d" % value, None) for value in (2**64, 2**64 + 7, 10**20 - 1, 10**20)),
        ):
            number = 11 if value is None else 4 if width == 3 else 0
            number = number or (8 if (value or 0) >= 256**width else 0)
            answer = _rows(b"W\t0\t%d\t%b" % (width, text))[0].split(b"\t")[0]
            check(f"W of {width}: {text!r}", int(answer), number)
    for line in (b"R\t%b\t8\t0", b"R\t0\t%b\t0", b"W\t%b\t8\t0", b"W\t0\t%b\t0", b"X\t%b\tAA"):
        for text in (b"00000000008", b"4294967296", b"18446744073709551615"):
            check(f"{line!r} with {text!r}", _rows(line % text), [b"11\t0\t0"])


def rows_of_eight_bytes() -> None:
    """Values of twenty digits in a row, over one line, two, and at RAM's end."""
    largest = b"18446744073709551615"
    for address, write_cycles, read_cycles in ((0, 2, 4), (9, 3, 8), (12, 2, 8), (65_528, 2, 4)):
        wrote, seen, again, half = _rows(
            b"W\t%d\t8\t%b" % (address, largest),
            b"R\t%d\t8\t0" % address,
            b"R\t%d\t8\t1" % address,
            b"R\t%d\t4\t1" % (address + 4),
        )
        check("write", wrote, b"0\t0\t%d" % write_cycles)
        check("read", seen, b"0\t%b\t%d" % (largest, read_cycles))
        check("again", (again, half), (b"0\t%b\t0" % largest, b"0\t4294967295\t0"))
    beyond = _rows(*(b"R\t%d\t8\t0" % address for address in (65_528, 65_529, 65_535)))
    check("at RAM's end", beyond, [b"0\t0\t4", b"5\t0\t0", b"5\t0\t0"])


def readings() -> None:
    for group in (
        widths,
        ends_of_ram,
        counts_for_all_widths,
        values_by_width,
        order_of_numbers,
        touched_sets,
        source_tables,
        groups_of_answers,
        one_after_the_other,
        own_last_cycle,
        board_table,
        fills_in_one_line,
        longest_read,
        lines_held,
        one_hit,
        uses,
        writes_by_mode,
        parity_of_three,
        carried_by_byte,
        carried_into_fills,
        carried_before_lookups,
        value_field,
        rows_of_eight_bytes,
    ):
        group()
