"""Reads that carry external writes: source document 002's timing of writes into a line that is
being filled, lookups, victims, order, modes and parity."""

from collections.abc import Sequence
from itertools import product

from unit486_model.bus import ANSWERS, BS8, KEN, WRONG
from unit486_model.carried import CarriedWrite
from unit486_model.events import NUMBER_LIMIT
from unit486_model.memory import parity_for

from checks.carried import FILLS
from checks.unit_calls import ALL_KEN, NO_KEN, answers_of
from checks.vectors import LRU_TABLE

from .carried_numbers import carried_numbers
from .expected_reads import Course, Ends, Fill, Hit, Plain, carries, ram_at
from .source_tables import AddressFlags, fill_records, plain_records
from .writer import Script

RAM_BYTES = 0x2850

# Two lines of set 4, and the line above the first.
LINE, OTHER, ABOVE = 0x40, 0x840, 0x50


def carried() -> Script:
    script = Script("carried.txt")
    _timing_of_a_fill(script)
    _timing_after_a_doubleword(script)
    _timing_of_a_held_line(script)
    _timing_of_a_kept_line(script)
    _one_line(script)
    _two_lines(script)
    _victims(script)
    _list_order(script)
    _snoops_off(script)
    _no_fills(script)
    _parity(script)
    _hits(script)
    carried_numbers(script)
    return script


def _write(script: Script, cycle: int, address: int, count: int = 1) -> CarriedWrite:
    """A write of bytes that RAM does not have there, each with the other DP bit."""
    written = bytes(byte ^ 0x57 for byte in script.unit.ram[address : address + count])
    return CarriedWrite(cycle, address, written)


def _new(script: Script, cd: bool = False, nw: bool = False) -> None:
    script.new(ram=RAM_BYTES, cd=cd, nw=nw)


def _empty(script: Script) -> None:
    """No line is held any more."""
    for index, valid in enumerate(script.directory.valid):
        if valid:
            script.store("K", index, 0)


# --- the timing table


def _timing_of_a_fill(script: Script) -> None:
    """Before the first cycles of a fill that begins the access, one half way, the last, and past
    it: bytes 6 to 8, of which the wanted doubleword has two and the last one in burst order the
    third."""
    for size, cycles in FILLS:
        _new(script)
        answers = [KEN + size] * ANSWERS
        numbers = {0, 1, 2, 3, cycles // 2, cycles - 1, cycles, NUMBER_LIMIT}
        for place, number in enumerate(sorted(numbers)):
            line, past = 16 * place, number >= cycles
            fill = Fill(fill_records(line + 4, answers), 0 if number == 0 or past else None)
            course = [fill, Ends(line, 0)] if past else [fill]
            carries(script, line + 4, 4, [_write(script, number, line + 6, 3)], course, answers)


def _crossing(above: int, size: int) -> tuple[AddressFlags, AddressFlags, list[int]]:
    """Two bytes below a line and two in it, the lower ones without KEN#: the records of both
    doublewords, and the answers."""
    answers = answers_of([size], [KEN + size])
    lower, upper = plain_records(above - 2, 2, answers), fill_records(above, answers[16:])
    return lower, upper, answers


def _timing_after_a_doubleword(script: Script) -> None:
    """The upper doubleword's fill begins with the number of the lower's cycles."""
    for size, cycles in FILLS:
        _new(script)
        first = 2 if size == BS8 else 1
        numbers = (first - 1, first, first + 1, first + cycles - 1, first + cycles)
        for place, number in enumerate(numbers, start=1):
            above, past = 32 * place, number >= first + cycles
            lower, upper, answers = _crossing(above, size)
            fill = Fill(upper, 0 if number <= first or past else None)
            course = [Plain(lower), fill, *([Ends(above, 0)] if past else [])]
            carries(script, above - 2, 4, [_write(script, number, above, 2)], course, answers)


def _timing_of_a_held_line(script: Script) -> None:
    """A line that the upper doubleword's lookup would find: ended in the lower's cycles it misses;
    with the number that its own first cycle would have, the write comes after the lookup."""
    for size, _ in FILLS:
        _new(script)
        lower, upper, answers = _crossing(ABOVE, size)
        script.store_line(5, 2, 0)
        write = _write(script, len(lower), ABOVE, 2)
        carries(script, ABOVE - 2, 4, [write], [Plain(lower), Hit(2), Ends(ABOVE, 2)], answers)
        script.store_line(5, 2, 0)
        write = _write(script, len(lower) - 1, ABOVE, 2)
        course = [Plain(lower), Ends(ABOVE, 2), Fill(upper, 0)]
        carries(script, ABOVE - 2, 4, [write], course, answers)


def _timing_of_a_kept_line(script: Script) -> None:
    """While the upper doubleword's cycles go by, the line that the lower one kept is any other."""
    _new(script)
    for size, cycles in FILLS:
        answers = [KEN + size] * ANSWERS
        lower, upper = fill_records(LINE + 12, answers), fill_records(ABOVE, answers)
        for number in (cycles, 2 * cycles - 1) if size == 0 else (cycles,):
            _empty(script)
            course = [Fill(lower, 0), Ends(LINE, 0), Fill(upper, 0)]
            carries(script, LINE + 14, 4, [_write(script, number, LINE + 14, 2)], course, answers)


# --- two doublewords


def _one_line(script: Script) -> None:
    """Kept, the upper doubleword hits; dropped, it misses and makes cycles of its own. Its bytes
    are then those of its own cycles, though the lower's fill has brought some in too."""
    lower, upper = fill_records(LINE, ALL_KEN), fill_records(LINE + 4, [5] * 16)
    first_only = answers_of([1, 0], [5])
    plain = Plain(plain_records(LINE + 2, 2, NO_KEN))
    cases: list[tuple[list[int], tuple[int, ...], Course]] = [
        ([], (4,), [Fill(lower, 0), Hit(0), Ends(LINE, 0)]),
        ([], (2,), [Fill(lower, None), Fill(upper, 0)]),
        ([], (1, 3, 4), [Fill(lower, None), Fill(upper, 0)]),
        ([], (1, 5), [Fill(lower, None), Fill(upper, None)]),
        ([], (3, 11), [Fill(lower, None), Fill(upper, None)]),
        ([], (0, 12), [Fill(lower, 0), Hit(0), Ends(LINE, 0)]),
        (first_only, (4,), [Fill(lower, None), Fill(upper, 0)]),
        (first_only, (12,), [Fill(lower, None), Fill(upper, 0), Ends(LINE, 0)]),
        (answers_of([0], [5]), (1,), [plain, Fill(upper, 0)]),
        (answers_of([0], [5]), (2,), [plain, Fill(upper, None)]),
    ]
    _new(script)
    for answers, numbers, course in cases:
        _empty(script)
        places = ((number, LINE + 4 - place) for place, number in enumerate(numbers))
        writes = [_write(script, number, address, 2) for number, address in places]
        carries(script, LINE + 2, 4, writes, course, answers or answers_of([1], [5]))
    _empty(script)
    answers = answers_of([3], [1])
    by_bytes = Fill(fill_records(LINE, answers), None)
    course = [by_bytes, Fill(fill_records(LINE + 4, ALL_KEN), 0)]
    carries(script, LINE + 2, 4, [_write(script, 15, LINE + 4)], course, answers)


def _two_lines(script: Script) -> None:
    """Hit below and miss above, miss below and hit above, two hits: a doubleword that hits has its
    bytes from the lookup, and no write lands for it."""
    lower, upper = fill_records(LINE + 12, ALL_KEN), fill_records(ABOVE, ALL_KEN)
    last_two = Plain(plain_records(ABOVE, 2, NO_KEN))
    cases: list[tuple[Sequence[int], Sequence[int], list[tuple[int, int]], Course]] = [
        ((4,), ALL_KEN, [(0, LINE + 14)], [Hit(1), Ends(LINE, 1), Fill(upper, 0)]),
        ((4,), ALL_KEN, [(0, ABOVE)], [Hit(1), Fill(upper, 0)]),
        ((4,), ALL_KEN, [(1, ABOVE)], [Hit(1), Fill(upper, None)]),
        ((4,), ALL_KEN, [(4, ABOVE)], [Hit(1), Fill(upper, 0), Ends(ABOVE, 0)]),
        ((4,), NO_KEN, [(0, ABOVE), (1, LINE + 14)], [Hit(1), last_two, Ends(LINE, 1)]),
        ((5,), ALL_KEN, [(4, ABOVE)], [Fill(lower, 0), Hit(1), Ends(ABOVE, 1)]),
        ((5,), ALL_KEN, [(3, ABOVE)], [Fill(lower, 0), Ends(ABOVE, 1), Fill(upper, 0)]),
        (
            (5,),
            ALL_KEN,
            [(2, ABOVE), (4, ABOVE)],
            [Fill(lower, 0), Ends(ABOVE, 1), Fill(upper, 0)],
        ),
        ((5,), ALL_KEN, [(1, LINE), (3, LINE)], [Fill(lower, None), Hit(1)]),
        (
            (4, 5),
            ALL_KEN,
            [(0, LINE + 15), (0, ABOVE)],
            [Hit(1), Hit(1), Ends(LINE, 1), Ends(ABOVE, 1)],
        ),
    ]
    _new(script)
    for sets, answers, places, course in cases:
        _empty(script)
        for set_index in sets:
            script.store_line(set_index, 1, 0)
        writes = [_write(script, number, address, 1) for number, address in places]
        carries(script, LINE + 14, 4, writes, course, answers)


# --- victims and order


def _full_set(script: Script) -> None:
    """Tags 1 to 4 in set 4, with the LRU number that names way 3."""
    for way in range(4):
        script.store_line(4, way, way + 1)
    script.lru(4, 5)


def _victims(script: Script) -> None:
    """A line of the set that has ended by the fill's last cycle is the victim; past it the LRU
    number names one, and a line that was replaced is not there to end."""
    fill = fill_records(LINE, ALL_KEN)
    tag = {way: 0x800 * (way + 1) + LINE for way in range(4)}
    named = LRU_TABLE[5][1]
    _new(script)
    for way, number in ((0, 0), (0, 3), (0, 4), (2, 3), (3, 0), (3, 4)):
        _full_set(script)
        course: Course = [Ends(tag[way], way), Fill(fill, way)]
        if number == 4:
            course = [Fill(fill, named), *([Ends(tag[way], way)] if way != named else [])]
        carries(script, LINE, 4, [_write(script, number, tag[way] + 9)], course)
    _full_set(script)
    both = [_write(script, 1, tag[2]), _write(script, 2, tag[1])]
    carries(script, LINE, 4, both, [Ends(tag[2], 2), Ends(tag[1], 1), Fill(fill, 1)])
    _full_set(script)
    spoiled = [_write(script, 1, LINE + 8), _write(script, 1, tag[1])]
    carries(script, LINE, 4, spoiled, [Ends(tag[1], 1), Fill(fill, None)])
    _full_set(script)
    script.mode(False, True)
    carries(script, LINE, 4, [_write(script, 1, tag[1])], [Fill(fill, named)])


def _list_order(script: Script) -> None:
    """Four writes at one number, each over bytes of another, in two orders; and numbers in order
    with writes over each other's bytes between the cycles that move them."""
    fill = fill_records(LINE, ALL_KEN)
    places = ((8, 8), (6, 4), (9, 3), (10, 1))
    _new(script)
    for number, order in product((0, 2, 4), (1, -1)):
        _empty(script)
        writes = [
            CarriedWrite(number, LINE + byte, bytes(range(16 * byte, 16 * byte + count)))
            for byte, count in places[::order]
        ]
        course: Course = [Fill(fill, 0 if number != 2 else None)]
        carries(script, LINE, 4, writes, [*course, Ends(LINE, 0)] if number > 3 else course)
    _empty(script)
    writes = [CarriedWrite(cycle, LINE + 4, bytes([16 * cycle + 9] * 12)) for cycle in (1, 2, 3, 4)]
    carries(script, LINE, 4, writes, [Fill(fill, None)])
    _empty(script)
    writes = [CarriedWrite(cycle, OTHER, bytes([cycle + 1] * 16)) for cycle in (0, 1, 1, 3)]
    carries(script, LINE, 4, writes, [Fill(fill, 0)])


# --- modes, parity, hits


def _snoops_off(script: Script) -> None:
    """With NW = 1 no line ends, but a fill is dropped as ever."""
    fill = fill_records(LINE, ALL_KEN)
    _new(script, nw=True)
    for number, address in product((0, 2, 4), (LINE + 8, OTHER)):
        _empty(script)
        script.store_line(4, 0, 1)
        dropped = number == 2 and address != OTHER
        course = [Fill(fill, None if dropped else 1)]
        carries(script, LINE, 4, [_write(script, number, address)], course)
    for cd, hit in product((False, True), (OTHER, OTHER + 7)):
        script.mode(cd, True)
        carries(script, hit, 1, [_write(script, 0, OTHER), _write(script, 9, OTHER)], [Hit(0)])
    _empty(script)
    script.store_line(4, 0, 1)
    course = [Plain(plain_records(LINE, 4, ALL_KEN))]
    carries(script, LINE, 4, [_write(script, 0, LINE), _write(script, 0, OTHER)], course)


def _no_fills(script: Script) -> None:
    """CD, PCD or no KEN#: the wanted bytes only, each as it is in its own cycle."""
    reasons = ((KEN, True, False), (KEN, False, True), (0, False, False))
    for (size, _), (ken, cd, pcd) in zip(FILLS, reasons):
        _new(script, cd=cd)
        answers = [size + ken] * ANSWERS
        lower = plain_records(LINE + 1, 3, answers)
        course = [Plain(lower), Plain(plain_records(LINE + 4, 1, answers[16:]))]
        for number in range(len(lower) + 2):
            writes = [_write(script, number, LINE + 1, 4)]
            carries(script, LINE + 1, 4, writes, course, answers, pcd)
    _new(script, cd=True)
    script.store_line(4, 3, 1)
    ended = [Ends(OTHER, 3), Plain(plain_records(LINE, 4, ALL_KEN))]
    carries(script, LINE, 4, [_write(script, 0, OTHER + 15)], ended)


def _wrong_in(records: AddressFlags, *places: int) -> AddressFlags:
    """The records with 128 in these."""
    return [
        (address, flags + (WRONG if place in places else 0))
        for place, (address, flags) in enumerate(records)
    ]


def _parity(script: Script) -> None:
    """Wrong DP bits of the doubleword that a fill moves in cycle 2, made before and mended by a
    carried write; the upper four bits become 0 with it. A lane that is not written stays wrong."""
    fill = fill_records(LINE, ALL_KEN)
    for number, left in ((0, 0), (2, 0), (2, 4), (3, 0), (3, 4), (4, 0)):
        _new(script)
        script.flip(LINE // 4 + 2, 0xF2 + left)
        writes = [_write(script, number, LINE + 9)]
        wrong = (2,) if number > 2 or left else ()
        kept = Fill(_wrong_in(fill, *wrong), 0 if number in (0, 4) else None)
        course = [kept, Ends(LINE, 0)] if number == 4 else [kept]
        after = _parity_after(script, writes, LINE // 4 + 2, left)
        carries(script, LINE, 4, writes, course, parity=after)
    for number in (1, 2):
        _new(script)
        script.flip(LINE // 4, 0x13)
        writes = [_write(script, number, LINE + 1)]
        answers = [BS8] * ANSWERS
        records = plain_records(LINE, 4, answers)
        course = [Plain(_wrong_in(records, *((0,) if number < 2 else (0, 1))))]
        after = _parity_after(script, writes, LINE // 4, 1)
        carries(script, LINE, 4, writes, course, answers, parity=after)


def _parity_after(script: Script, writes: Sequence[CarriedWrite], index: int, left: int) -> bytes:
    """Parity that agrees with RAM after the writes but for the lanes that are left wrong."""
    after = parity_for(bytearray(ram_at(bytes(script.unit.ram), writes, NUMBER_LIMIT)))
    after[index] ^= left
    return bytes(after)


def _hits(script: Script) -> None:
    """No cycle: all writes land after the value is taken, whatever their numbers."""
    _new(script)
    for number, pcd in ((0, False), (1, True), (NUMBER_LIMIT, False)):
        _empty(script)
        script.store_line(4, 2, 0)
        script.store_line(4, 1, 1)
        writes = [_write(script, number, LINE + 5, 2), _write(script, number, OTHER, 3)]
        writes += [_write(script, NUMBER_LIMIT, 0x60, 16), _write(script, NUMBER_LIMIT, LINE + 5)]
        course = [Hit(2), Ends(LINE, 2), Ends(OTHER, 1)]
        carries(script, LINE + 4, 4, writes, course, pcd=pcd)
        carries(script, LINE + 4, 4, [], [Fill(fill_records(LINE + 4, ALL_KEN), 0)])
