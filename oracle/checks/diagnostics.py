"""Sentences of document 02's request C-11 that could be read in two ways, each with an input that
tells."""

from collections.abc import Callable
from itertools import product

from unit486_model import access
from unit486_model.access import Part, Result
from unit486_model.diagnostics import TestLine
from unit486_model.directory import LRU_LIMIT, SETS, TAG_LIMIT, WAYS, line_index
from unit486_model.events import NUMBER_LIMIT, Unit
from unit486_model.plain import Comparison, PlainMemory

from .unit_calls import (
    NO_KEN,
    address_flags,
    check,
    external,
    held,
    read,
    snapshot,
    store_line,
    test_read,
    test_write,
    unit_of,
    view,
    write,
)

SIXTEEN = bytes(range(0xE0, 0xF0))
ZEROS = (0, False, 0, bytes(16))


def what_is_put() -> None:
    """ "puts a tag, a valid mark and sixteen bytes in a given set and way": all three, with an
    invalid mark too, and nothing else."""
    for set_index, way, valid in product((0, 64, SETS - 1), range(WAYS), (True, False)):
        unit = unit_of(cd=True)
        unit.directory.lru[set_index] = 5
        before = snapshot(unit)
        check("put", test_write(unit, set_index, way, 77, valid, SIXTEEN), Result(0))
        got = test_read(unit, set_index, way)
        check("returned", got, TestLine(0, 77, valid, 5, SIXTEEN))
        tags, marks, *kept = snapshot(unit)
        index = set_index * 4 + way
        check("one tag", tags, before[0][:index] + [77] + before[0][index + 1 :])
        check("one mark", marks, before[1][:index] + [valid] + before[1][index + 1 :])
        check("LRU, CD, NW, ranges, RAM, parity", tuple(kept[:-1]), before[2:-1])
        data = before[-1][: 16 * index] + SIXTEEN + before[-1][16 * index + 16 :]
        check("sixteen bytes", kept[-1], data)


def marks() -> None:
    """An invalid mark drops a line that was held; the tag below it is no tag that counts."""
    unit = unit_of()
    read(unit, 0x40, 4)
    unit.directory.cd = True
    check("held", held(unit, 0x40), 0)
    test_write(unit, 4, 0, 0, False, SIXTEEN)
    check("dropped", held(unit, 0x40), None)
    check("RAM's", read(unit, 0x40, 1).value, unit.ram[0x40])
    test_write(unit, 4, 1, 0, True, SIXTEEN)
    check("one valid line with the tag", read(unit, 0x40, 1).value, SIXTEEN[0])


def no_uses() -> None:
    """ "Neither changes the LRU number": neither is a use, whichever way it names, and the victim
    stays what it was."""
    for lru, victim in ((0, 0), (2, 1), (1, 2), (5, 3)):
        unit = unit_of(0x2800, cd=True)
        unit.directory.lru[4] = lru
        for way in (2, 0, 3, 1):
            test_write(unit, 4, way, way, True, SIXTEEN)
            check("the set's number", test_read(unit, 4, way).lru, lru)
        unit.directory.cd = False
        read(unit, 0x2040, 4)
        check("victim", held(unit, 0x2040), victim)


def modes() -> None:
    """ "Both work only with CD = 1", with either NW; 31 also where the pair 0, 1 is held."""
    for cd, nw in product((False, True), repeat=2):
        unit = unit_of(cd=cd, nw=nw)
        before = snapshot(unit)
        number = 0 if cd else 31
        check("read", test_read(unit, 3, 1), TestLine(number, *ZEROS))
        check("write", test_write(unit, 3, 1, 9, True, SIXTEEN).number, number)
        check("changed", snapshot(unit) != before, cd)


def order_of_numbers() -> None:
    """ "31 where CD = 0, after 3; 32 ..., after 31", each limit on either side."""
    unit = unit_of(cd=False)
    unit.data.pop()
    check("3 first", test_write(unit, 128, 4, TAG_LIMIT + 1, True, SIXTEEN), Result(3))
    check("3 first", test_read(unit, 128, 4), TestLine(3, *ZEROS))
    unit = unit_of(cd=False)
    check("then 31", test_write(unit, 128, 4, TAG_LIMIT + 1, True, SIXTEEN), Result(31))
    check("then 31", test_read(unit, 128, 4), TestLine(31, *ZEROS))
    unit = unit_of(cd=True)
    for set_index, way, tag in ((127, 3, TAG_LIMIT), (0, 0, 0)):
        check("in", test_write(unit, set_index, way, tag, True, SIXTEEN), Result(0))
    before = snapshot(unit)
    outside = ((128, 0, 0), (0, 4, 0), (NUMBER_LIMIT, NUMBER_LIMIT, 0), (0, 0, TAG_LIMIT + 1))
    for set_index, way, tag in outside:
        for valid in (True, False):
            result = test_write(unit, set_index, way, tag, valid, SIXTEEN)
            check("32, with either mark", result, Result(32))
        if tag == 0:
            check("32", test_read(unit, set_index, way), TestLine(32, *ZEROS))
    check("nothing changed", snapshot(unit), before)


def no_lengths_but_the_array() -> None:
    """Test calls receive no RAM: its length and the parity array's have no part in them."""
    unit = unit_of(cd=True)
    unit.ram.pop()
    unit.parity.pop()
    check("write", test_write(unit, 0, 0, 1, True, SIXTEEN), Result(0))
    check("read", test_read(unit, 0, 0), TestLine(0, 1, True, 0, SIXTEEN))


def no_state_check() -> None:
    """A test read shows an LRU number above 7 and a tag above the limit as they are; 32 of a tag
    is a write's alone."""
    unit = unit_of(cd=True)
    for way in (1, 2):
        store_line(unit, 6, way, NUMBER_LIMIT)
    unit.directory.lru[6] = LRU_LIMIT + 9
    got = test_read(unit, 6, 2)
    check("as they are", got[:4], (0, NUMBER_LIMIT, True, LRU_LIMIT + 9))
    check("a set with 21 to 23", test_write(unit, 6, 1, 3, True, SIXTEEN), Result(0))
    check("its number stays", test_read(unit, 6, 1), TestLine(0, 3, True, LRU_LIMIT + 9, SIXTEEN))
    check("22 comes before 23", access.snoop(unit.directory, 0x60), Result(22))
    test_write(unit, 6, 2, 4, True, SIXTEEN)
    check("23 is left", access.snoop(unit.directory, 0x60), Result(23))


def bytes_ram_never_held() -> None:
    """ "can plant bytes that RAM never held": a hit reads them, a view shows them, a write hit goes
    to the array and to RAM, and with CD = NW = 1 to the array alone."""
    unit = unit_of(cd=True)
    before = bytes(unit.ram)
    test_write(unit, 4, 2, 1, True, SIXTEEN)
    check("read", read(unit, 0x844, 4), Result(0, int.from_bytes(SIXTEEN[4:8], "little")))
    check("RAM's other line", read(unit, 0x44, 1).value, before[0x44])
    check("view", view(unit, 0x84F), (0, Part("data", (4 * 4 + 2) * 16, 16)))
    check("write", address_flags(write(unit, 0x845, 1, 9, NO_KEN)), [(0x844, 82)])
    check("RAM", bytes(unit.ram), before[:0x845] + b"\x09" + before[0x846:])
    check("the array", test_read(unit, 4, 2).sixteen, SIXTEEN[:5] + b"\x09" + SIXTEEN[6:])
    unit.directory.nw = True
    check("inside", write(unit, 0x840, 1, 8), Result(0))
    check("RAM stays", unit.ram[0x840], before[0x840])


def a_tag_twice() -> None:
    """ "or a tag twice, and then 21 is met", by each call that checks the set, until a flush or a
    test write ends it."""
    unit = unit_of(cd=True)
    for way in (0, 3):
        test_write(unit, 4, way, 1, True, SIXTEEN)
    address = 0x847
    asked: list[Callable[[], int]] = [
        lambda: read(unit, address, 1).number,
        lambda: write(unit, address, 1, 1).number,
        lambda: external(unit, address, b"a").number,
        lambda: access.snoop(unit.directory, address).number,
        lambda: view(unit, address)[0],
    ]
    check("21", [number() for number in asked], [21] * 5)
    check("any tag of the set", read(unit, 0x40, 1), Result(21))
    check("not test calls", test_read(unit, 4, 3), TestLine(0, 1, True, 0, SIXTEEN))
    test_write(unit, 4, 3, 1, False, SIXTEEN)
    check("one of them invalid", read(unit, address, 1).value, SIXTEEN[7])
    test_write(unit, 4, 3, 1, True, SIXTEEN)
    access.flush(unit.directory)
    check("after a flush", read(unit, address, 1).value, unit.ram[address])


def beyond_ram() -> None:
    """The largest tag names a line beyond RAM: a test write takes it, a snoop drops it."""
    unit = unit_of(32, cd=True)
    check("put", test_write(unit, SETS - 1, 3, TAG_LIMIT, True, SIXTEEN), Result(0))
    check("no read", read(unit, NUMBER_LIMIT, 1), Result(5))
    check("snoop", access.snoop(unit.directory, NUMBER_LIMIT), Result(0))
    check("dropped", unit.directory.valid[line_index(SETS - 1, 3)], False)


def _compared() -> tuple[Unit, Comparison]:
    unit = unit_of(cd=True)
    return unit, Comparison(PlainMemory(bytearray(unit.ram)))


def _planted(unit: Unit, comparison: Comparison, tag: int, valid: bool) -> bool:
    """Whether calls are compared after a test write in way 0 of set 4."""
    result = test_write(unit, 4, 0, tag, valid, SIXTEEN)
    comparison.after_test_write(result.number)
    return comparison.compared


def stretches() -> None:
    """ "up to its first accepted test write": an invalid mark ends the stretch too, a refused test
    write does not. "From the next flush or reset on": that call is compared, and the memory is
    begun anew from RAM as it then is, not from the one that was left."""
    for tag, valid, compared in ((0, True, False), (0, False, False), (TAG_LIMIT + 1, True, True)):
        unit, comparison = _compared()
        check("compared", _planted(unit, comparison, tag, valid), compared)
    unit, comparison = _compared()
    _planted(unit, comparison, 0, True)
    unit.directory.nw = True
    write(unit, 0x40, 1, 5)
    comparison.plain.write(0x40, 1, 5, NO_KEN, 144)
    check("inside", unit.ram[0x40] != comparison.plain.bytes_held[0x40], True)
    comparison.before_flush_or_reset(unit.ram)
    access.flush(unit.directory)
    check("anew", (comparison.compared, comparison.plain.bytes_held), (True, unit.ram))
    check("a value again", read(unit, 0x40, 1).value, comparison.plain.bytes_held[0x40])
    check("another test write", _planted(unit, comparison, 0, True), False)


def a_flush_while_compared() -> None:
    """A flush within a compared stretch begins nothing: the memory stays the one that was fed."""
    unit, comparison = _compared()
    plain = comparison.plain
    comparison.before_flush_or_reset(unit.ram)
    check("the same memory", comparison.plain is plain, True)


def readings() -> None:
    for group in (
        what_is_put,
        marks,
        no_uses,
        modes,
        order_of_numbers,
        no_lengths_but_the_array,
        no_state_check,
        bytes_ram_never_held,
        a_tag_twice,
        beyond_ram,
        stretches,
        a_flush_while_compared,
    ):
        group()
