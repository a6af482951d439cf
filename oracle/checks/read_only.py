"""Sentences of document 02's request C-17, each with an input that tells."""

from collections.abc import Callable
from itertools import product

from unit486_model import access, memory
from unit486_model import directory as steps
from unit486_model.access import Result
from unit486_model.bus import ANSWERS, BS8, BS16, KEN, LOG_WORDS
from unit486_model.carried import CarriedWrite
from unit486_model.events import NUMBER_LIMIT, Unit
from unit486_model.plain import Comparison, PlainMemory, without_ken
from unit486_model.ranges import Range, Ranges, kept, ranges_of

from .unit_calls import (
    ALL_KEN,
    NO_KEN,
    check,
    external,
    flags,
    held,
    read,
    read_carrying,
    set_ranges,
    snapshot,
    store_line,
    test_read,
    test_write,
    unit_of,
    view,
    write,
)

RAM_BYTES = 0x900
SMALL = 0x80
# Two lines, and the bytes below and above them.
ROM = Range(0x40, 0x20)
END = 0x60
LINE = Range(0x40, 0x10)
MOST = [Range(0x20 * index, 0x10) for index in range(8)]


def _unit(*ranges: Range, ram: int = RAM_BYTES) -> Unit:
    """CD = NW = 0, and these ranges set."""
    unit = unit_of(ram)
    check("set", set_ranges(unit, *ranges), Result(0))
    return unit


def _made(count: int, *ranges: Range) -> Unit:
    """A directory that a host made."""
    unit = unit_of(RAM_BYTES)
    places = [*ranges, *[Range(0, 0)] * (8 - len(ranges))]
    unit.directory.ranges = Ranges(count, places)
    return unit


def _asked(unit: Unit, address: int = 0x44) -> dict[str, Callable[[], int]]:
    """Every other call given directory and RAM."""
    carried = [CarriedWrite(0, address, b"a")]
    return {
        "read": lambda: read(unit, address, 4).number,
        "carrying read": lambda: read_carrying(unit, address, 4, carried).number,
        "write": lambda: write(unit, address, 4, 1).number,
        "external": lambda: external(unit, address, b"a").number,
        "view": lambda: view(unit, address)[0],
    }


def _numbers(unit: Unit) -> set[int]:
    """The numbers of those calls, refused ones having changed nothing."""
    met = set()
    for name, call in _asked(unit).items():
        before = snapshot(unit)
        met.add(call())
        if 0 not in met:
            check(f"{name} changes nothing", snapshot(unit), before)
    return met


# --- the call that sets ranges


def set_all_anew() -> None:
    """ "One call sets them all anew; the directory keeps them, none at first"."""
    unit = unit_of(RAM_BYTES)
    check("none at first", unit.directory.ranges, Ranges(0, [Range(0, 0)] * 8))
    for given in (MOST, [ROM, LINE], [LINE], [], [ROM], [Range(0, RAM_BYTES)], []):
        before = snapshot(unit)
        check("set", set_ranges(unit, *given), Result(0))
        check("kept", kept(unit.directory.ranges), given)
        unused = unit.directory.ranges.places[len(given) :]
        check("unused places", unused, [Range(0, 0)] * (8 - len(given)))
        after = snapshot(unit)
        check("all else", (after[:5], after[6:]), (before[:5], before[6:]))
    unit.parity.pop()
    unit.data.pop()
    check("no parity, no data array", set_ranges(unit, ROM), Result(0))


def wrong_ranges() -> None:
    """ "37 where a range is empty, not whole lines or beyond RAM"."""
    limit = NUMBER_LIMIT - 15
    wrong = [Range(0x40, 0), Range(0, 0), Range(0x48, 0x10), Range(0x40, 0x18), Range(0x41, 0xF)]
    wrong += [Range(RAM_BYTES - 0x10, 0x20), Range(RAM_BYTES, 0x10), Range(limit, 0x10)]
    wrong += [Range(limit, 0x20), Range(0x10, limit), Range(RAM_BYTES, 0)]
    for one in wrong:
        for given in ([one], [one, LINE], [*MOST[:7], one], [*MOST, one], [one, *MOST]):
            unit = _unit(ROM)
            before = snapshot(unit)
            check(f"37 of {one}", set_ranges(unit, *given), Result(37))
            check("nothing changed", snapshot(unit), before)
        check(f"kept {one}", _numbers(_made(1, one)), {37})
    for one in (Range(0, 0x10), Range(RAM_BYTES - 0x10, 0x10), Range(0, RAM_BYTES), ROM):
        check(f"{one}", set_ranges(_unit(), one), Result(0))
    check("a start alone", ranges_of([0x40]), [Range(0x40, 0)])
    check("after a range", ranges_of([*LINE, 0x80]), [LINE, Range(0x80, 0)])
    check("none", ranges_of([]), [])


def too_many() -> None:
    """ "38 for more than eight, after 37"; overlapping and equal ranges count each."""
    for count in (9, 16, 100):
        unit = _unit(ROM)
        before = snapshot(unit)
        check(f"{count}", set_ranges(unit, *[LINE] * count), Result(38))
        check("nothing changed", snapshot(unit), before)
    check("eight", set_ranges(_unit(), *[LINE] * 8), Result(0))
    short = Unit(steps.first(), bytearray(24), bytearray(6), bytearray(8192))
    for given in ([], [LINE], [Range(1, 1)], [LINE] * 9):
        check("RAM's length first", set_ranges(short, *given), Result(1))


# --- the calls that test what the directory keeps


def tested_by_other_calls() -> None:
    """ "every other call given directory and RAM tests them by 37 and 38 too": the first eight at
    most, against the RAM that it is given; the count then."""
    wrong = Range(RAM_BYTES, 0x10)
    for count, ranges, number in (
        (8, MOST, 0),
        (9, MOST, 38),
        (NUMBER_LIMIT, MOST, 38),
        (8, [*MOST[:7], wrong], 37),
        (9, [*MOST[:7], wrong], 37),
        (NUMBER_LIMIT, [wrong, *MOST[1:]], 37),
        (7, [*MOST[:7], wrong], 0),
        (0, [wrong] * 8, 0),
        (1, [ROM, wrong], 0),
        (1, [], 37),
    ):
        check(f"{count} of {ranges}", _numbers(_made(count, *ranges)), {number})
    unit = _unit(ROM)
    unit.ram, unit.parity = unit.ram[:END], unit.parity[: END // 4]
    check("up to RAM's end", _numbers(unit), {0})
    unit.ram, unit.parity = unit.ram[: END - 16], unit.parity[: END // 4 - 4]
    check("another RAM", _numbers(unit), {37})


def order_of_numbers() -> None:
    """ "37 ... after 10; 38 ... after 37", and both before 21 to 23, as 1 to 10 and 33 are."""
    for count, ranges, number in ((9, [Range(1, 1)], 37), (9, MOST, 38)):
        unit = _made(count, *ranges)
        falling = [CarriedWrite(1, 0x40, b"a"), CarriedWrite(0, 0x40, b"a")]
        check("4", read(unit, 0x40, 3).number, 4)
        check("5", (read(unit, RAM_BYTES, 1).number, view(unit, RAM_BYTES)[0]), (5, 5))
        check("6", write(unit, 0x40, 4, 1, ALL_KEN[1:]).number, 6)
        check("7", read(unit, 0x40, 4, log=[0] * (LOG_WORDS - 1)).number, 7)
        check("8", write(unit, 0x40, 1, 256).number, 8)
        check("10", external(unit, 0x40, b"").number, 10)
        check("33", read_carrying(unit, 0x40, 4, falling).number, 33)
        store_line(unit, 4, 1, 0x1234)
        store_line(unit, 4, 3, 0x1234)
        check("before 21", _numbers(unit), {number})
        unit.directory.ranges.count, unit.directory.ranges.places[0] = 1, ROM
        check("then 21", _numbers(unit), {21})
    unit = _made(9)
    unit.parity.pop()
    check("2", {_asked(unit)[name]() for name in ("read", "write", "external")}, {2})
    check("a view has no parity", view(unit, 0x40)[0], 37)
    unit.data.pop()
    check("3", view(unit, 0x40)[0], 3)
    unit.ram.pop()
    check("1", _numbers(unit), {1})


def not_tested() -> None:
    """Snoop, flush, control and reset receive no RAM, nor do the test calls: they keep what is
    there. "A later reset keeps them"."""
    for count, ranges in ((NUMBER_LIMIT, [Range(1, 1)] * 8), (1, [ROM]), (0, [ROM])):
        unit = _made(count, *ranges)
        expected = Ranges(count, list(unit.directory.ranges.places))
        check("control", access.control(unit.directory, True, False), Result(0))
        check("test write", test_write(unit, 4, 0, 0, True, bytes(16)), Result(0))
        check("test read", test_read(unit, 4, 0).number, 0)
        check("snoop", access.snoop(unit.directory, 0x40), Result(0))
        check("flush", access.flush(unit.directory), Result(0))
        check("kept", unit.directory.ranges, expected)
        for _ in range(2):
            unit.directory.lru[5] = 3
            store_line(unit, 9, 1, 7)
            check("reset", access.reset(unit.directory), Result(0))
            check("all but the ranges", unit.directory, _first_with(expected))


def _first_with(ranges: Ranges) -> steps.Directory:
    directory = steps.first()
    directory.ranges = ranges
    return directory


# --- what is ignored


def _written(unit: Unit, address: int, written: bytes, *ranges: Range) -> tuple[bytes, bytes]:
    """RAM and parity where the bytes outside the ranges are put one by one, each as an external
    write to a unit that has no ranges."""
    other = Unit(steps.first(), bytearray(unit.ram), bytearray(unit.parity), unit.data)
    for place, byte in enumerate(written, address):
        if not any(start <= place < start + length for start, length in ranges):
            check("put", external(other, place, bytes([byte])).number, 0)
    return bytes(other.ram), bytes(other.parity)


def ignored_writes() -> None:
    """ "RAM and parity there ignore CPU writes", byte by byte across either edge, "though cycles"
    and records go on as without ranges; the written data stands in the records."""
    for size, width, parity in product((0, BS16, BS8), (1, 2, 4, 8), (0, 0xF5)):
        answers = [size] * ANSWERS
        starts = (*range(ROM.start - 8, ROM.start + 9), *range(END - 9, END + 9))
        for address in starts:
            unit, plain = _unit(ROM, ram=SMALL), _unit(ram=SMALL)
            for index in range(len(unit.parity)):
                unit.parity[index] ^= parity
            value = int.from_bytes(unit.ram[address : address + width], "little")
            value ^= 0x5757_5757_5757_5757 % 256**width
            expected = _written(unit, address, value.to_bytes(width, "little"), ROM)
            result = write(unit, address, width, value, answers)
            check("cycles and records", result, write(plain, address, width, value, answers))
            check(f"{width} at {address:x}", (bytes(unit.ram), bytes(unit.parity)), expected)
            check("directory", snapshot(unit)[:5], snapshot(plain)[:5])


def ignored_external_writes() -> None:
    """ "and external writes, though cycles and snoops go on": a held line is ended, with NW = 1 it
    stays."""
    for line, nw, count in product((0x30, 0x40, 0x50, 0x60), (False, True), (1, 16)):
        unit = _unit(ROM, ram=SMALL)
        read(unit, line, 4)
        unit.directory.nw = nw
        unit.parity[line // 4] |= 0x90
        address = line + 16 - count
        written = bytes(byte ^ 0x57 for byte in unit.ram[address : address + count])
        expected = _written(unit, address, written, ROM)
        check("external", external(unit, address, written), Result(0))
        check(f"{count} at {address:x}", (bytes(unit.ram), bytes(unit.parity)), expected)
        check("snooped", held(unit, line) is None, not nw)


def ignored_carried_writes() -> None:
    """Carried writes are external writes: RAM ignores them, they drop a fill and snoop."""
    for cycle, nw in product(range(6), (False, True)):
        unit, plain = _unit(ROM, ram=SMALL), _unit(ram=SMALL)
        unit.directory.nw = plain.directory.nw = nw
        old = bytes(unit.ram)
        carried = [CarriedWrite(cycle, 0x48, b"\xf5\xfa")]
        result = read_carrying(unit, 0x40, 4, carried)
        check("records", flags(result), flags(read_carrying(plain, 0x40, 4, carried)))
        check("value", result.value, int.from_bytes(old[0x40:0x44], "little"))
        check(f"fill with {cycle}", held(unit, 0x40), held(plain, 0x40))
        check("RAM", bytes(unit.ram), old)
        check("parity", unit.parity, memory.parity_for(unit.ram))
    unit = _unit(ROM)
    read(unit, 0x50, 4)
    old = bytes(unit.ram)
    carried = [CarriedWrite(0, 0x5E, b"ab"), CarriedWrite(0, 0x60, b"\x01\x02")]
    check("another line", read_carrying(unit, 0x80, 4, carried).number, 0)
    check("snooped", (held(unit, 0x50), held(unit, 0x80)), (None, 0))
    check("one of the two", bytes(unit.ram), old[:0x60] + b"\x01\x02" + old[0x62:])


def several_ranges() -> None:
    """A byte is read-only where any range has it, overlapping ones and the last of eight too."""
    for ranges in (MOST, MOST[::-1], [ROM, LINE, Range(0x50, 0x30)], [Range(0, RAM_BYTES)], []):
        unit = _unit(*ranges)
        for line in range(0, 0x110, 16):
            expected = _written(unit, line + 14, b"\xff\xff\xff\xff", *ranges)
            check("write", write(unit, line + 14, 4, NUMBER_LIMIT).number, 0)
            check(f"at {line + 14:x}", (bytes(unit.ram), bytes(unit.parity)), expected)
    unit = _unit(Range(RAM_BYTES - 16, 16))
    old = bytes(unit.ram)
    check("the last byte", write(unit, RAM_BYTES - 8, 8, 0).cycles, 2)
    check("RAM", bytes(unit.ram), old)


def held_lines() -> None:
    """ "Since a write hit still alters the held line": reads and views give it until the line ends.
    It is a use, and with CD = NW = 1 it stays inside as ever."""
    for modes in ((False, False), (True, False), (True, True)):
        unit = _unit(ROM)
        read(unit, 0x40, 4)
        read(unit, 0x840, 4)
        old = bytes(unit.ram)
        unit.directory.cd, unit.directory.nw = modes
        result = write(unit, 0x42, 2, 0xA5C3)
        check("cycles", result.cycles, 0 if all(modes) else 1)
        check("a use", unit.directory.lru[4], 3)
        altered = old[0x40:0x42] + b"\xc3\xa5" + old[0x44:0x50]
        check("hit", read(unit, 0x40, 4), Result(0, int.from_bytes(altered[:4], "little")))
        shown = access.part_bytes(view(unit, 0x4F)[1], unit.ram, unit.data)
        check("view", (shown, bytes(unit.ram)), (altered, old))
        access.flush(unit.directory)
        check("RAM's", read(unit, 0x40, 4, NO_KEN).value, int.from_bytes(old[0x40:0x44], "little"))


# --- the plain memory and what agreement needs


def plain_ranges() -> None:
    """ "The plain memory ignores them too", by its own length; refused ranges leave the old
    ones."""
    plain = PlainMemory(bytearray(64))
    check("37", plain.set_ranges([Range(48, 32)]), 37)
    check("37 first", plain.set_ranges([LINE._replace(start=0)] * 8 + [Range(8, 8)]), 37)
    check("38", plain.set_ranges([Range(0, 16)] * 9), 38)
    check("set", plain.set_ranges([Range(16, 16), Range(16, 32)]), 0)
    check("refused", plain.set_ranges([Range(0, 0)]), 37)
    check("write", plain.write(12, 8, 2**64 - 1, NO_KEN, LOG_WORDS), 0)
    check("external", plain.external_write(40, b"abcdefgh"), 0)
    carried = [CarriedWrite(0, 48, b"zz"), CarriedWrite(0, 32, b"yy")]
    check("carried", plain.read_carrying(0, 4, False, NO_KEN, LOG_WORDS, carried, ()), (0, 0))
    expected = bytes(12) + b"\xff" * 4 + bytes(32) + b"zz" + bytes(14)
    check("what it holds", bytes(plain.bytes_held), expected)
    check("none", (plain.set_ranges([]), plain.ranges), (0, []))


def premise_of_ken() -> None:
    """ "agreement now needs KEN# inactive throughout these ranges": in the first answer of each
    group whose doubleword lies there; the rest of a group does not matter."""
    for address, width, cleared in ((0x3C, 8, [16]), (0x3D, 8, [16, 32]), (0x5B, 8, [0, 16])):
        expected = [0 if index in cleared else KEN for index in range(ANSWERS)]
        check(f"at {address:x}", without_ken([ROM], address, width, ALL_KEN), expected)
    check("no range", without_ken([], 0x40, 8, ALL_KEN), ALL_KEN)
    for answers, agrees in ((ALL_KEN, False), (without_ken([ROM], 0x40, 4, ALL_KEN), True)):
        unit = _unit(ROM)
        plain = PlainMemory(bytearray(unit.ram), [ROM])
        check("read", read(unit, 0x40, 4, answers).cycles, 1 if agrees else 4)
        write(unit, 0x40, 4, 5)
        plain.write(0x40, 4, 5, NO_KEN, LOG_WORDS)
        expected = plain.read(0x40, 4, False, answers, LOG_WORDS)
        check("agrees", read(unit, 0x40, 4, answers)[:2] == expected, agrees)
        shown = access.part_bytes(view(unit, 0x40)[1], unit.ram, unit.data)
        check("so does a view", (0, shown) == plain.view(0x40), agrees)


def premise_of_the_first_call() -> None:
    """ "and the ranges set right after reset and not altered": a line that is held when they are
    set is altered by a write that RAM ignores."""
    for later in (False, True):
        unit = _unit() if later else _unit(LINE)
        plain = PlainMemory(bytearray(unit.ram))
        read(unit, 0x50, 4)
        given = [ROM] if later else [LINE]
        check("set", (set_ranges(unit, *given).number, plain.set_ranges(given)), (0, 0))
        write(unit, 0x50, 4, 5)
        plain.write(0x50, 4, 5, NO_KEN, LOG_WORDS)
        expected = plain.read(0x50, 4, False, NO_KEN, LOG_WORDS)
        check("agrees", read(unit, 0x50, 4, NO_KEN)[:2] == expected, not later)


def begun_anew() -> None:
    """After a test write ranges may be set; from the next flush or reset on the plain memory has
    those of the directory."""
    unit = unit_of(RAM_BYTES, cd=True)
    comparison = Comparison(PlainMemory(bytearray(unit.ram)))
    comparison.after_test_write(test_write(unit, 4, 0, 0, True, bytes(16)).number)
    check("set", set_ranges(unit, ROM), Result(0))
    comparison.before_flush_or_reset(unit.ram, kept(unit.directory.ranges))
    access.reset(unit.directory)
    check("the directory's", comparison.plain.ranges, [ROM])
    write(unit, 0x3C, 8, 2**64 - 1)
    comparison.plain.write(0x3C, 8, 2**64 - 1, NO_KEN, LOG_WORDS)
    check("RAM", bytes(unit.ram), bytes(comparison.plain.bytes_held))


def readings() -> None:
    for group in (
        set_all_anew,
        wrong_ranges,
        too_many,
        tested_by_other_calls,
        order_of_numbers,
        not_tested,
        ignored_writes,
        ignored_external_writes,
        ignored_carried_writes,
        several_ranges,
        held_lines,
        plain_ranges,
        premise_of_ken,
        premise_of_the_first_call,
        begun_anew,
    ):
        group()
