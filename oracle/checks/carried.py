"""Sentences of document 02's request C-12, each with an input that tells, and the timing that
source document 002 gives for writes into a line that is being filled."""

from itertools import permutations, product

from unit486_model import access, memory
from unit486_model.access import Result
from unit486_model.bus import ANSWERS, BS8, BS16, KEN, LOG_WORDS
from unit486_model.carried import CarriedWrite
from unit486_model.directory import LRU_LIMIT, TAG_LIMIT, line_index
from unit486_model.events import NUMBER_LIMIT, Unit
from unit486_model.plain import PlainMemory

from .unit_calls import (
    ALL_KEN,
    NO_KEN,
    address_flags,
    answers_of,
    check,
    flags,
    held,
    read,
    read_carrying,
    snapshot,
    store_line,
    unit_of,
)

# A size and how many cycles a fill with it takes.
FILLS = ((0, 4), (BS16, 8), (BS8, 16))

# Two lines of set 4, and the line above the first.
LINE, OTHER, ABOVE = 0x40, 0x840, 0x50
NEW = b"\xf5\xfa"

# RAM with these lines, and with five lines of set 4.
RAM_BYTES = 0x860
FULL_SET_RAM = 0x2060


def _unit(cd: bool = False, nw: bool = False) -> Unit:
    return unit_of(RAM_BYTES, cd, nw)


def _value(ram: bytes | bytearray, address: int, width: int = 4) -> int:
    return int.from_bytes(ram[address : address + width], "little")


def _with(ram: bytes | bytearray, address: int, written: bytes) -> bytes:
    return bytes(ram[:address]) + written + bytes(ram[address + len(written) :])


def _pair(old: bytes, new: bytes, address: int, *news: bool) -> int:
    """Two bytes, each the new one or the old one."""
    first, second = ((new if is_new else old) for is_new in news)
    return first[address] + (second[address + 1] << 8)


def carries_none() -> None:
    """A read as it stands carries no writes."""
    for address, answers in product((LINE, LINE + 14), (ALL_KEN, NO_KEN, [5] * ANSWERS)):
        plain, carrying = _unit(), _unit()
        for _ in range(2):
            expected = read(plain, address, 4, answers)
            check("none carried", read_carrying(carrying, address, 4, (), answers), expected)
            check("none carried", snapshot(carrying), snapshot(plain))


# --- the timing table


def timing_of_a_fill() -> None:
    """A write into the line being filled, before each cycle of a fill that begins the access.
    Source document 002: "If an invalidation occurs before the first data is transferred to the
    processor, the processor assumes that the data subsequently transferred is valid." Later "the
    processor will invalidate the data even if the data pertains to the cache line that is being
    filled ... however, the processor will still use the data for the original purpose"."""
    for (size, cycles), nw in product(FILLS, (False, True)):
        answers = [KEN + size] * ANSWERS
        for number in (*range(cycles + 2), NUMBER_LIMIT):
            unit = _unit(nw=nw)
            old, new = bytes(unit.ram), _with(unit.ram, LINE + 6, NEW)
            carried = [CarriedWrite(number, LINE + 6, NEW)]
            result = read_carrying(unit, LINE + 4, 4, carried, answers)
            # Bytes 6 and 7 come by halves in cycle 1, by bytes in cycles 2 and 3.
            first, second = {0: (0, 0), BS16: (1, 1), BS8: (2, 3)}[size]
            pair = _pair(old, new, LINE + 6, number <= first, number <= second)
            check(f"value at {number}", result.value, _value(old, LINE + 4, 2) + (pair << 16))
            undisturbed = flags(read(_unit(), LINE + 4, 4, answers))
            check("cycles and flags stay", flags(result), undisturbed)
            check("RAM", bytes(unit.ram), new)
            # Past the last cycle the fill has been kept, and the write snoops.
            kept = number == 0 or (number >= cycles and nw)
            check(f"held after {number} of {cycles}", held(unit, LINE) is not None, kept)


def timing_after_a_doubleword() -> None:
    """The same for the upper doubleword's fill, whose first cycle has the number of the lower's
    cycles: "counted from 0 over the access", not by doubleword."""
    for size, cycles in FILLS:
        first = 2 if size == BS8 else 1
        for number in (*range(first + cycles + 2), NUMBER_LIMIT):
            unit = _unit()
            old, new = bytes(unit.ram), _with(unit.ram, ABOVE, NEW)
            carried = [CarriedWrite(number, ABOVE, NEW)]
            result = read_carrying(unit, LINE + 14, 4, carried, answers_of([size], [KEN + size]))
            check("cycles", result.cycles, first + cycles)
            by_byte = first + (size == BS8)
            pair = _pair(old, new, ABOVE, number <= first, number <= by_byte)
            check(f"value at {number}", result.value, _value(old, LINE + 14, 2) + (pair << 16))
            check(f"kept with {number}", held(unit, ABOVE) is not None, number <= first)


def timing_of_a_held_line() -> None:
    """Before the lower doubleword's cycles a write ends a held line in time for the upper's lookup;
    with the number that the upper's first cycle would have it comes after the lookup."""
    for size, cycles in FILLS:
        lower = 2 if size == BS8 else 1
        for number in range(lower + 2):
            unit = _unit()
            read(unit, ABOVE, 4)
            old, new = bytes(unit.ram), _with(unit.ram, ABOVE, NEW)
            carried = [CarriedWrite(number, ABOVE, NEW)]
            result = read_carrying(unit, LINE + 14, 4, carried, answers_of([size], [KEN + size]))
            missed = number < lower
            check(f"cycles with {number}", result.cycles, lower + (cycles if missed else 0))
            pair = _value(new if missed else old, ABOVE, 2)
            check("value", result.value, _value(old, LINE + 14, 2) + (pair << 16))
            check("held", held(unit, ABOVE) is not None, missed)


def timing_of_a_kept_line() -> None:
    """A line that the lower doubleword kept is any other line while the upper's cycles go by: it
    "snoops as usual", and the upper's fill stays."""
    for (size, cycles), nw in product(FILLS, (False, True)):
        for number in (cycles, cycles + 1, 2 * cycles - 1, 2 * cycles):
            unit = _unit(nw=nw)
            carried = [CarriedWrite(number, LINE + 1, NEW)]
            result = read_carrying(unit, LINE + 14, 4, carried, [KEN + size] * ANSWERS)
            check("cycles", result.cycles, 2 * cycles)
            check("snooped as usual", held(unit, LINE) is not None, nw)
            check("the upper's stays", held(unit, ABOVE), 0)


# --- lookup, order, victim


def looked_up_before() -> None:
    """ "A doubleword is looked up before a write lands ahead of its first cycle": a doubleword that
    hits has its bytes from the lookup, and makes no cycle for which a write could land."""
    unit = _unit()
    read(unit, LINE, 4)
    old = _value(unit.ram, LINE + 14)
    result = read_carrying(unit, LINE + 14, 4, [CarriedWrite(0, LINE + 14, NEW)])
    check("lower hit, upper miss", (result.value, result.cycles), (old, 4))
    check("then it is snooped", (held(unit, LINE), held(unit, ABOVE)), (None, 0))
    unit = _unit()
    read(unit, ABOVE, 4)
    old = _value(unit.ram, LINE + 14)
    result = read_carrying(unit, LINE + 14, 4, [CarriedWrite(4, ABOVE, NEW)])
    check("lower miss, upper hit", (result.value, result.cycles), (old, 4))
    check("it lands after all", (held(unit, LINE), held(unit, ABOVE)), (0, None))
    unit = _unit()
    read(unit, LINE, 4)
    old = _value(unit.ram, LINE)
    check("hit", read_carrying(unit, LINE, 4, [CarriedWrite(0, LINE, NEW)]), Result(0, old))
    check("a use, then a snoop", (unit.directory.lru[4], held(unit, LINE)), (3, None))


def one_line() -> None:
    """Two doublewords of one line: kept, the upper hits and a write numbered past the fill lands
    after all; dropped, the upper misses with its own answers."""
    unit = _unit()
    old = _value(unit.ram, LINE + 2)
    result = read_carrying(unit, LINE + 2, 4, [CarriedWrite(4, LINE + 4, NEW)])
    check("kept, then a hit", (result.value, result.cycles), (old, 4))
    check("and then snooped", held(unit, LINE), None)
    unit = _unit()
    old, new = bytes(unit.ram), _with(unit.ram, LINE + 4, NEW)
    carried = [CarriedWrite(2, LINE + 4, NEW)]
    result = read_carrying(unit, LINE + 2, 4, carried, answers_of([1], [5]))
    check("dropped, then its own fill", flags(result), [47, 47, 47, 111] + [35, 44] * 3 + [35, 108])
    check("the upper's bytes are its own", result.value, _value(new, LINE + 2))
    check("as they came before", result.records[1].word, _value(old, LINE + 4))
    check("kept", (held(unit, LINE), bytes(unit.data[256:272])), (0, new[LINE : LINE + 16]))


def list_order() -> None:
    """ "Equal numbers land in list order": the last of them stands in RAM, before a cycle and past
    the last one."""
    for number in (0, 2, 4, NUMBER_LIMIT):
        for order in permutations((b"\x01\x02\x03", b"\x04\x05", b"\x06")):
            unit = _unit()
            carried = [CarriedWrite(number, OTHER + 1, written) for written in order]
            check("accepted", read_carrying(unit, LINE, 4, carried).number, 0)
            expected = bytearray(3)
            for written in order:
                expected[: len(written)] = written
            check("the last stands", unit.ram[OTHER + 1 : OTHER + 4], expected)
    unit = _unit()
    carried = [CarriedWrite(1, LINE + 4, bytes([byte])) for byte in range(4)]
    check("four", read_carrying(unit, LINE, 1, carried).records[1].word & 255, 3)


def _full_set(nw: bool = False) -> Unit:
    """Set 4 has four valid lines, with tags 1 to 4; the victim is way 0."""
    unit = unit_of(FULL_SET_RAM, nw=nw)
    for way in range(4):
        store_line(unit, 4, way, way + 1)
    return unit


def victim_after_the_last_cycle() -> None:
    """ "The victim is chosen after a fill's last cycle": a line of the set that a write has ended
    by then is the lowest invalid way."""
    for number, way in product(range(6), range(4)):
        unit = _full_set()
        carried = [CarriedWrite(number, 0x800 * (way + 1) + 0x44, NEW)]
        read_carrying(unit, LINE, 4, carried)
        landed = number < 4
        check(f"victim with {number}", held(unit, LINE), way if landed else 0)
        others = [unit.directory.valid[line_index(4, other)] for other in range(4)]
        # Past the last cycle way 0 has been replaced, and its old line is not there to end.
        ended = None if landed or way == 0 else way
        check("others", others, [other != ended for other in range(4)])
    unit = _full_set(nw=True)
    read_carrying(unit, LINE, 4, [CarriedWrite(1, 0x1044, NEW)])
    check("with NW = 1 none has ended", (held(unit, LINE), held(unit, 0x1044)), (0, 1))


# --- dropped fills and snoops


def dropped_fills() -> None:
    """ "One landing later in the line being filled drops that fill, with NW = 1 too": neither
    directory, LRU number nor data array change; a second write into it does no harm."""
    for nw, second in product((False, True), (1, 3)):
        unit = _full_set(nw)
        before = snapshot(unit)
        carried = [CarriedWrite(1, LINE + 9, NEW), CarriedWrite(second, LINE, NEW)]
        check("its cycles", flags(read_carrying(unit, LINE, 4, carried)), [47, 47, 47, 111])
        after = snapshot(unit)
        check("directory and data array", (after[:6], after[-1]), (before[:6], before[-1]))
    unit = _unit()
    read_carrying(unit, LINE, 4, [CarriedWrite(0, LINE, NEW)], answers_of([1, 0]))
    check("KEN# in the last cycle still decides", held(unit, LINE), None)


def any_other_line() -> None:
    """ "One in any other line snoops as usual", with NW = 1 not at all, and does not drop a fill: a
    line of the same set, one with the same tag, one that is not held."""
    for nw, number, address in product((False, True), range(4), (OTHER, ABOVE, LINE - 1, 0x700)):
        unit = _unit(nw=nw)
        for line in (OTHER, ABOVE):
            read(unit, line, 4)
        read_carrying(unit, LINE, 4, [CarriedWrite(number, address, b"\x01")])
        for line in (OTHER, ABOVE):
            check("the others", held(unit, line) is not None, nw or line != address)
        check("the fill is kept", held(unit, LINE) is not None, True)


def reads_that_fill_nothing() -> None:
    """PCD, CD or no KEN#: every wanted byte is RAM's at its own cycle."""
    for number, case in product(range(6), range(3)):
        unit = _unit(cd=case == 0)
        old, new = bytes(unit.ram), _with(unit.ram, LINE, b"\xf1\xf2\xf3\xf4")
        answers = [BS8 + (KEN if case < 2 else 0)] * ANSWERS
        carried = [CarriedWrite(number, LINE, b"\xf1\xf2\xf3\xf4")]
        result = read_carrying(unit, LINE, 4, carried, answers, pcd=case == 1)
        seen = bytes((new if number <= cycle else old)[LINE + cycle] for cycle in range(4))
        check(f"bytes with {number}", result.value, _value(seen, 0))
        check("flags", flags(result), [1, 2, 4, 72])
        check("nothing held", any(unit.directory.valid), False)


def past_the_last_cycle() -> None:
    """ "Writes numbered past the last cycle, and all where there is none, land after the value is
    taken": in RAM with parity, and snooping."""
    for number, already in product((0, 1, 4, NUMBER_LIMIT), (True, False)):
        if not already and number < 4:
            continue
        unit = _unit()
        if already:
            read(unit, LINE, 4)
        unit.parity[LINE // 4] |= 0xF0
        old, new = _value(unit.ram, LINE), _with(unit.ram, LINE + 1, NEW)
        result = read_carrying(unit, LINE, 4, [CarriedWrite(number, LINE + 1, NEW)])
        check("value", (result.value, result.cycles), (old, 0 if already else 4))
        check("RAM", bytes(unit.ram), new)
        check("parity", unit.parity, memory.parity_for(unit.ram))
        check("snooped", held(unit, LINE), None)
        check("no later read is stale", read(unit, LINE, 4).value, _value(new, LINE))


def never_stale() -> None:
    """ "no later read is stale": a pair of writes before any two cycles, in the lines read or next
    to them, at each size."""
    places = (LINE + 3, LINE + 13, ABOVE, ABOVE + 9, OTHER + 12)
    for (size, cycles), (first, second) in product(FILLS, product(places, repeat=2)):
        for number in range(0, 2 * cycles + 2, 1 + cycles // 4):
            unit = _unit()
            read(unit, OTHER, 4)
            carried = [CarriedWrite(number // 2, first, NEW), CarriedWrite(number, second, NEW)]
            read_carrying(unit, LINE + 14, 4, carried, [KEN + size] * ANSWERS)
            for address in (LINE, LINE + 12, ABOVE, ABOVE + 8, OTHER + 12):
                expected = _value(unit.ram, address)
                check("not stale", read(unit, address, 4, NO_KEN).value, expected)


def parity_between_cycles() -> None:
    """128 is of RAM and parity as they are at the cycle; a carried write sets its bytes' parity and
    clears the upper four bits, at its cycle."""
    for number in range(5):
        unit = _unit()
        unit.parity[LINE // 4 + 2] ^= 0xF6
        result = read_carrying(unit, LINE, 4, [CarriedWrite(number, LINE + 9, NEW)])
        third = 47 if number <= 2 else 175
        check(f"128 with {number}", flags(result), [47, 47, third, 111])
        check("set right", unit.parity, memory.parity_for(unit.ram))
    unit = _unit()
    unit.parity[LINE // 4] ^= 3
    result = read_carrying(unit, LINE, 2, [CarriedWrite(1, LINE, b"\x01")], [BS8] * ANSWERS)
    check("the other lane's stays wrong", flags(result), [129, 194])
    check("one bit", unit.parity[LINE // 4] ^ memory.parity_for(unit.ram)[LINE // 4], 2)


def no_records() -> None:
    """Carried writes leave no record and are no cycles."""
    unit, log = _unit(), list(range(500, 500 + LOG_WORDS))
    carried = [CarriedWrite(number, OTHER, NEW) for number in (0, 1, 2, 9)]
    result = read_carrying(unit, LINE, 4, carried, log=log)
    check("records", address_flags(result), [(LINE, 47), (0x44, 47), (0x48, 47), (0x4C, 111)])
    check("log", log[12:], list(range(512, 500 + LOG_WORDS)))


# --- numbers


def _refused_lists() -> list[list[CarriedWrite]]:
    """Each way to meet 33, at each place of a list."""
    good = [CarriedWrite(3, LINE, NEW)] * 4
    lists = [good + good[:1], good + good, [CarriedWrite(0, LINE, b"")] * 5]
    for numbers in ((1, 0), (0, 2, 1), (3, 3, 2, 3), (0, 1, 2, 1), (NUMBER_LIMIT, 0)):
        lists.append([CarriedWrite(number, LINE, NEW) for number in numbers])
    outside = ((RAM_BYTES, b"a"), (NUMBER_LIMIT, b"a"))
    wrong = ((LINE, b""), (LINE, bytes(17)), (LINE + 15, NEW), *outside)
    for (address, written), place, number in product(wrong, range(4), (0, 3, NUMBER_LIMIT)):
        writes = [CarriedWrite(0, LINE, NEW)] * place + [CarriedWrite(number, address, written)]
        lists.append(writes + [CarriedWrite(NUMBER_LIMIT, LINE, NEW)] * (3 - place))
    return lists


def thirty_three() -> None:
    """ "33 where there are more than four writes, they aren't in cycle order or one would be
    refused by 10": decided before anything changes, for hits too, also by a write that would land
    last. A read never answers 10."""
    for carried, already in product(_refused_lists(), (False, True)):
        unit = _unit()
        if already:
            read(unit, LINE, 4)
        before = snapshot(unit)
        check(f"33 for {carried}", read_carrying(unit, LINE, 4, carried), Result(33))
        check("nothing changed", snapshot(unit), before)
    for numbers in ((), (5,), (0, 0, 0, 0), (0, 1, 1, NUMBER_LIMIT), (NUMBER_LIMIT,) * 4):
        carried = [CarriedWrite(number, RAM_BYTES - 16, bytes(16)) for number in numbers]
        check(f"accepted {numbers}", read_carrying(_unit(), LINE, 4, carried).number, 0)


def order_of_numbers() -> None:
    """33 comes after 1 to 7, and before 21 to 23."""
    bad = [CarriedWrite(1, LINE, NEW), CarriedWrite(0, LINE, b"")]
    unit = _unit()
    unit.directory.lru[4] = LRU_LIMIT + 1
    check("33 before 23", read_carrying(unit, LINE, 4, bad), Result(33))
    check("7", read_carrying(unit, LINE, 4, bad, log=[0] * 143), Result(7))
    check("6", read_carrying(unit, LINE, 4, bad, ALL_KEN[1:], log=[]), Result(6))
    check("5", read_carrying(unit, RAM_BYTES - 2, 4, bad, []), Result(5))
    check("4", read_carrying(unit, NUMBER_LIMIT, 3, bad), Result(4))
    unit.data.pop()
    check("3", read_carrying(unit, LINE, 3, bad), Result(3))
    unit.parity.pop()
    check("2", read_carrying(unit, LINE, 3, bad), Result(2))
    unit.ram.pop()
    check("1", read_carrying(unit, LINE, 3, bad), Result(1))


def state_numbers() -> None:
    """ "State numbers: the read's sets first, then the writes' in list order", all of one set
    before the next, also for a write that lands last, and with NW = 1, which would snoop
    nothing."""
    for cd, nw, number in product((False, True), (False, True), (0, NUMBER_LIMIT)):
        unit = _unit(cd=cd, nw=nw)
        unit.directory.lru[6] = LRU_LIMIT + 1
        store_line(unit, 7, 0, 9)
        store_line(unit, 7, 1, 9)
        store_line(unit, 8, 3, TAG_LIMIT + 1)
        before = snapshot(unit)
        for sets in permutations((6, 7, 8)):
            carried = [CarriedWrite(number, 16 * place, b"\x01") for place in sets]
            expected = {6: 23, 7: 21, 8: 22}[sets[0]]
            check("list order", read_carrying(unit, LINE, 4, carried), Result(expected))
        seven = [CarriedWrite(number, 0x70, b"\x01")]
        check("the read's first", read_carrying(unit, 0x5E, 4, seven), Result(23))
        check("the upper's before a write's", read_carrying(unit, 0x7E, 4, seven), Result(21))
        check("nothing changed", snapshot(unit), before)
        check("other sets", read_carrying(unit, LINE, 4, [CarriedWrite(0, LINE, NEW)]).number, 0)


# --- the plain memory


def told_by_the_records() -> None:
    """The plain memory finds a doubleword's cycles by the first record of each group that ends
    with 64: a fill for the lower one has a record at the upper one's address."""
    carried = [CarriedWrite(2, LINE + 4, NEW)]
    unit = _unit()
    plain = PlainMemory(bytearray(unit.ram))
    result = read_carrying(unit, LINE + 2, 4, carried)
    told = (ALL_KEN, LOG_WORDS, carried, result.records)
    check("value", plain.read_carrying(LINE + 2, 4, False, *told), (0, result.value))
    check("its own group", result.value >> 16, _value(NEW, 0, 2))
    check("memory", plain.bytes_held, unit.ram)
    # A hit has the bytes of its lookup, and the writes come after it.
    unit = _unit()
    read(unit, LINE, 4)
    plain = PlainMemory(bytearray(unit.ram))
    old = _value(plain.bytes_held, LINE + 4)
    told = (ALL_KEN, LOG_WORDS, [CarriedWrite(0, LINE + 4, NEW)], ())
    check("a hit", plain.read_carrying(LINE + 4, 4, False, *told), (0, old))
    check("then the write", plain.bytes_held[LINE + 4 : LINE + 6], NEW)


def refused_by_the_plain_memory() -> None:
    """ "For the plain memory 33 counts as 4 to 10 do: it does nothing and answers that number."
    Lower numbers come first."""
    for carried in _refused_lists():
        plain = PlainMemory(bytearray(_unit().ram))
        before = bytes(plain.bytes_held)
        told = (False, ALL_KEN, LOG_WORDS, carried, ())
        check("33", plain.read_carrying(LINE, 4, *told), (33, 0))
        check("4", plain.read_carrying(LINE, 3, *told), (4, 0))
        check("5", plain.read_carrying(RAM_BYTES, 4, *told), (5, 0))
        check("nothing done", bytes(plain.bytes_held), before)


def with_nw_set() -> None:
    """Why no accepted control call of a compared list may set NW: a carried write then leaves a
    held line stale, as any external write does."""
    unit = _unit()
    read(unit, OTHER, 4)
    check("control 1 1", access.control(unit.directory, True, True), Result(0))
    read_carrying(unit, LINE, 4, [CarriedWrite(0, OTHER, NEW)])
    check("stale", read(unit, OTHER, 2).value == _value(unit.ram, OTHER, 2), False)


def readings() -> None:
    for group in (
        carries_none,
        timing_of_a_fill,
        timing_after_a_doubleword,
        timing_of_a_held_line,
        timing_of_a_kept_line,
        looked_up_before,
        one_line,
        list_order,
        victim_after_the_last_cycle,
        dropped_fills,
        any_other_line,
        reads_that_fill_nothing,
        past_the_last_cycle,
        never_stale,
        parity_between_cycles,
        no_records,
        thirty_three,
        order_of_numbers,
        state_numbers,
        told_by_the_records,
        refused_by_the_plain_memory,
        with_nw_set,
    ):
        group()
