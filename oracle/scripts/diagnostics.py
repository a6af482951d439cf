"""Test writes and test reads: lines planted and read back, what other calls make of them, the
numbers 3, 31 and 32, and the first victim after a flush."""

from itertools import combinations, product

from unit486_model.access import Result
from unit486_model.bus import ANSWERS, BS8
from unit486_model.directory import LINE_BYTES, LRU_LIMIT, SETS, TAG_LIMIT, WAY_BYTES, WAYS
from unit486_model.events import NUMBER_LIMIT
from unit486_model.refusal import DATA_BYTES

from checks.unit_calls import ALL_KEN, NO_KEN, check, flags, snapshot
from checks.vectors import MODES

from .script_unit import contents
from .states import FAULTS
from .writer import Script

# Lines of set 4, with tags 0 to 2, and a RAM that has one more of them.
FIRST, SECOND, THIRD = 0x40, 0x840, 0x1040
RAM_BYTES = 0x1850
REFUSED = (0, False, 0, bytes(16))


def diagnostics() -> Script:
    script = Script("diagnostics.txt")
    _every_way(script)
    _filled_lines(script)
    _bytes_ram_never_held(script)
    for nw in (False, True):
        _write_hits(script, nw)
        _other_masters(script, nw)
    _tags_twice(script)
    _lru_numbers(script)
    _states_shown(script)
    _modes(script)
    _limits(script)
    _order(script)
    _diagnostic_sequence(script)
    return script


# --- what C-11 says of a test call


def _sixteen(script: Script) -> bytes:
    """Bytes that no other test write of the script plants."""
    start = len(script.lines)
    return bytes((start // 256 + 3 * byte, start % 256)[byte % 2] for byte in range(16))


def _plants(script: Script, set_index: int, way: int, tag: int, valid: bool = True) -> bytes:
    """An accepted test write, which changes one tag, one mark and sixteen bytes; those bytes."""
    sixteen, index = _sixteen(script), 4 * set_index + way
    tags, marks, *kept, data = snapshot(script.unit)
    tags[index], marks[index] = tag, valid
    data = data[: 16 * index] + sixteen + data[16 * index + 16 :]
    check("test write", script.test_write(set_index, way, tag, valid, sixteen), Result(0))
    check("what it changes", snapshot(script.unit), (tags, marks, *kept, data))
    return sixteen


def _shows(script: Script, set_index: int, way: int, *line: int | bytes) -> None:
    """A test read answers number, tag, mark, LRU number and bytes, and changes nothing."""
    before = snapshot(script.unit)
    check(f"test read of {set_index} {way}", tuple(script.test_read(set_index, way)), line)
    check("nothing changed", snapshot(script.unit), before)


def _seeded(script: Script, set_index: int, way: int) -> bytes:
    """A line's bytes at the start, from the seed in the unit's N line and not from the model's data
    array, of which a test read is a copy."""
    new_unit = next(line for line in reversed(script.lines) if line[0] == "N")
    start = 16 * (4 * set_index + way)
    return bytes(contents(int(new_unit.split(" ")[6]), start + 16)[start:])


def _turned_away(script: Script, set_index: int, way: int, tag: int, number: int) -> None:
    """A test write that is refused, with either mark, and changes nothing."""
    before = snapshot(script.unit)
    for valid in (True, False):
        result = script.test_write(set_index, way, tag, valid, _sixteen(script))
        check(f"test write of {set_index} {way} {tag}", result, Result(number))
        check("nothing changed", snapshot(script.unit), before)


def _agrees_with_ram(script: Script, *addresses: int) -> None:
    """Reads, first fills and then hits, give what RAM holds."""
    for address in (*addresses, *addresses):
        expected = int.from_bytes(script.unit.ram[address : address + 4], "little")
        check(f"read at {address:x}", script.read(address, 4).value, expected)


# --- planted lines


def _every_way(script: Script) -> None:
    """Each way of the first, a middle and the last set, with both marks, read back at once; then
    all of them once more."""
    script.new(ram=RAM_BYTES, cd=True)
    planted: dict[tuple[int, int], tuple[int, bool, bytes]] = {}
    for set_index, way, valid in product((0, 64, SETS - 1), range(WAYS), (False, True)):
        tag = TAG_LIMIT - 1000 * set_index - way - 500 * valid
        sixteen = _plants(script, set_index, way, tag, valid)
        _shows(script, set_index, way, 0, tag, valid, 0, sixteen)
        planted[set_index, way] = (tag, valid, sixteen)
    # One line of each set loses its mark: an invalid mark is put as a valid one is.
    for set_index in (0, 64, SETS - 1):
        planted[set_index, 2] = (7, False, _plants(script, set_index, 2, 7, False))
    for (set_index, way), (tag, valid, sixteen) in planted.items():
        _shows(script, set_index, way, 0, tag, valid, 0, sixteen)


def _filled_lines(script: Script) -> None:
    """A line that a fill brought in, read back; dropped by a test write with an invalid mark."""
    script.new(ram=RAM_BYTES, cd=False)
    for address in (FIRST, SECOND):
        script.read(address, 4)
    check("CD", script.control(True, False), Result(0))
    for way, address in enumerate((FIRST, SECOND)):
        ram = bytes(script.unit.ram[address : address + 16])
        _shows(script, 4, way, 0, way, True, 1, ram)
    _plants(script, 4, 1, 1, False)
    check("dropped", script.read(SECOND, 4, NO_KEN).cycles, 1)
    check("the other is held", script.read(FIRST + 12, 4, NO_KEN).cycles, 0)


def _bytes_ram_never_held(script: Script) -> None:
    """A planted line is a hit for reads and views; RAM has other bytes."""
    script.new(ram=RAM_BYTES, cd=True)
    sixteen = _plants(script, 4, 3, 1)
    ram = bytes(script.unit.ram[SECOND : SECOND + 16])
    check("no byte is RAM's", any(a == b for a, b in zip(sixteen, ram)), False)
    for byte in range(16):
        check("hit", script.read(SECOND + byte, 1), Result(0, sixteen[byte]))
    for byte in range(13):
        value = int.from_bytes(sixteen[byte : byte + 4], "little")
        check("hit", script.read(SECOND + byte, 4, ALL_KEN, byte % 2 == 0), Result(0, value))
    check("view", script.view(SECOND + 9), (0, sixteen))
    across = script.read(SECOND + 14, 4, NO_KEN)
    above = bytes(script.unit.ram[SECOND + 16 : SECOND + 18])
    check("into RAM's line", across.value, int.from_bytes(sixteen[14:] + above, "little"))
    check("flush", script.flush(), Result(0))
    check("view of RAM", script.view(SECOND + 9), (0, ram))
    _agrees_with_ram(script, SECOND, SECOND + 12)
    _shows(script, 4, 3, 0, 1, False, 0, sixteen)


def _write_hits(script: Script, nw: bool) -> None:
    """A write hit on a planted line goes to the data array and to RAM, with NW = 1 to the array
    alone, and is a use."""
    script.new(ram=RAM_BYTES, cd=True, nw=nw)
    sixteen = _plants(script, 4, 2, 2)
    before = bytes(script.unit.ram)
    result = script.write(THIRD + 5, 2, 0xBEEF, [BS8] * ANSWERS)
    check("cycles", flags(result), [] if nw else [18, 84])
    written = sixteen[:5] + b"\xef\xbe" + sixteen[7:]
    _shows(script, 4, 2, 0, 2, True, 4, written)
    check("read", script.read(THIRD + 4, 4).value, int.from_bytes(written[4:8], "little"))
    after = before if nw else before[: THIRD + 5] + b"\xef\xbe" + before[THIRD + 7 :]
    check("RAM", bytes(script.unit.ram), after)
    check("flush", script.flush(), Result(0))
    _agrees_with_ram(script, THIRD + 4, THIRD)


def _other_masters(script: Script, nw: bool) -> None:
    """Snoops and external writes drop a planted line, with NW = 1 not; nor where the mark is
    invalid or the tag another line's."""
    script.new(ram=RAM_BYTES, cd=True, nw=nw)
    planted = [_plants(script, 4, way, way, way != 2) for way in range(WAYS)]
    check("snoop", script.snoop(FIRST + 3), Result(0))
    check("external", script.external(SECOND + 15, b"\xaa"), Result(0))
    check("snoop of an invalid line", script.snoop(THIRD), Result(0))
    for way in range(WAYS):
        valid = way == 3 or (nw and way < 2)
        _shows(script, 4, way, 0, way, valid, 0, planted[way])
    expected = planted[1][15] if nw else 0xAA
    check("read", script.read(SECOND + 15, 1, NO_KEN).value, expected)
    # A line beyond RAM can be planted too, and a snoop finds it.
    beyond = _plants(script, SETS - 1, 0, TAG_LIMIT)
    check("no read", script.read(NUMBER_LIMIT, 1), Result(5))
    check("snoop beyond RAM", script.snoop(NUMBER_LIMIT), Result(0))
    _shows(script, SETS - 1, 0, 0, TAG_LIMIT, nw, 0, beyond)


def _tags_twice(script: Script) -> None:
    """ "or a tag twice, and then 21 is met": each pair of ways, until a flush, a reset or a test
    write; then reads agree with RAM again."""
    for pair in combinations(range(WAYS), 2):
        script.new(ram=RAM_BYTES, cd=True)
        planted = [_plants(script, 4, way, 1) for way in pair]
        for address in (SECOND, FIRST + 15):
            check("read", script.read(address, 1), Result(21))
        check("write", script.write(SECOND, 4, 1), Result(21))
        check("external", script.external(SECOND, b"\x01"), Result(21))
        check("snoop", script.snoop(SECOND), Result(21))
        check("view", script.view(SECOND), (21, b""))
        check("another set", script.read(SECOND + 16, 4).number, 0)
        for way, sixteen in zip(pair, planted):
            _shows(script, 4, way, 0, 1, True, 0, sixteen)
        if pair[0] == 0:
            check("flush", script.flush(), Result(0))
        elif pair[1] == 3:
            check("reset", script.reset(), Result(0))
        else:
            _plants(script, 4, pair[1], 1, False)
            check("the other's", script.read(SECOND, 1).value, planted[0][0])
            _plants(script, 4, pair[0], 1, False)
        check("fills", script.control(False, False), Result(0))
        _agrees_with_ram(script, SECOND, FIRST, THIRD + 4)


# --- LRU numbers and states


def _lru_numbers(script: Script) -> None:
    """Each LRU number, unchanged by test writes and test reads of each way and read back; the
    victim is the one it names, and a use changes it."""
    victims = {0: 0, 1: 2, 2: 1, 3: 2, 4: 0, 5: 3, 6: 1, 7: 3}
    for lru, victim in victims.items():
        script.new(ram=0x2850, cd=True)
        script.lru(4, lru)
        for way in (1, 3, 0, 2):
            sixteen = _plants(script, 4, way, way)
            _shows(script, 4, way, 0, way, True, lru, sixteen)
        _shows(script, 5, 0, 0, 0, False, 0, _seeded(script, 5, 0))
        check("fills", script.control(False, False), Result(0))
        script.read(0x2040, 4)
        check("victim", script.held(0x2040), victim)
    script.new(ram=RAM_BYTES, cd=True)
    _plants(script, 4, 0, 0)
    # "Use of way 0 sets B0 and B1"; then "way 3 clears B0 and B2".
    script.read(FIRST, 4)
    check("after a use", script.test_read(4, 0).lru, 3)
    _plants(script, 4, 3, 1)
    check("after a test write", script.test_read(4, 3).lru, 3)
    script.read(SECOND, 4)
    check("after another use", script.test_read(4, 2).lru, 2)


def _states_shown(script: Script) -> None:
    """LRU numbers above 7 and tags above the limit as they are; no test call meets 21 to 23."""
    for lru, tag in ((LRU_LIMIT + 1, TAG_LIMIT + 1), (128, 2**31), (255, NUMBER_LIMIT)):
        script.new(ram=RAM_BYTES, cd=True)
        script.lru(9, lru)
        script.tag(9, 1, tag)
        _shows(script, 9, 1, 0, tag, False, lru, _seeded(script, 9, 1))
        script.mark(9, 1, True)
        check("22", script.read(0x90, 1), Result(22))
        _shows(script, 9, 1, 0, tag, True, lru, _seeded(script, 9, 1))
        _shows(script, 9, 0, 0, 0, False, lru, _seeded(script, 9, 0))
        sixteen = _plants(script, 9, 1, TAG_LIMIT)
        _shows(script, 9, 1, 0, TAG_LIMIT, True, lru, sixteen)
        check("23", script.snoop(0x90), Result(23))
        _shows(script, 8, 1, 0, 0, False, 0, _seeded(script, 8, 1))
    script.new(ram=RAM_BYTES, cd=True)
    for number in FAULTS:
        FAULTS[number](script, 9)
    # What the T, K and L lines of the three faults stored.
    lines = ((0, False), (0x1234, True), (0x200000, True), (0x1234, True))
    for way, (tag, valid) in enumerate(lines):
        _shows(script, 9, way, 0, tag, valid, 8, _seeded(script, 9, way))
    _plants(script, 9, 0, 0x1234)
    check("21", script.snoop(0x90), Result(21))


# --- numbers


def _modes(script: Script) -> None:
    """CD = 1 with either NW, set by control calls or stored; 31 in the two other modes, in all
    places."""
    lines = {(4, 1): (5, True), (0, 0): (0, False), (SETS - 1, WAYS - 1): (0, False)}
    for cd, nw in MODES:
        script.new(ram=RAM_BYTES, cd=bool(cd), nw=bool(nw))
        script.store_line(4, 1, 5)
        for (set_index, way), (tag, valid) in lines.items():
            if cd:
                sixteen = _seeded(script, set_index, way)
                _shows(script, set_index, way, 0, tag, valid, 0, sixteen)
                _plants(script, set_index, way, TAG_LIMIT)
            else:
                _shows(script, set_index, way, 31, *REFUSED)
                _turned_away(script, set_index, way, TAG_LIMIT, 31)
    script.new(ram=RAM_BYTES)
    sixteen = _plants(script, 4, 1, 5)
    for cd, nw in ((True, False), (False, False), (False, True), (True, True)):
        check("control", script.control(cd, nw).number, MODES[int(cd), int(nw)][3])
        # The refused pair comes where CD is 0 already.
        line = (0, 5, True, 0, sixteen) if cd else (31, *REFUSED)
        _shows(script, 4, 1, *line)


def _limits(script: Script) -> None:
    """32 on either side of each limit; 3 by the data array's length, whatever RAM, parity and log
    are."""
    script.new(ram=RAM_BYTES, cd=True)
    for set_index in (SETS - 1, SETS, 255, 2**31, NUMBER_LIMIT):
        _tried(script, set_index, 1, 0, 0 if set_index < SETS else 32)
    for way in (WAYS - 1, WAYS, 7, NUMBER_LIMIT):
        _tried(script, 9, way, 0, 0 if way < WAYS else 32)
    for tag in (TAG_LIMIT - 1, TAG_LIMIT):
        _plants(script, 9, 1, tag)
    for tag in (TAG_LIMIT + 1, 2**31, NUMBER_LIMIT):
        _turned_away(script, 9, 1, tag, 32)
    for data in (0, 16, DATA_BYTES - 1, DATA_BYTES, DATA_BYTES + 1, DATA_BYTES + 16):
        script.new(ram=32, data=data)
        _tried(script, 0, 0, 0, 0 if data == DATA_BYTES else 3)
    for ram, parity, log in ((0, 0, 144), (15, 4, 0), (24, 6, 143), (32, 7, 144)):
        script.new(ram=ram, parity=parity, log=log)
        _tried(script, 127, 3, 3, 0)


def _tried(script: Script, set_index: int, way: int, tag: int, number: int) -> None:
    """Both calls, refused with this number, or accepted in a set that was not used yet."""
    if number:
        _turned_away(script, set_index, way, tag, number)
        _shows(script, set_index, way, number, *REFUSED)
        return
    sixteen = _plants(script, set_index, way, tag)
    _shows(script, set_index, way, 0, tag, True, 0, sixteen)


def _order(script: Script) -> None:
    """3 before 31 before 32, each pair and all of them, by each of 32's limits; the state of the
    set has no part in it."""
    outside = ((SETS, 0, 0), (0, WAYS, 0), (SETS, WAYS, TAG_LIMIT + 1))
    for present in ((3, 31), (3, 32), (31, 32), (3, 31, 32)):
        script.new(ram=32, data=DATA_BYTES - (3 in present), cd=31 not in present)
        for number in FAULTS:
            FAULTS[number](script, 0)
        for set_index, way, tag in outside if 32 in present else ((0, 1, 0),):
            _tried(script, set_index, way, tag, present[0])
    # A tag above the limit is 32's for a write alone, after 3 and 31.
    script.new(ram=32, data=DATA_BYTES - 1, cd=False)
    _turned_away(script, 0, 0, TAG_LIMIT + 1, 3)
    script.new(ram=32, cd=False)
    _turned_away(script, 0, 0, TAG_LIMIT + 1, 31)
    script.mode(True, True)
    _turned_away(script, 0, 0, TAG_LIMIT + 1, 32)


# --- C-14: the first victim after a flush

# By LRU number: a set, and the tags of the lines whose reads bring it there from 0. A tag is its
# line's way. Use of way 0 gives 3 + 4.B2, of way 1 gives 1 + 4.B2, of way 2 gives 4 + 2.B1, and of
# way 3 gives 2.B1.
READS_BEFORE_FLUSH = {
    0: (64, (0, 1, 2, 3)),
    1: (0, (0, 1)),
    2: (SETS - 1, (0, 1, 0, 2, 3)),
    3: (1, (0,)),
    4: (63, (0, 1, 2)),
    5: (SETS - 2, (0, 1, 2, 1)),
    6: (65, (0, 1, 0, 2)),
    7: (4, (0, 1, 2, 0)),
}


def _diagnostic_sequence(script: Script) -> None:
    """C-14: "A diagnostic disk flushes, plants four lines of a set by test write and then misses in
    that set", from each LRU number. "The data sheet zeroes the 128 LRU numbers on a flush", those
    of the first and of the last set too."""
    script.new(ram=5 * WAY_BYTES, cd=False)
    for set_index, tags in READS_BEFORE_FLUSH.values():
        for tag in tags:
            script.read(_address_of(tag, set_index), 4)
    check("CD", script.control(True, False), Result(0))
    for lru, (set_index, _) in READS_BEFORE_FLUSH.items():
        check(f"LRU number of {set_index}", script.test_read(set_index, 0).lru, lru)
    check("flush", script.flush(), Result(0))
    for set_index, tags in READS_BEFORE_FLUSH.values():
        # The tag and the bytes of the last way that was filled stay.
        tag = max(tags)
        _shows(script, set_index, tag, 0, tag, False, 0, _ram_line(script, tag, set_index))
    for set_index, _ in READS_BEFORE_FLUSH.values():
        _first_victim(script, set_index)


def _first_victim(script: Script, set_index: int) -> None:
    """Four lines planted in a set whose LRU number is 0, and a miss: "B0 = 0 takes way B1", and the
    use of way 0 "sets B0 and B1"."""
    planted = [_plants(script, set_index, way, way) for way in range(WAYS)]
    _shows(script, set_index, 3, 0, 3, True, 0, planted[3])
    check("CD = 0", script.control(False, False), Result(0))
    check("a miss", script.read(_address_of(4, set_index), 4).cycles, 4)
    check("CD = 1", script.control(True, False), Result(0))
    _shows(script, set_index, 0, 0, 4, True, 3, _ram_line(script, 4, set_index))
    for way in range(1, WAYS):
        _shows(script, set_index, way, 0, way, True, 3, planted[way])


def _address_of(tag: int, set_index: int) -> int:
    return tag * WAY_BYTES + set_index * LINE_BYTES


def _ram_line(script: Script, tag: int, set_index: int) -> bytes:
    address = _address_of(tag, set_index)
    return bytes(script.unit.ram[address : address + LINE_BYTES])
