"""Line views: the sixteen bytes around an address, from the data array or from RAM, and a view's
number."""

from itertools import combinations, product

from unit486_model.access import Result
from unit486_model.directory import LRU_LIMIT, TAG_LIMIT, WAYS, set_of, tag_of
from unit486_model.events import NUMBER_LIMIT
from unit486_model.refusal import DATA_BYTES

from checks.unit_calls import check, snapshot
from checks.vectors import MODES

from .states import FAULTS
from .writer import Script

# Lines of set 4, and a RAM that has one more of them.
HELD, OTHER, THIRD = 0x40, 0x840, 0x1040
RAM_BYTES = 0x1850


def views() -> Script:
    script = Script("views.txt")
    _every_byte(script)
    _every_way(script)
    _valid_mark_and_tag(script)
    for cd, nw in MODES:
        _writes_of_a_mode(script, bool(cd), bool(nw))
        _masters_of_a_mode(script, bool(cd), bool(nw))
    _control_calls(script)
    _no_uses(script)
    _lengths(script)
    _addresses(script)
    _states(script)
    _pairs_and_ways(script)
    _order(script)
    _lines_beyond_ram(script)
    return script


# --- what document 01 says of a view


def _sixteen(buffer: bytearray, start: int) -> tuple[int, bytes]:
    return 0, bytes(buffer[start : start + 16])


def _of_ram(script: Script, address: int) -> tuple[int, bytes]:
    """An accepted view of a line that is not held."""
    return _sixteen(script.unit.ram, address // 16 * 16)


def _of_array(script: Script, set_index: int, way: int) -> tuple[int, bytes]:
    """An accepted view of a held line, whose bytes stand "from (set x 4 + way) x 16"."""
    return _sixteen(script.unit.data, (set_index * 4 + way) * 16)


def _shows(script: Script, address: int, expected: tuple[int, bytes]) -> None:
    """A view answers as expected and changes nothing, which also means that it is no use."""
    before = snapshot(script.unit)
    check(f"view of {address:x}", script.view(address), expected)
    check("nothing changed", snapshot(script.unit), before)


def _shows_ram(script: Script, address: int) -> None:
    _shows(script, address, _of_ram(script, address))


def _shows_array(script: Script, address: int, way: int) -> None:
    _shows(script, address, _of_array(script, set_of(address), way))


def _shows_held(script: Script, address: int) -> None:
    """The line in the way that holds it, else RAM's."""
    way = script.held(address)
    if way is None:
        _shows_ram(script, address)
    else:
        _shows_array(script, address, way)


def _refused(script: Script, address: int, number: int) -> None:
    _shows(script, address, (number, b""))


def _numbered(script: Script, address: int, number: int) -> None:
    """Refused with this number, or shown."""
    if number:
        _refused(script, address, number)
    else:
        _shows_held(script, address)


# --- which bytes are shown


def _every_byte(script: Script) -> None:
    """Whichever byte of its line the address names: the sixteen of a held line, of one that is
    not held, and of neighbours."""
    script.new(ram=RAM_BYTES)
    script.store_line(4, 2, tag_of(HELD))
    check("other bytes", _of_array(script, 4, 2) != _of_ram(script, HELD), True)
    for byte in range(16):
        _shows_array(script, HELD + byte, 2)
    for byte in range(16):
        _shows_ram(script, THIRD + byte)
    for address in (HELD - 16, HELD - 1, HELD + 16, HELD + 31, OTHER, OTHER - 1, OTHER + 16):
        _shows_ram(script, address)


def _every_way(script: Script) -> None:
    """Lines in all four ways of the first set and of the last, and a fifth that is not held; the
    sets beside them hold nothing."""
    script.new(ram=0x2800)
    for set_index, way in product((0, 127), range(WAYS)):
        script.store_line(set_index, way, 3 - way)
    for set_index in (0, 127):
        for way in range(WAYS):
            _shows_array(script, 2048 * (3 - way) + 16 * set_index + 5 * way, way)
        _shows_ram(script, 2048 * 4 + 16 * set_index)
    for set_index in (1, 126):
        _shows_ram(script, 2048 + 16 * set_index + 15)
    # The last line of the largest RAM that the program has room for, in the last way.
    script.new(ram=65_536)
    script.store_line(127, 3, 31)
    _shows_array(script, 65_535, 3)
    _shows_ram(script, 65_519)


def _valid_mark_and_tag(script: Script) -> None:
    """Neither the tag of an invalid way nor a part of a tag makes a line held."""
    script.new(ram=RAM_BYTES)
    script.tag(4, 1, tag_of(HELD))
    _shows_ram(script, HELD)
    script.mark(4, 1, True)
    _shows_array(script, HELD, 1)
    script.tag(4, 0, tag_of(HELD))
    _shows_array(script, HELD + 7, 1)
    script.mark(4, 1, False)
    _shows_ram(script, HELD + 7)
    script.mark(4, 0, True)
    _shows_array(script, HELD + 7, 0)
    for bit in (0, 1, 4, 7, 8, 15, 16, 20):
        script.tag(4, 0, tag_of(HELD) ^ 1 << bit)
        _shows_ram(script, HELD)


# --- before and after other calls


def _two_lines(script: Script, cd: bool, nw: bool) -> None:
    """Two lines of one set are filled, their bytes RAM's, then the mode is stored."""
    script.new(ram=RAM_BYTES, cd=False)
    _shows_ram(script, HELD)
    for way, address in enumerate((HELD, OTHER)):
        script.read(address, 4)
        check("filled", _of_array(script, 4, way), _of_ram(script, address))
        _shows_array(script, address, way)
    script.mode(cd, nw)
    _shows_array(script, HELD, 0)


def _writes_of_a_mode(script: Script, cd: bool, nw: bool) -> None:
    """A write hit shows in the data array, with CD = NW = 1 there alone."""
    through = MODES[int(cd), int(nw)][1]
    _two_lines(script, cd, nw)
    _, before = _of_ram(script, HELD)
    value = int.from_bytes(before[6:10], "little") ^ NUMBER_LIMIT
    written = before[:6] + value.to_bytes(4, "little") + before[10:]
    check("write hit", script.write(HELD + 6, 4, value).number, 0)
    _shows(script, HELD + 9, (0, written))
    check("RAM's", _of_ram(script, HELD), (0, written if through else before))
    check("read", script.read(HELD + 6, 4).value, value)
    _, before = _of_ram(script, THIRD)
    check("write miss", script.write(THIRD + 15, 1, before[15] ^ 255).number, 0)
    _shows(script, THIRD, (0, before[:15] + bytes((before[15] ^ 255,))))
    script.new(ram=RAM_BYTES, cd=cd, nw=nw)
    script.store_line(4, 3, tag_of(OTHER))
    _, stored = _of_array(script, 4, 3)
    script.write(OTHER, 2, 0xBEEF)
    _shows(script, OTHER + 1, (0, b"\xef\xbe" + stored[2:]))


def _masters_of_a_mode(script: Script, cd: bool, nw: bool) -> None:
    """A line that was snooped away is RAM's again; one that a snoop left is not."""
    drops = MODES[int(cd), int(nw)][2]
    script.new(ram=RAM_BYTES, cd=cd, nw=nw)
    for way, address in enumerate((HELD, OTHER, THIRD)):
        script.store_line(4, way, tag_of(address))
    check("snoop", script.snoop(HELD + 8), Result(0))
    _shows(script, HELD, _of_ram(script, HELD) if drops else _of_array(script, 4, 0))
    check("external", script.external(OTHER + 6, b"\x01\x02\x03"), Result(0))
    check("in RAM", _of_ram(script, OTHER)[1][6:9], b"\x01\x02\x03")
    _shows(script, OTHER, _of_ram(script, OTHER) if drops else _of_array(script, 4, 1))
    _shows_array(script, THIRD, 2)
    check("external elsewhere", script.external(HELD + 16, bytes(range(16))), Result(0))
    _shows(script, HELD + 31, (0, bytes(range(16))))
    check("flush", script.flush(), Result(0))
    for address in (HELD, OTHER, THIRD):
        _shows_ram(script, address)
    script.store_line(4, 1, tag_of(HELD))
    _shows_array(script, HELD, 1)
    check("reset", script.reset(), Result(0))
    _shows_ram(script, HELD)


def _control_calls(script: Script) -> None:
    """Each pair after each other: lines are held whatever CD and NW are. A line that was written
    inside and then snooped away is RAM's as it was."""
    script.new(ram=RAM_BYTES)
    check("fills", script.control(False, False), Result(0))
    script.read(HELD, 4)
    _, before = _of_ram(script, HELD)
    check("inside", script.control(True, True), Result(0))
    script.write(HELD, 4, 0x01020304)
    written = b"\x04\x03\x02\x01" + before[4:]
    for cd, nw in ((True, False), (False, False), (False, True), (True, True), (False, True)):
        check("control", script.control(cd, nw).number, MODES[int(cd), int(nw)][3])
        _shows(script, HELD + 15, (0, written))
        _shows_ram(script, OTHER)
    check("snoop with NW = 1", script.snoop(HELD), Result(0))
    _shows(script, HELD, (0, written))
    script.control(True, False)
    check("snoop", script.snoop(HELD), Result(0))
    _shows(script, HELD, (0, before))


def _no_uses(script: Script) -> None:
    """The bench table's six fills with views of the held lines between them: the same ways."""
    script.new(ram=0x2810, cd=False)
    lines = (0, 0x800, 0x1000, 0x1800, 0x2000, 0x2800)
    ways: list[int | None] = []
    for address in lines:
        script.read(address, 4)
        ways.append(script.held(address))
        for seen in lines:
            _shows_held(script, seen)
    check("ways", ways, [0, 1, 2, 3, 0, 2])
    # A full set: whatever is viewed, the next victim is the one that the LRU number names.
    for lru, victim in ((0, 0), (2, 1), (1, 2), (5, 3)):
        script.new(ram=0x2810, cd=False)
        for way in range(WAYS):
            script.store_line(0, way, way)
        script.lru(0, lru)
        for way in (3, 0, 2, 1):
            _shows_array(script, 2048 * way, way)
        script.read(0x2000, 4)
        check("victim", script.held(0x2000), victim)


# --- numbers


def _lengths(script: Script) -> None:
    """RAM and data array; a view receives neither parity array nor log."""
    for length in (0, 1, 8, 15, 16, 17, 24, 31, 32, 48, 2056, 2064):
        script.new(ram=length)
        number = 0 if length >= 16 and length % 16 == 0 else 1
        _numbered(script, 0, number)
        _numbered(script, max(length, 1) - 1, number)
        _refused(script, length, number or 5)
    for length in (0, 16, 8191, DATA_BYTES, 8193, 8208):
        script.new(ram=32, data=length)
        number = 0 if length == DATA_BYTES else 3
        _numbered(script, 16, number)
        script.store_line(0, 0, 0)
        _numbered(script, 0, number)
    for parity, log in ((0, 144), (7, 144), (9, 144), (32, 144), (8, 0), (8, 143), (9, 143)):
        script.new(ram=32, parity=parity, log=log)
        script.store_line(0, 3, 0)
        _shows_array(script, 15, 3)
        _shows_ram(script, 16)


def _addresses(script: Script) -> None:
    """5 for addresses beyond RAM, up to the last of 32 bits."""
    for ram in (16, 32, 2064):
        script.new(ram=ram)
        for address in (0, 15, ram - 16, ram - 1):
            _shows_ram(script, address)
        for address in (ram, ram + 1, ram + 15, 65_536, 2**31, NUMBER_LIMIT - 15, NUMBER_LIMIT):
            _refused(script, address, 5)


def _states(script: Script) -> None:
    """21 to 23 in the set of the address, in each mode; not in any other set."""
    for number in FAULTS:
        script.new(ram=2064)
        for set_index in (4, 5, 6):
            script.store_line(set_index, 0, 0)
        FAULTS[number](script, 5)
        for cd, nw in MODES:
            script.mode(bool(cd), bool(nw))
            for address in (0x50, 0x5F):
                _refused(script, address, number)
            for address in (0x4F, 0x60):
                _shows_array(script, address, 0)
        _shows_ram(script, 0x800)


def _pairs_and_ways(script: Script) -> None:
    """Every pair of ways for 21, every way for 22; invalid ways are exempt from both."""
    script.new(ram=2064)
    for lower, upper in combinations(range(WAYS), 2):
        for way in (lower, upper):
            script.store_line(9, way, 0)
        _refused(script, 0x94, 21)
        script.mark(9, upper, False)
        _shows_array(script, 0x94, lower)
        script.mark(9, lower, False)
        _shows_ram(script, 0x94)
    for way in range(WAYS):
        script.store_line(9, way, TAG_LIMIT)
        _shows_ram(script, 0x94)
        script.tag(9, way, TAG_LIMIT + 1 if way % 2 else NUMBER_LIMIT)
        _refused(script, 0x94, 22)
        script.mark(9, way, False)
        _shows_ram(script, 0x94)
    for lru in (LRU_LIMIT, LRU_LIMIT + 1, 255):
        script.lru(9, lru)
        _numbered(script, 0x94, 23 if lru > LRU_LIMIT else 0)


def _order(script: Script) -> None:
    """Each pair of numbers, and all of them: the lowest is answered."""
    numbers = (1, 3, 5, 21, 22, 23)
    for present in (*combinations(numbers, 2), (21, 22, 23), numbers):
        ram = 24 if 1 in present else 32
        # 2 and 7 are wrong in all of them, which a view does not see.
        data = DATA_BYTES - (3 in present)
        script.new(ram=ram, parity=ram // 4 + 1, data=data, log=143)
        address = ram + 9 if 5 in present else 3
        script.store_line(set_of(address), 0, tag_of(address))
        for number in FAULTS:
            if number in present:
                FAULTS[number](script, set_of(address))
        _refused(script, address, present[0])
    script.new(ram=32)
    for way in (0, 2):
        script.store_line(0, way, TAG_LIMIT + 1)
    _refused(script, 0, 21)


def _lines_beyond_ram(script: Script) -> None:
    """No view shows a held line with a tag beyond RAM, and it hides none of RAM's lines."""
    script.new(ram=32)
    for way, tag in enumerate((1, TAG_LIMIT)):
        for set_index in (0, 127):
            script.store_line(set_index, way, tag)
    for address in (2048, TAG_LIMIT * 2048, 4095, NUMBER_LIMIT):
        check("held", script.held(address) is not None, True)
        _refused(script, address, 5)
    _shows_ram(script, 0)
    script.store_line(0, 2, 0)
    _shows_array(script, 15, 2)
