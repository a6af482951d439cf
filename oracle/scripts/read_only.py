"""Read-only ranges: the guests' test for ROM, writes across their edges, other masters there, held
lines of ROM, the ranges set anew and kept; then what is refused."""

import struct
import zlib
from collections.abc import Collection, Sequence
from itertools import product

from unit486_model.access import Result
from unit486_model.bus import ANSWERS, BS8, BS16, WRITE, WRONG, Record
from unit486_model.carried import CarriedWrite
from unit486_model.directory import WAYS
from unit486_model.events import NUMBER_LIMIT
from unit486_model.ranges import Range

from checks.unit_calls import ALL_KEN, NO_KEN, check, flags, snapshot

from .expected_reads import Ends, Fill, Hit, Plain, carries
from .read_only_numbers import read_only_numbers
from .source_tables import fill_records, plain_records
from .writer import Script

RAM_BYTES = 80
# Lines 1 and 2 of the five.
ROM = Range(16, 32)


def read_only() -> Script:
    script = Script("read_only.txt")
    _rom_test(script)
    _edges(script)
    _external_writes(script)
    _carried_writes(script)
    _held_line(script)
    _parity_bytes(script)
    _kept_by_other_calls(script)
    _set_anew(script)
    _places(script)
    read_only_numbers(script)
    return script


# --- what is expected


def addresses(*ranges: Range) -> set[int]:
    """The addresses of all bytes in the ranges."""
    return {byte for start, length in ranges for byte in range(start, start + length)}


def _new(script: Script, *ranges: Range, ram: int = RAM_BYTES) -> set[int]:
    """A unit whose ranges are set, and their addresses."""
    script.new(ram=ram, cd=False)
    _sets(script, *ranges)
    return addresses(*ranges)


def _sets(script: Script, *ranges: Range) -> None:
    """An accepted call, which changes the ranges only."""
    before = snapshot(script.unit)
    check("set", script.set_ranges(*ranges), Result(0))
    check("all else", _without_ranges(snapshot(script.unit)), _without_ranges(before))
    _keeps(script, *ranges)


def _without_ranges(seen: tuple[object, ...]) -> tuple[object, ...]:
    return (*seen[:5], *seen[6:])


def _keeps(script: Script, *ranges: Range) -> None:
    """The directory has these ranges, and zeros in the places that are not in use."""
    words = [word for one in ranges for word in one]
    words += [0] * (2 * 8 - len(words))
    digest = zlib.adler32(struct.pack("<17I", len(ranges), *words))
    check("ranges", script.ranges(), f"{digest:08x}")


def _other(script: Script, address: int, count: int) -> bytes:
    """Bytes that RAM does not have there, each with the other DP bit."""
    return bytes(byte ^ 0x57 for byte in script.unit.ram[address : address + count])


def _put(script: Script, address: int, written: bytes, rom: Collection[int]) -> tuple[bytes, bytes]:
    """RAM and parity after a write: in the ranges nothing of either changes."""
    ram, parity = bytearray(script.unit.ram), bytearray(script.unit.parity)
    for place, byte in enumerate(written, address):
        if place not in rom:
            ram[place] = byte
            lane = 1 << place % 4
            parity[place // 4] &= 15 - lane
            parity[place // 4] |= lane if byte.bit_count() % 2 else 0
    return bytes(ram), bytes(parity)


def _writes(
    script: Script, address: int, width: int, rom: Collection[int], answers: Sequence[int] = NO_KEN
) -> None:
    """A write miss: cycles and records as ever, RAM and parity outside the ranges only."""
    written = _other(script, address, width)
    *kept, _, _, data = snapshot(script.unit)
    expected = (*kept, *_put(script, address, written, rom), data)
    result = script.write(address, width, int.from_bytes(written, "little"), answers)
    records = [
        Record(place, flag, _word(written, place - address, flag))
        for place, flag in plain_records(address, width, answers, WRITE)
    ]
    check(f"{width} at {address}", result, Result(0, 0, len(records), tuple(records)))
    check(f"left by {width} at {address}", snapshot(script.unit), expected)


def _word(written: bytes, first: int, flag: int) -> int:
    """The written bytes in the lanes that a cycle moves; lane 0 has the byte of this index."""
    return sum(written[first + lane] << 8 * lane for lane in range(4) if flag >> lane & 1)


def _reads_ram(script: Script, address: int, width: int, answers: Sequence[int] = NO_KEN) -> None:
    """A read by cycles gives RAM's bytes."""
    result = script.read(address, width, answers)
    value = int.from_bytes(script.unit.ram[address : address + width], "little")
    records = plain_records(address, width, answers)
    check(f"read of {width} at {address}", result[:3], (0, value, len(records)))


def _hold(script: Script, *lines: int) -> None:
    """These lines are held, with RAM's bytes."""
    for line in lines:
        check("fill", script.read(16 * line, 1).cycles, 4)
        check("held", script.held(16 * line), 0)


# --- the rules


def _rom_test(script: Script) -> None:
    """ "Guests write into their boot ROM to test for it": the write makes its cycles, and what is
    read back is the old value. The line below takes it."""
    rom = _new(script, ROM)
    cases = ((1, 19, 0), (2, 20, BS8), (4, 24, 0), (4, 33, BS8), (8, 40, BS16), (8, 27, 0))
    for width, address, size in (*cases, (4, 8, 0)):
        old = bytes(script.unit.ram)
        _writes(script, address, width, rom, [size] * ANSWERS)
        check("ROM or RAM", bytes(script.unit.ram) == old, address >= 16)
        _reads_ram(script, address, width)


def _edges(script: Script) -> None:
    """ "RAM and parity there ignore": byte by byte across either edge, in two and in three
    doublewords. Parity bytes have ones in their upper four bits."""
    rom = _new(script, ROM)
    for index in range(RAM_BYTES // 4):
        script.flip(index, 0xF0)
    sizes = (0, BS8, BS16)
    steps = ((2, 1), (4, 1), (4, 2), (4, 3), (8, 1), (8, 3), (8, 4), (8, 7))
    for (width, outside), edge in product(steps, (16, 48)):
        size = sizes[(width + outside) % 3] if width < 8 else sizes[(edge // 16 + outside) % 2 * 2]
        start = edge - outside if edge == 16 else edge - width + outside
        _writes(script, start, width, rom, [size] * ANSWERS)


def _external_writes(script: Script) -> None:
    """Lines below, in and above a range, held: RAM ignores some of the writes, each of them snoops.
    With NW = 1 none does."""
    for nw in (False, True):
        rom = _new(script, ROM)
        lines = range(RAM_BYTES // 16) if not nw else range(2)
        _hold(script, *lines)
        script.mode(False, nw)
        for line in lines:
            first, count = (16 * line, 16) if line % 2 else (16 * line + 15, 1)
            written = _other(script, first, count)
            tags, valid, *kept, _, _, data = snapshot(script.unit)
            valid[WAYS * line] = nw
            expected = (tags, valid, *kept, *_put(script, first, written, rom), data)
            check("external", script.external(first, written), Result(0))
            check(f"left in line {line}", snapshot(script.unit), expected)


def _carried_writes(script: Script) -> None:
    """Into a line of ROM that is being filled, before each cycle: dropped as ever, and what comes
    in is RAM's all the same. Into held lines and past the last cycle: they snoop. Into RAM, for the
    same read: they land."""
    rom = _new(script, ROM)
    fill = fill_records(16, ALL_KEN)
    for cycle in range(4):
        carried = [CarriedWrite(cycle, 24, _other(script, 24, 3))]
        course = [Fill(fill_records(20, ALL_KEN), None if cycle else 0)]
        carries(script, 20, 2, carried, course, rom=rom)
        if cycle == 0:
            carried = [CarriedWrite(NUMBER_LIMIT, 16, _other(script, 16, 16))]
            carries(script, 28, 4, carried, [Hit(0), Ends(16, 0)], rom=rom)
    script.mode(False, True)
    carries(script, 16, 1, [CarriedWrite(1, 31, b"\x00")], [Fill(fill, None)], rom=rom)
    script.mode(False, False)
    _hold(script, 1, 2)
    both = [CarriedWrite(0, 46, _other(script, 46, 2)), CarriedWrite(1, 48, _other(script, 48, 2))]
    both += [CarriedWrite(2, 15, _other(script, 15, 1)), CarriedWrite(9, 16, _other(script, 16, 2))]
    kept = Fill(fill_records(64, ALL_KEN), 0)
    carries(script, 64, 4, both, [Ends(32, 0), kept, Ends(16, 0)], rom=rom)
    plain = Plain(plain_records(44, 4, NO_KEN))
    carries(script, 44, 4, [CarriedWrite(0, 44, b"\x01\x02")], [plain], NO_KEN, rom=rom)


def _held_line(script: Script) -> None:
    """ "a write hit still alters the held line": reads and views show what RAM never takes. After a
    flush they show the old bytes. A write across the edge alters both held lines."""
    rom = _new(script, ROM)
    _hold(script, 2, 3)
    old = bytes(script.unit.ram)
    line = bytearray(old[32:48])
    for address, width in ((36, 4), (44, 8), (43, 1)):
        written = _other(script, address, width)
        line[address - 32 : address - 32 + width] = written[: 48 - address]
        ram, parity = _put(script, address, written, rom)
        check("hit", script.write(address, width, int.from_bytes(written, "little")).number, 0)
        check("RAM and parity", (bytes(script.unit.ram), bytes(script.unit.parity)), (ram, parity))
    check("altered", script.read(36, 8), Result(0, int.from_bytes(line[4:12], "little")))
    check("altered", script.view(32), (0, bytes(line)))
    above = bytes(script.unit.ram[48:64])
    check("as RAM", (script.view(63), above[:4] == old[48:52]), ((0, above), False))
    script.mode(True, True)
    check("inside", script.write(32, 1, old[32] ^ 255), Result(0))
    check("altered", script.read(32, 1), Result(0, old[32] ^ 255))
    check("flush", script.flush(), Result(0))
    check("RAM's", script.view(40), (0, old[32:48]))
    _reads_ram(script, 36, 8)
    check("ROM", bytes(script.unit.ram[16:48]), old[16:48])


def _parity_bytes(script: Script) -> None:
    """A parity byte there stays whole: wrong DP bits and the upper four. Reads tell of them as
    ever, and the lanes of a doubleword are in the ranges all or none."""
    rom = _new(script, ROM)
    for index in (3, 4, 11, 12):
        script.flip(index, 0xFA)
    for address, width in ((14, 8), (44, 8), (17, 1)):
        _writes(script, address, width, rom)
    parity = bytes(script.unit.parity)
    check("external", script.external(16, bytes(16)), Result(0))
    carried = [CarriedWrite(0, 44, b"\x07\x07\x07\x07")]
    check("still wrong", flags(script.read_carrying(44, 4, carried, NO_KEN)), [79 + WRONG])
    check("whole", bytes(script.unit.parity), parity)
    check("the lanes in turn", flags(script.read(16, 4, [BS8] * ANSWERS)), [1, 130, 4, 200])


def _kept_by_other_calls(script: Script) -> None:
    """Only the call that sets ranges changes them; "A later reset keeps them"."""
    rom = _new(script, ROM, Range(0, 16))
    sixteen = bytes(range(16))
    script.read(64, 8)
    script.snoop(64)
    script.control(True, False)
    check("test write", script.test_write(1, 2, 0, True, sixteen), Result(0))
    check("test read", script.test_read(1, 2).sixteen, sixteen)
    check("flush", script.flush(), Result(0))
    _keeps(script, ROM, Range(0, 16))
    for _ in range(2):
        check("reset", script.reset(), Result(0))
        _keeps(script, ROM, Range(0, 16))
        _writes(script, 45, 8, rom)
    check("external", script.external(0, _other(script, 0, 16)), Result(0))
    _reads_ram(script, 12, 4)


def _set_anew(script: Script) -> None:
    """All of them, each time: fewer leave nothing of the old ones, none makes all of RAM writable;
    also where lines are held, which stay."""
    _new(script, Range(0, 16), Range(48, 16), ROM)
    _hold(script, 1)
    for given in ((Range(64, 16), Range(32, 16)), (Range(16, 16),), (), (Range(0, RAM_BYTES),)):
        _sets(script, *given)
        for address in (46, 60):
            _writes(script, address, 4, addresses(*given))
    check("held", script.held(16), 0)
    _sets(script)


def _places(script: Script) -> None:
    """Overlapping ranges, one of them twice; ranges at both ends of RAM; eight ranges, with every
    other line."""
    rom = _new(script, Range(16, 32), Range(32, 32), Range(32, 16), Range(32, 16))
    for address in (14, 30, 46, 62):
        _writes(script, address, 4, rom)
    rom = _new(script, Range(RAM_BYTES - 16, 16), Range(0, 16))
    for address in (0, 12, 60, RAM_BYTES - 8):
        _writes(script, address, 8, rom)
    rom = _new(script, *(Range(32 * index, 16) for index in (7, 1, 2, 3, 4, 5, 6, 0)), ram=256)
    for address in range(15, 255, 16):
        _writes(script, address, 2, rom)
