"""The calls: reads, writes, external writes, snoops, flushes, control, reset, line views, and the
setting of read-only ranges.

A call takes just the things it receives and changes those of them that it changes in
place. It looks for numbers before it changes anything, so that with a number "nothing lent
changes; the directory comes back as given".
"""

from collections.abc import Sequence
from typing import NamedTuple

from . import bus, memory, ranges, refusal
from . import directory as steps
from .bus import Cycle, Doubleword, Record
from .carried import CarriedWrite, Reading, land
from .directory import LINE_BYTES, Directory
from .memory import DOUBLEWORD_BYTES
from .ranges import Range

WORD_BITS = 8 * DOUBLEWORD_BYTES
WORD_MASK = (1 << WORD_BITS) - 1


class Result(NamedTuple):
    """Rule: "The result is number, value (0 except from a read), cycle count (0 except from reads
    and writes)"; the records are those put in the log."""

    number: int
    value: int = 0
    cycles: int = 0
    records: tuple[Record, ...] = ()


class Part(NamedTuple):
    """A part of a lent buffer, "ram" or "data"."""

    buffer: str
    start: int
    length: int


def read(
    directory: Directory,
    ram: bytearray,
    parity: bytearray,
    data: bytearray,
    address: int,
    width: int,
    pcd: bool,
    answers: Sequence[int],
    log: list[int],
) -> Result:
    """A CPU read that carries no writes."""
    lent = (directory, ram, parity, data)
    return read_carrying(*lent, address, width, pcd, answers, log, ())


def read_carrying(
    directory: Directory,
    ram: bytearray,
    parity: bytearray,
    data: bytearray,
    address: int,
    width: int,
    pcd: bool,
    answers: Sequence[int],
    log: list[int],
    carried: Sequence[CarriedWrite],
) -> Result:
    """A CPU read: its doublewords in ascending order, each with its own group of answers, and the
    external writes that land in between. These leave no record."""
    number = (
        refusal.ram_number(len(ram))
        or refusal.parity_number(len(ram), len(parity))
        or refusal.data_number(len(data))
        or refusal.argument_number(len(ram), address, width, answers, len(log))
        or refusal.carried_number(len(ram), carried)
        or refusal.kept_ranges_number(len(ram), directory.ranges)
        or refusal.states_number(directory, _sets_of(address, width, carried))
    )
    if number:
        return Result(number)
    reading = Reading(directory, ram, parity, data, carried)
    words, records = 0, []
    for index, doubleword in enumerate(bus.doublewords(address, width)):
        word, made = _read_doubleword(reading, doubleword, pcd, bus.groups(answers)[index])
        words |= word << WORD_BITS * index
        records += made
    reading.end()
    bus.put_records(log, records)
    value = words >> 8 * (address % DOUBLEWORD_BYTES)
    return Result(0, value, len(records), tuple(records))


def _sets_of(address: int, width: int, carried: Sequence[CarriedWrite]) -> list[int]:
    """Rule (C-12): "State numbers: the read's sets first, then the writes' in list order"."""
    return steps.sets_of(address, width) + [steps.set_of(write.address) for write in carried]


def _read_doubleword(
    reading: Reading, doubleword: Doubleword, pcd: bool, group: Sequence[int]
) -> tuple[int, list[Record]]:
    """The wanted bytes of one doubleword in their lanes, and the records of its cycles."""
    directory = reading.directory
    # C-12: "A doubleword is looked up before a write lands ahead of its first cycle."
    way = steps.lookup(directory, doubleword.address)
    if way is not None:
        # "Read hit: from the data array, no cycle, whatever CD and PCD are."
        steps.use(directory, steps.set_of(doubleword.address), way)
        offset = _byte_offset(doubleword.address, way)
        return memory.read_lanes(reading.data, offset, doubleword.wanted), []
    # "Read miss: a fill when CD = 0, PCD = 0 and the first cycle has KEN#."
    if not directory.cd and not pcd and group[0] & bus.KEN:
        return _fill(reading, doubleword, group)
    # "Otherwise the wanted bytes only."
    records = _read_cycles(reading, bus.plain_cycles(doubleword, group), 0)
    return sum(record.word for record in records), records


def _fill(
    reading: Reading, doubleword: Doubleword, group: Sequence[int]
) -> tuple[int, list[Record]]:
    """A fill. "It is kept only if the last cycle also has KEN#; others in between don't
    matter. ... A dropped one changes neither directory nor data array"."""
    first = reading.cycle
    cycles = bus.fill_cycles(doubleword, group)
    records = _read_cycles(reading, cycles, bus.FILL)
    line = _filled_line(records)
    if cycles[-1].answer & bus.KEN and not reading.spoiled(first, doubleword.address):
        # C-12: "The victim is chosen after a fill's last cycle."
        way = steps.fill(reading.directory, doubleword.address)
        start = steps.data_offset(steps.set_of(doubleword.address), way)
        reading.data[start : start + LINE_BYTES] = line
    # The read takes what came in, also where the fill is dropped.
    return memory.read_lanes(line, doubleword.address % LINE_BYTES, doubleword.wanted), records


def _read_cycles(reading: Reading, cycles: list[Cycle], kind: int) -> list[Record]:
    """Read cycles one after the other, each of RAM and parity as they are then. "Parity never
    alters data"."""
    records = []
    for index, cycle in enumerate(cycles):
        reading.begin_cycle()
        wrong = memory.lanes_wrong(reading.ram, reading.parity, cycle.address, cycle.lanes)
        flags = bus.flags(cycles, index, kind) + (bus.WRONG if wrong else 0)
        word = memory.read_lanes(reading.ram, cycle.address, cycle.lanes)
        records.append(Record(cycle.address, flags, word))
    return records


def _filled_line(records: list[Record]) -> bytearray:
    """The sixteen bytes that a fill's cycles brought in, "Bytes keep their own lanes"."""
    line = 0
    for record in records:
        line |= record.word << 8 * (record.address % LINE_BYTES)
    return bytearray(line.to_bytes(LINE_BYTES, "little"))


def _byte_offset(address: int, way: int) -> int:
    """Where the data array holds the byte of this address, its line being held in `way`."""
    return steps.data_offset(steps.set_of(address), way) + address % LINE_BYTES


def write(
    directory: Directory,
    ram: bytearray,
    parity: bytearray,
    data: bytearray,
    address: int,
    width: int,
    value: int,
    answers: Sequence[int],
    log: list[int],
) -> Result:
    """A CPU write: its doublewords in ascending order, each with its own group of answers."""
    number = (
        refusal.ram_number(len(ram))
        or refusal.parity_number(len(ram), len(parity))
        or refusal.data_number(len(data))
        or refusal.argument_number(len(ram), address, width, answers, len(log), value)
        or refusal.kept_ranges_number(len(ram), directory.ranges)
        or refusal.states_number(directory, steps.sets_of(address, width))
    )
    if number:
        return Result(number)
    words, records = value << 8 * (address % DOUBLEWORD_BYTES), []
    for index, doubleword in enumerate(bus.doublewords(address, width)):
        group = bus.groups(answers)[index]
        word = words >> WORD_BITS * index & WORD_MASK
        records += _write_doubleword(directory, ram, parity, data, doubleword, word, group)
    bus.put_records(log, records)
    return Result(0, 0, len(records), tuple(records))


def _write_doubleword(
    directory: Directory,
    ram: bytearray,
    parity: bytearray,
    data: bytearray,
    doubleword: Doubleword,
    word: int,
    group: Sequence[int],
) -> list[Record]:
    """Rule: "to RAM and the moved lanes' parity; on a hit also to the data array. A miss never
    fills". C-17: "a write hit still alters the held line" where RAM is read-only."""
    way = steps.lookup(directory, doubleword.address)
    if way is not None:
        steps.use(directory, steps.set_of(doubleword.address), way)
        _copy_lanes(data, _byte_offset(doubleword.address, way), doubleword.wanted, word)
        # "With CD = NW = 1 a hit changes the data array and, as a use, the LRU number; RAM
        # and parity stay, with no cycle."
        if directory.cd and directory.nw:
            return []
    cycles = bus.plain_cycles(doubleword, group)
    records = []
    for index, cycle in enumerate(cycles):
        memory.store_lanes(ram, parity, directory.ranges, cycle.address, cycle.lanes, word)
        flags = bus.flags(cycles, index, bus.WRITE)
        records.append(Record(cycle.address, flags, word & memory.LANE_BITS[cycle.lanes]))
    return records


def _copy_lanes(data: bytearray, offset: int, lanes: int, word: int) -> None:
    """Copy the written lanes of a doubleword into the held line."""
    for lane in range(DOUBLEWORD_BYTES):
        if lanes >> lane & 1:
            data[offset + lane] = word >> 8 * lane & 255


def external_write(
    directory: Directory, ram: bytearray, parity: bytearray, address: int, written: bytes
) -> Result:
    """An external write that is a call of its own. "It leaves no record"."""
    number = (
        refusal.ram_number(len(ram))
        or refusal.parity_number(len(ram), len(parity))
        or refusal.external_number(len(ram), address, len(written))
        or refusal.kept_ranges_number(len(ram), directory.ranges)
        or refusal.states_number(directory, steps.sets_of(address, len(written)))
    )
    if number:
        return Result(number)
    land(directory, ram, parity, address, written)
    return Result(0)


def snoop(directory: Directory, address: int) -> Result:
    """A snoop (EADS#) of any 32-bit address; RAM's length has no part in it."""
    number = refusal.states_number(directory, [steps.set_of(address)])
    if not number:
        steps.invalidate(directory, address)
    return Result(number)


def flush(directory: Directory) -> Result:
    """A flush, which is never refused."""
    steps.flush(directory)
    return Result(0)


def control(directory: Directory, cd: bool, nw: bool) -> Result:
    """A control call, with number 9 for the pair CD = 0 and NW = 1."""
    number = refusal.control_number(cd, nw)
    if not number:
        steps.control(directory, cd, nw)
    return Result(number)


def reset(directory: Directory) -> Result:
    """A reset, which is never refused; "The data array is untouched"."""
    steps.reset(directory)
    return Result(0)


def set_ranges(directory: Directory, ram: bytearray, given: Sequence[Range]) -> Result:
    """Rule (C-17): "One call sets them all anew". Of RAM it needs the length only."""
    number = refusal.ram_number(len(ram)) or refusal.ranges_number(len(ram), given)
    if not number:
        ranges.set_anew(directory.ranges, given)
    return Result(number)


def view_number(directory: Directory, ram: bytearray, data: bytearray, address: int) -> int:
    """Rule: "a companion question on the same inputs gives the view's number"."""
    return (
        refusal.ram_number(len(ram))
        or refusal.data_number(len(data))
        or refusal.view_address_number(len(ram), address)
        or refusal.kept_ranges_number(len(ram), directory.ranges)
        or refusal.states_number(directory, [steps.set_of(address)])
    )


def view(directory: Directory, ram: bytearray, data: bytearray, address: int) -> Part:
    """Rule: "A line view is a part of the data array where the line is held, otherwise a part of
    RAM, always the sixteen bytes around the address; a refused view is the empty part at
    RAM's start". A view is no use."""
    if view_number(directory, ram, data, address):
        return Part("ram", 0, 0)
    way = steps.lookup(directory, address)
    if way is None:
        return Part("ram", steps.line_address(address), LINE_BYTES)
    return Part("data", steps.data_offset(steps.set_of(address), way), LINE_BYTES)


def part_bytes(part: Part, ram: bytearray, data: bytearray) -> bytes:
    """The bytes that a view shows."""
    source = ram if part.buffer == "ram" else data
    return bytes(source[part.start : part.start + part.length])
