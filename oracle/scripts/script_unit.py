"""What the program `replay` does with a script line and prints for it, done on the model.

A line is a letter and its fields, a blank before each. Numbers are decimal, of 32 bits; the value
of W and w is of 64. The index of T and K is that of a line, set x 4 + way; the index of P is that
of a parity byte. A mark, pcd, cd and nw are 0 or 1.

    N ram parity data log seed seed   a new unit: four lengths, the seeds of RAM and data array
    T index tag                       the directory's fields, stored without a call
    K index mark
    L set number
    M cd nw
    P index mask                      the parity byte, exclusive-or the mask
    G count word ..                   the directory's ranges: their count and their sixteen words
    R address width pcd answers       calls; answers are digits, one for each answer
    W address width value answers
    Q address width pcd answers count then for each write: cycle address length byte ..
    r address width pcd               a read and a write with the board's answers
    w address width value
    X address byte ..
    S address
    F
    C cd nw
    Z
    V address                         a line view, with its companion question
    p set way tag mark byte ..        a test write with its sixteen bytes
    t set way                         a test read
    O word ..                         the ranges set anew: start and length of each in turn
    g                                 the directory's ranges
    B address width                   the board's answers

G stores the words that it has not as 0, so that a script can have a count above eight and ranges
that no call sets. The words of O may end with a start alone.

Q is a read that carries `count` writes. Its line has the first four of them, if there are as many,
and the first sixteen bytes of each: a larger count or length is 33's, whatever comes after.

A row has the letter and fields with a tab before each. A call's fields are number, value, cycle
count, three words for each record, and the digests of directory, RAM, parity array, data array
and log. A view's are its number, the length of the part that it shows, the part's bytes as hex
pairs in one field, and the digests. A test read's are its number, tag, valid mark and LRU number,
the sixteen bytes as hex pairs in one field, and the digests. A new unit's are the digests, those
of B the answers as a run of digits, that of g a digest of the ranges' count and sixteen words. The
other lines print nothing.
"""

import struct
import zlib
from dataclasses import dataclass

from unit486_model import access, board, diagnostics, memory
from unit486_model import directory as steps
from unit486_model.access import Result
from unit486_model.bus import RECORD_WORDS
from unit486_model.carried import CARRIED_MOST, CarriedWrite
from unit486_model.directory import LINE_BYTES, Directory
from unit486_model.events import Unit
from unit486_model.ranges import RANGES_MOST, Ranges, ranges_of

# The log's words before a call, so that words which the call leaves alone show.
LOG_PATTERN = 0xC0DE0000

# The most that the program has room for.
RAM_ROOM = 65_536
PARITY_ROOM = 65_536
DATA_ROOM = 65_536
LOG_ROOM = 192
FIELD_ROOM = 64
WORD_ROOM = 32

# The fields that are 0 or 1, by their place after the letter.
ZERO_OR_ONE = {"K": (1,), "M": (0, 1), "R": (2,), "Q": (2,), "r": (2,), "C": (0, 1), "p": (3,)}


def contents(seed: int, length: int) -> bytearray:
    """Bytes that look random: the upper eight bits of a linear congruential generator's states."""
    state, made = seed, bytearray()
    for _ in range(length):
        state = (state * 1_664_525 + 1_013_904_223) % 2**32
        made.append(state >> 24)
    return made


def agreeing_parity(ram: bytearray, length: int) -> bytearray:
    """Parity that agrees with RAM, as far as either goes: the lengths need not match."""
    parity = bytearray(length)
    for address, byte in enumerate(ram[: 4 * length]):
        parity[address // 4] |= memory.dp_bit(byte) << address % 4
    return parity


def fresh_log(words: int) -> list[int]:
    return [LOG_PATTERN + index for index in range(words)]


def directory_bytes(directory: Directory) -> bytes:
    """Tags as four bytes each, valid marks, LRU numbers, CD and NW as one each."""
    tags = struct.pack(f"<{len(directory.tags)}I", *directory.tags)
    control_bits = bytes((directory.cd, directory.nw))
    return tags + bytes(directory.valid) + bytes(directory.lru) + control_bits


def ranges_bytes(ranges: Ranges) -> bytes:
    """The count and the words of all eight places, as four bytes each."""
    bounds = [word for one in ranges.places for word in one]
    return struct.pack(f"<{1 + len(bounds)}I", ranges.count, *bounds)


def stored_ranges(fields: list[int]) -> Ranges:
    """The ranges of a G line."""
    count, *words = fields
    assert len(words) <= 2 * RANGES_MOST, fields
    return Ranges(count, ranges_of(words + [0] * (2 * RANGES_MOST - len(words))))


def marks_are_0_or_1(line: str) -> bool:
    """Whether each field that must be 0 or 1 is: programs that read a script may take another
    number for either."""
    letter, *fields = line.split(" ")
    return all(fields[place] in ("0", "1") for place in ZERO_OR_ONE.get(letter, ()))


def carried_writes(fields: list[int]) -> list[CarriedWrite]:
    """The writes of a Q line, from their count on. One write more stands for any count above four,
    one byte more for any length above sixteen."""
    count, *left = fields
    writes = []
    for _ in range(min(count, CARRIED_MOST)):
        cycle, address, length, *left = left
        given = min(length, LINE_BYTES)
        written, left = left[:given], left[given:]
        more = [0] if length > LINE_BYTES else []
        writes.append(CarriedWrite(cycle, address, bytes(written + more)))
    assert not left, fields
    return writes + writes[:1] if count > CARRIED_MOST else writes


@dataclass
class ScriptUnit:
    """A unit with its log, on which lines are run."""

    unit: Unit
    log: list[int]

    def digests(self) -> list[str]:
        """Adler-32 of all that calls are lent."""
        log = struct.pack(f"<{len(self.log)}I", *self.log)
        parts = (self.unit.ram, self.unit.parity, self.unit.data, log)
        seen = (directory_bytes(self.unit.directory), *parts)
        return [f"{zlib.adler32(part):08x}" for part in seen]

    def run_line(self, line: str) -> tuple[Result | None, str]:
        """Run one line: a call's result, and the row that it prints."""
        letter, *fields = line.split(" ")
        if letter == "B":
            address, width = (int(field) for field in fields)
            answers = board.answers(board.TABLE, address, width)
            return None, _row(letter, "".join(str(answer) for answer in answers))
        if letter in "TKLMP":
            self._store(letter, *(int(field) for field in fields))
            return None, ""
        if letter == "G":
            self.unit.directory.ranges = stored_ranges([int(field) for field in fields])
            return None, ""
        if letter == "g":
            seen = ranges_bytes(self.unit.directory.ranges)
            return None, _row(letter, f"{zlib.adler32(seen):08x}")
        self.log = fresh_log(len(self.log))
        if letter == "V":
            return self._view(int(fields[0]))
        if letter == "t":
            return self._test_read(*(int(field) for field in fields))
        result = self._call(letter, fields)
        words = self.log[: RECORD_WORDS * result.cycles]
        row = _row(letter, result.number, result.value, result.cycles, *words, *self.digests())
        return result, row

    def _store(self, letter: str, index: int, value: int) -> None:
        directory = self.unit.directory
        if letter == "T":
            directory.tags[index] = value
        elif letter == "K":
            directory.valid[index] = value == 1
        elif letter == "L":
            directory.lru[index] = value
        elif letter == "M":
            directory.cd, directory.nw = index == 1, value == 1
        else:
            self.unit.parity[index] ^= value

    def _call(self, letter: str, fields: list[str]) -> Result:
        if letter in "RrWw":
            return self._access(letter, *(int(field) for field in fields[:3]), fields[3:])
        if letter == "Q":
            return self._read_carrying(fields)
        numbers = [int(field) for field in fields]
        if letter == "X":
            lent = (self.unit.directory, self.unit.ram, self.unit.parity)
            return access.external_write(*lent, numbers[0], bytes(numbers[1:]))
        if letter == "S":
            return access.snoop(self.unit.directory, numbers[0])
        if letter == "F":
            return access.flush(self.unit.directory)
        if letter == "C":
            return access.control(self.unit.directory, numbers[0] == 1, numbers[1] == 1)
        if letter == "O":
            return access.set_ranges(self.unit.directory, self.unit.ram, ranges_of(numbers))
        if letter == "p":
            set_index, way, tag, mark, *sixteen = numbers
            lent = (self.unit.directory, self.unit.data)
            return diagnostics.test_write(*lent, set_index, way, tag, mark == 1, bytes(sixteen))
        assert letter == "Z", letter
        return access.reset(self.unit.directory)

    def _view(self, address: int) -> tuple[Result, str]:
        """A view and its companion question, asked on the same inputs."""
        lent = (self.unit.directory, self.unit.ram, self.unit.data)
        number = access.view_number(*lent, address)
        shown = access.part_bytes(access.view(*lent, address), self.unit.ram, self.unit.data)
        return Result(number), _row("V", number, len(shown), shown.hex(), *self.digests())

    def _test_read(self, set_index: int, way: int) -> tuple[Result, str]:
        line = diagnostics.test_read(self.unit.directory, self.unit.data, set_index, way)
        fields = (line.number, line.tag, int(line.valid), line.lru, line.sixteen.hex())
        return Result(line.number), _row("t", *fields, *self.digests())

    def _access(
        self, letter: str, address: int, width: int, third: int, given: list[str]
    ) -> Result:
        """A read or a write; the third field is PCD or the value."""
        unit = self.unit
        lent = (unit.directory, unit.ram, unit.parity, unit.data, address, width)
        answers = _answers("".join(given))
        if letter in "rw":
            answers = board.answers(board.TABLE, address, width)
        if letter in "Rr":
            return access.read(*lent, third == 1, answers, self.log)
        return access.write(*lent, third, answers, self.log)

    def _read_carrying(self, fields: list[str]) -> Result:
        unit = self.unit
        address, width, pcd = (int(field) for field in fields[:3])
        answers, carried = _answers(fields[3]), carried_writes([int(field) for field in fields[4:]])
        lent = (unit.directory, unit.ram, unit.parity, unit.data, address, width)
        return access.read_carrying(*lent, pcd == 1, answers, self.log, carried)


def _answers(digits: str) -> list[int]:
    return [int(digit) for digit in digits]


def new_script_unit(line: str) -> tuple[ScriptUnit, str]:
    """A new unit after reset, by its line, and the row that it prints."""
    letter, *fields = line.split(" ")
    ram_length, parity_length, data_length, log_length, *seeds = (int(field) for field in fields)
    ram = contents(seeds[0], ram_length)
    parity = agreeing_parity(ram, parity_length)
    unit = Unit(steps.first(), ram, parity, contents(seeds[1], data_length))
    script_unit = ScriptUnit(unit, fresh_log(log_length))
    return script_unit, _row(letter, *script_unit.digests())


def _row(*fields: str | int) -> str:
    return "\t".join(str(field) for field in fields) + "\n"
