"""The program: event lines in, rows out."""

import re
import sys
from collections.abc import Callable, Sequence
from dataclasses import dataclass
from typing import Any

from . import access, board
from . import directory as steps
from .access import Result
from .bus import LOG_WORDS
from .directory import Directory
from .memory import parity_length
from .refusal import DATA_BYTES

HEADER = b"event\tanswer\tvalue\tcycles\n"
INPUT_LIMIT = 65_536
LINE_LIMIT = 80
RAM_BYTES = 65_536
NUMBER_DIGITS = 10
NUMBER_LIMIT = 4_294_967_295
VALUE_DIGITS = 20
VALUE_LIMIT = 18_446_744_073_709_551_615

MALFORMED = Result(11)
TOO_LONG = Result(12)


def _decimal(field: bytes, digits: int, limit: int) -> int | None:
    """1 to `digits` decimal digits, up to the limit; None if malformed."""
    if not re.fullmatch(rb"[0-9]+", field) or len(field) > digits or int(field) > limit:
        return None
    return int(field)


def number(field: bytes) -> int | None:
    """Rule: "Other numbers: 1 to 10 decimal digits, up to 4,294,967,295"."""
    return _decimal(field, NUMBER_DIGITS, NUMBER_LIMIT)


def value(field: bytes) -> int | None:
    """Rule (C-15): "W's value field takes any 64-bit number, 1 to 20 digits", whatever the width;
    one too large for its width is 8's."""
    return _decimal(field, VALUE_DIGITS, VALUE_LIMIT)


def bit(field: bytes) -> bool | None:
    """Rule: "PCD, CD, NW one digit 0 or 1"."""
    return {b"0": False, b"1": True}.get(field)


def pairs(field: bytes) -> bytes | None:
    """Rule: "uppercase hex pairs; an empty field is well formed and gets 10"."""
    if not re.fullmatch(rb"([0-9A-F]{2})*", field):
        return None
    return bytes.fromhex(field.decode("ascii"))


# "R address width PCD; W address width value; X address bytes ...; S address; F; C CD NW; Z"
FORMS: dict[bytes, tuple[Callable[[bytes], Any], ...]] = {
    b"R": (number, number, bit),
    b"W": (number, number, value),
    b"X": (number, pairs),
    b"S": (number,),
    b"F": (),
    b"C": (bit, bit),
    b"Z": (),
}


def scan(line: bytes) -> tuple[str, list[Any]] | None:
    """Rule: "tab-parted lines of at most 80 bytes before the newline"; None if malformed."""
    letter, *fields = line.split(b"\t")
    form = FORMS.get(letter)
    if len(line) > LINE_LIMIT or form is None or len(fields) != len(form):
        return None
    values = [reader(field) for reader, field in zip(form, fields)]
    if any(read is None for read in values):
        return None
    return letter.decode("ascii"), values


@dataclass
class Unit:
    """What the calls of one run are lent: directory, RAM, parity and data array."""

    directory: Directory
    ram: bytearray
    parity: bytearray
    data: bytearray

    def perform(self, table: Sequence[int], letter: str, values: list[Any]) -> Result:
        """One well-formed event, served by the board with this table and a log of its own."""
        if letter == "R":
            return self._read(table, *values)
        if letter == "W":
            return self._write(table, *values)
        if letter == "X":
            return access.external_write(self.directory, self.ram, self.parity, *values)
        if letter == "S":
            return access.snoop(self.directory, *values)
        if letter == "F":
            return access.flush(self.directory)
        if letter == "C":
            return access.control(self.directory, *values)
        return access.reset(self.directory)

    def _read(self, table: Sequence[int], address: int, width: int, pcd: bool) -> Result:
        answers, log = board.answers(table, address, width), [0] * LOG_WORDS
        lent = (self.directory, self.ram, self.parity, self.data)
        return access.read(*lent, address, width, pcd, answers, log)

    def _write(self, table: Sequence[int], address: int, width: int, value: int) -> Result:
        answers, log = board.answers(table, address, width), [0] * LOG_WORDS
        lent = (self.directory, self.ram, self.parity, self.data)
        return access.write(*lent, address, width, value, answers, log)


def program_unit() -> Unit:
    """Rule: "65,536 zero RAM bytes, zero parity, a zero data array, a reset directory"."""
    ram, parity = bytearray(RAM_BYTES), bytearray(parity_length(RAM_BYTES))
    return Unit(steps.first(), ram, parity, bytearray(DATA_BYTES))


def lines_of(text: bytes) -> list[bytes]:
    """The lines before the newlines, "the last newline optional"."""
    lines = text.split(b"\n")
    return lines[:-1] if lines[-1] == b"" else lines


def row(event: int, result: Result) -> bytes:
    """Rule: "event (line from 1), answer (0 = done), value, cycles"."""
    return b"%d\t%d\t%d\t%d\n" % (event, result.number, result.value, result.cycles)


def run(table: Sequence[int], text: bytes) -> bytes:
    """Rule: "Output starts with the fixed header line ... Each line gives one tab-parted row".
    C-16: "the run over event lines takes" the table in force."""
    if len(text) > INPUT_LIMIT:
        return HEADER + row(0, TOO_LONG)
    unit = program_unit()
    rows = [HEADER]
    for event, line in enumerate(lines_of(text), start=1):
        # "A malformed line ... gives its row with 11, 0, 0, changes nothing, and the next
        # line is read."
        scanned = scan(line)
        rows.append(row(event, unit.perform(table, *scanned) if scanned else MALFORMED))
    return b"".join(rows)


def run_program(text: bytes) -> bytes:
    """Rule (C-16): "the program itself uses ours"."""
    return run(board.TABLE, text)


if __name__ == "__main__":
    sys.stdout.buffer.write(run_program(sys.stdin.buffer.read(INPUT_LIMIT + 1)))
