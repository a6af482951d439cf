"""The plain memory, which has no cache: what a list of calls is compared with.

"It is fed the calls' arguments except directory, RAM, parity and data array." Of the log it
needs the length only. "a call meeting 4 to 10 does nothing and answers that number. Any
other call answers 0." Test calls are not fed to it: "the results of test calls are not compared"
(C-11). "For the plain memory 33 counts as 4 to 10 do ... so does every input number that a later
request gives to a compared call" (C-12): 37 and 38 of a call that sets ranges. Other calls of a
compared list never meet them, the ranges having been tested by the same length.
"""

from collections.abc import Sequence
from dataclasses import dataclass, field

from . import bus, memory, refusal
from .bus import Doubleword, Record
from .carried import CarriedWrite
from .directory import LINE_BYTES, line_address
from .memory import DOUBLEWORD_BYTES
from .ranges import Range


@dataclass
class PlainMemory:
    """Rule: "The plain memory is a list of bytes, at first RAM's"; of C-17's read-only ranges it
    has none at first."""

    bytes_held: bytearray
    ranges: list[Range] = field(default_factory=list)

    def set_ranges(self, given: Sequence[Range]) -> int:
        """Rule (C-17): "One call sets them all anew"."""
        number = refusal.ranges_number(len(self.bytes_held), given)
        if not number:
            self.ranges = list(given)
        return number

    def replace(self, address: int, written: bytes) -> None:
        """Rule (C-17): "The plain memory ignores them too": what its ranges hold stays."""
        held = [(start, self.bytes_held[start : start + size]) for start, size in self.ranges]
        self.bytes_held[address : address + len(written)] = written
        for start, old in held:
            self.bytes_held[start : start + len(old)] = old

    def read(
        self, address: int, width: int, pcd: bool, answers: Sequence[int], log: int
    ) -> tuple[int, int]:
        """Rule: "a read gives its bytes". With no writes in between it doesn't matter where the
        cycles fall, so no records are told."""
        return self.read_carrying(address, width, pcd, answers, log, (), ())

    def read_carrying(
        self,
        address: int,
        width: int,
        pcd: bool,
        answers: Sequence[int],
        log: int,
        carried: Sequence[CarriedWrite],
        records: Sequence[Record],
    ) -> tuple[int, int]:
        """Number and value, its bytes taken little-endian. Rule (C-12): "The plain memory takes the
        writes in between, told by the read's records where its cycles fall, so every wanted byte is
        what it holds at that byte's cycle, or at the lookup for a hit"."""
        length = len(self.bytes_held)
        number = refusal.argument_number(length, address, width, answers, log)
        number = number or refusal.carried_number(length, carried)
        if number:
            return number, 0
        told, pending, words = cycles_by_doubleword(records), list(carried), 0
        for index, doubleword in enumerate(bus.doublewords(address, width)):
            if doubleword.address in told:
                word = self._read_cycles(doubleword, told[doubleword.address], pending)
            else:
                word = memory.read_lanes(self.bytes_held, *doubleword)
            words |= word << 8 * DOUBLEWORD_BYTES * index
        for write in pending:
            self.external_write(write.address, write.written)
        return 0, words >> 8 * (address % DOUBLEWORD_BYTES)

    def _read_cycles(
        self,
        doubleword: Doubleword,
        cycles: list[tuple[int, Record]],
        pending: list[CarriedWrite],
    ) -> int:
        """The wanted bytes of a doubleword that missed, each at its cycle; before a cycle the
        writes numbered up to it are taken."""
        word = 0
        for number, record in cycles:
            while pending and pending[0].cycle <= number:
                write = pending.pop(0)
                self.external_write(write.address, write.written)
            if record.address == doubleword.address:
                lanes = record.flags & doubleword.wanted
                word |= memory.read_lanes(self.bytes_held, record.address, lanes)
        return word

    def write(
        self, address: int, width: int, value: int, answers: Sequence[int], log: int
    ) -> int:
        """Rule: "A write ... replaces its bytes"."""
        number = refusal.argument_number(len(self.bytes_held), address, width, answers, log, value)
        if not number:
            self.replace(address, value.to_bytes(width, "little"))
        return number

    def external_write(self, address: int, written: bytes) -> int:
        """Rule: "A write or external write replaces its bytes"."""
        number = refusal.external_number(len(self.bytes_held), address, len(written))
        if not number:
            self.replace(address, written)
        return number

    def view(self, address: int) -> tuple[int, bytes]:
        """Rule: "a view gives its sixteen"."""
        number = refusal.view_address_number(len(self.bytes_held), address)
        if number:
            return number, b""
        start = line_address(address)
        return 0, bytes(self.bytes_held[start : start + LINE_BYTES])

    def control(self, cd: bool, nw: bool) -> int:
        """Rule: "snoop, flush, control and reset do nothing"."""
        return refusal.control_number(cd, nw)

    def snoop(self, address: int) -> int:
        """Rule: "snoop, flush, control and reset do nothing"."""
        return 0

    def flush(self) -> int:
        """Rule: "snoop, flush, control and reset do nothing"."""
        return 0

    def reset(self) -> int:
        """Rule: "snoop, flush, control and reset do nothing"."""
        return 0


def cycles_by_doubleword(records: Sequence[Record]) -> dict[int, list[tuple[int, Record]]]:
    """The cycles that were made for each doubleword, with their numbers. Its last has 64, and the
    address of its first names it; a doubleword that is not named hit. A fill for the lower one
    has a record at the upper one's address, so that records cannot be found by address alone."""
    told: dict[int, list[tuple[int, Record]]] = {}
    cycles: list[tuple[int, Record]] = []
    for number, record in enumerate(records):
        cycles.append((number, record))
        if record.flags & bus.LAST:
            told[cycles[0][1].address] = cycles
            cycles = []
    return told


@dataclass
class Comparison:
    """Which calls of a list are compared, and with what. Rule (C-11): "a list of calls matches the
    plain memory up to its first accepted test write"."""

    plain: PlainMemory
    compared: bool = True

    def after_test_write(self, number: int) -> None:
        """An accepted one ends the stretch, with an invalid mark too; a refused one does not."""
        if number == 0:
            self.compared = False

    def before_flush_or_reset(self, ram: bytearray, ranges: Sequence[Range] = ()) -> None:
        """Rule (C-11): "From the next flush or reset on it matches a plain memory begun anew from
        RAM as it then is, up to another test write". That flush or reset is compared. The ranges
        are the directory's as they then are, since neither a flush nor a reset changes them."""
        if not self.compared:
            self.plain = PlainMemory(bytearray(ram), list(ranges))
            self.compared = True


def without_ken(
    ranges: Sequence[Range], address: int, width: int, answers: Sequence[int]
) -> list[int]:
    """The answers with C-17's premise met: "agreement now needs KEN# inactive throughout these
    ranges". The first answer of each group whose doubleword lies in a range is enough: without
    KEN# there nothing is filled. The answers are those of an accepted read."""
    met = list(answers)
    for index, doubleword in enumerate(bus.doublewords(address, width)):
        if any(start <= doubleword.address < start + size for start, size in ranges):
            met[bus.GROUP * index] &= ~bus.KEN
    return met
