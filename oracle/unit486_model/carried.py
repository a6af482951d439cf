"""External writes that a read carries: "Fieldbus cards do write while a line is coming in."

Quoted sentences are those of document 02's request C-12 unless document 01 is named.
"""

from collections.abc import Sequence
from dataclasses import dataclass
from typing import NamedTuple

from . import memory
from . import directory as steps
from .directory import Directory, line_address

# "Let a read carry up to four external writes"
CARRIED_MOST = 4


class CarriedWrite(NamedTuple):
    """Rule: "each with the cycle number, counted from 0 over the access, before which it
    lands"."""

    cycle: int
    address: int
    written: bytes


def land(
    directory: Directory, ram: bytearray, parity: bytearray, address: int, written: bytes
) -> None:
    """Document 01: "An external write puts 1 to 16 bytes of one line into RAM, sets their parity,
    then snoops". C-17: where RAM and parity ignore it "cycles and snoops go on"."""
    memory.store_bytes(ram, parity, directory.ranges, address, written)
    steps.invalidate(directory, address)


@dataclass
class Reading:
    """A read under way: what it is lent, the writes that it carries, the number of its next cycle
    and how many of the writes have landed."""

    directory: Directory
    ram: bytearray
    parity: bytearray
    data: bytearray
    carried: Sequence[CarriedWrite]
    cycle: int = 0
    landed: int = 0

    def begin_cycle(self) -> None:
        """The writes that are due land before the cycle moves its bytes. Those with a smaller
        number have landed in the cycles before, so that these are the ones with its own."""
        for write in self.due():
            self.put(write)
        self.cycle += 1

    def due(self) -> list[CarriedWrite]:
        """Rule: "Equal numbers land in list order"."""
        return [write for write in self.carried[self.landed :] if write.cycle <= self.cycle]

    def put(self, write: CarriedWrite) -> None:
        """Rule: "One in any other line snoops as usual." The line being filled is not held yet, so
        that the snoop of a write into it finds nothing."""
        land(self.directory, self.ram, self.parity, write.address, write.written)
        self.landed += 1

    def spoiled(self, first: int, address: int) -> bool:
        """Whether a fill is dropped that has just made its last cycle, its first having the number
        `first`. Rule: "one landing before the first data leaves the fill valid. One landing later
        in the line being filled drops that fill, with NW = 1 too"."""
        return any(
            first < write.cycle < self.cycle
            and line_address(write.address) == line_address(address)
            for write in self.carried
        )

    def end(self) -> None:
        """Rule: "Writes numbered past the last cycle, and all where there is none, land after the
        value is taken"."""
        for write in self.carried[self.landed :]:
            self.put(write)
