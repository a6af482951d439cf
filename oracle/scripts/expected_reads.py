"""What a read gives and leaves, worked out from its course; of the writes that it carries as C-12's
words have it.

A course names, for each doubleword in turn, whether it hits or which records the source documents'
tables give it, and in between the lines that a snoop ends. Nothing of the model has a part in it
but the form of a write and of a record, and parity that agrees.
"""

from collections.abc import Collection, Sequence
from typing import NamedTuple

from unit486_model.access import Result
from unit486_model.bus import ANSWERS, KEN, Record
from unit486_model.carried import CarriedWrite
from unit486_model.events import NUMBER_LIMIT
from unit486_model.memory import parity_for

from checks.unit_calls import check, snapshot
from checks.vectors import LRU_TABLE

from .source_tables import AddressFlags
from .writer import Script


class Hit(NamedTuple):
    """A doubleword that is held in this way at its lookup."""

    way: int


class Plain(NamedTuple):
    """A doubleword that misses and fills nothing."""

    records: AddressFlags


class Fill(NamedTuple):
    """A doubleword that misses and fills its line in this way, or in none where it is dropped."""

    records: AddressFlags
    way: int | None


class Ends(NamedTuple):
    """The line of this address, held in this way, is snooped."""

    address: int
    way: int


Course = Sequence[Hit | Plain | Fill | Ends]


def ram_at(
    ram: bytes, carried: Sequence[CarriedWrite], cycle: int, rom: Collection[int] = ()
) -> bytes:
    """RAM in a cycle: the writes numbered up to it have landed, in list order. The bytes whose
    addresses are in `rom` ignore them."""
    seen = bytearray(ram)
    for write in carried:
        if write.cycle <= cycle:
            for address, byte in enumerate(write.written, write.address):
                seen[address] = seen[address] if address in rom else byte
    return bytes(seen)


class ExpectedRead:
    """A read from the unit as it stands, followed along its course."""

    def __init__(
        self,
        script: Script,
        address: int,
        width: int,
        carried: Sequence[CarriedWrite],
        rom: Collection[int] = (),
    ) -> None:
        before = snapshot(script.unit)
        self.tags, self.valid, self.lru, *self.modes, self.ram, self.parity, data = before
        self.data = bytearray(data)
        self.carried = carried
        self.rom = rom
        self.wanted = range(address, address + width)
        self.doubleword = address - address % 4
        self.records: list[Record] = []
        self.value = b""

    def follow(self, course: Course) -> None:
        for part in course:
            if isinstance(part, Ends):
                self.valid[self._index(part.address, part.way)] = False
                continue
            if isinstance(part, Hit):
                self._hit(part.way)
            else:
                self._cycles(part)
            self.doubleword += 4

    def _index(self, address: int, way: int) -> int:
        return address // 16 % 128 * 4 + way

    def _wanted(self) -> list[int]:
        return [byte for byte in self.wanted if byte - byte % 4 == self.doubleword]

    def _use(self, way: int) -> None:
        set_index = self.doubleword // 16 % 128
        self.lru[set_index] = LRU_TABLE[self.lru[set_index]][0][way]

    def _hit(self, way: int) -> None:
        """The data array's bytes at the lookup."""
        start = 16 * self._index(self.doubleword, way)
        self.value += bytes(self.data[start + byte % 16] for byte in self._wanted())
        self._use(way)

    def _cycles(self, part: Plain | Fill) -> None:
        """Each cycle is of RAM as it is then, and each wanted byte what came in for it."""
        came: dict[int, int] = {}
        for address, flags in part.records:
            ram = ram_at(self.ram, self.carried, len(self.records), self.rom)
            moved = {lane: ram[address + lane] for lane in range(4) if flags >> lane & 1}
            word = sum(byte << 8 * lane for lane, byte in moved.items())
            self.records.append(Record(address, flags, word))
            came |= {address + lane: byte for lane, byte in moved.items()}
        self.value += bytes(came[byte] for byte in self._wanted())
        if isinstance(part, Fill) and part.way is not None:
            self._keep(part.way, bytes(came[byte] for byte in sorted(came)))

    def _keep(self, way: int, line: bytes) -> None:
        index = self._index(self.doubleword, way)
        self.tags[index], self.valid[index] = self.doubleword // 2048, True
        self.data[16 * index : 16 * index + 16] = line
        self._use(way)

    def leaves(self, parity: bytes) -> tuple[object, ...]:
        ram = ram_at(self.ram, self.carried, NUMBER_LIMIT, self.rom)
        directory = (self.tags, self.valid, self.lru, *self.modes)
        return (*directory, ram, parity or bytes(parity_for(bytearray(ram))), bytes(self.data))


def carries(
    script: Script,
    address: int,
    width: int,
    carried: Sequence[CarriedWrite],
    course: Course,
    answers: Sequence[int] = (KEN,) * ANSWERS,
    pcd: bool = False,
    parity: bytes = b"",
    rom: Collection[int] = (),
) -> None:
    """A carrying read that takes this course; RAM's parity then agrees if no other is given."""
    expected = ExpectedRead(script, address, width, carried, rom)
    expected.follow(course)
    result = script.read_carrying(address, width, carried, answers, pcd)
    _took(f"{width} at {address:x} with {carried}", script, result, expected, parity)


def reads(
    script: Script,
    address: int,
    width: int,
    course: Course,
    answers: Sequence[int] = (KEN,) * ANSWERS,
    pcd: bool = False,
    parity: bytes = b"",
) -> None:
    """The same of a read that carries nothing."""
    expected = ExpectedRead(script, address, width, ())
    expected.follow(course)
    result = script.read(address, width, answers, pcd)
    _took(f"{width} at {address:x} with {answers}", script, result, expected, parity)


def _took(
    what: str, script: Script, result: Result, expected: ExpectedRead, parity: bytes
) -> None:
    check(f"records of {what}", result.records, tuple(expected.records))
    value = int.from_bytes(expected.value, "little")
    check(what, result[:3], Result(0, value, len(expected.records))[:3])
    check(f"left by {what}", snapshot(script.unit), expected.leaves(parity))
