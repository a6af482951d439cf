"""Random lists of calls, carrying reads among them, against the plain memory, with test calls and
without, and random calls that are refused."""

import random
from collections import Counter
from collections.abc import Callable
from typing import Any

from unit486_model import access, memory
from unit486_model import directory as steps
from unit486_model.access import Result
from unit486_model.bus import ANSWERS, KEN, LOG_WORDS, WIDTHS
from unit486_model.carried import CARRIED_MOST, CarriedWrite
from unit486_model.directory import LINE_BYTES, SETS, TAG_LIMIT, WAYS, Directory
from unit486_model.events import NUMBER_LIMIT, Unit
from unit486_model.plain import Comparison, PlainMemory
from unit486_model.ranges import RANGES_MOST, Range, Ranges, kept
from unit486_model.refusal import DATA_BYTES

from .unit_calls import (
    BAD_WIDTHS,
    Mismatch,
    check,
    external,
    read,
    read_carrying,
    set_ranges,
    snapshot,
    tells,
    test_read,
    test_write,
    unit_of,
    valid_and_tags,
    view,
    write,
)

# One line, two, two lines of one set; and twice six lines of one set, to have victims.
RAM_SIZES = (16, 32, 2064, 10256, 10256)
LISTS = 400
CALLS = 80


def replaced(before: list[tuple[bool, int]], after: list[tuple[bool, int]]) -> bool:
    """Whether a valid line was replaced."""
    return before != after and any(old[0] and old != new for old, new in zip(before, after))


Calls = tuple[Callable[[], None], ...]


class Disagreement(Mismatch):
    """A number, value, view or RAM that is not the plain memory's: no other check ends so."""


class RandomList:
    """A list of random calls from reset, each compared with the plain memory."""

    ram_sizes = RAM_SIZES
    calls = CALLS
    # How often a read and a carrying read are drawn for each write, and the share of the rare
    # calls. In some lists reads prevail, so that sets become full and lines are replaced.
    shares = ((3, 3, 0.1), (30, 3, 0.02))

    def __init__(self, seed: int) -> None:
        self.random = random.Random(seed)
        ram = bytearray(self.random.randbytes(self.random.choice(self.ram_sizes)))
        parity = memory.parity_for(ram)
        for index in range(len(parity)):
            parity[index] |= self.random.randrange(16) << 4
        data = bytearray(self.random.randbytes(DATA_BYTES))
        self.unit = Unit(steps.first(), ram, parity, data)
        self.comparison = Comparison(PlainMemory(bytearray(ram)))
        self.wrong_share = self.random.choice((0.0, 0.0, 0.05, 0.3))
        self.met: Counter[str] = Counter()

    @property
    def plain(self) -> PlainMemory:
        return self.comparison.plain

    def wrong(self) -> bool:
        return self.random.random() < self.wrong_share

    def address(self) -> int:
        """Mostly in RAM, often in a few lines of one set, sometimes anywhere."""
        length = len(self.unit.ram)
        if self.wrong():
            return self.random.choice((length - 1, length, 4294967295, self.random.getrandbits(32)))
        if self.random.random() < 0.7:
            return (2048 * self.random.randrange(8) + self.random.randrange(-4, 20)) % length
        return self.random.randrange(length)

    def width(self) -> int:
        return self.random.choice(BAD_WIDTHS if self.wrong() else WIDTHS)

    def answers(self) -> list[int]:
        """Often such that fills are kept, else anything."""
        chance = self.random.random()
        if self.wrong():
            count = self.random.choice((0, ANSWERS - 1, ANSWERS, ANSWERS + 1))
            return [self.random.randrange(256) for _ in range(count)]
        if chance < 0.4:
            return [KEN] * ANSWERS
        ken = KEN if chance < 0.7 else 0
        return [self.random.randrange(8) | ken for _ in range(ANSWERS)]

    def read_answers(self, address: int, width: int) -> list[int]:
        """Those of a read, which premises may bind."""
        return self.answers()

    def log(self) -> list[int]:
        extra = self.random.choice((-LOG_WORDS, -1)) if self.wrong() else self.random.randrange(3)
        return [self.random.getrandbits(32) for _ in range(LOG_WORDS + extra)]

    def run(self) -> None:
        reads, carrying, rarity = self.random.choice(self.shares)
        accesses = (*[self.read] * reads, *[self.read_carrying] * carrying, self.write)
        calls = (*accesses, self.external, self.view)
        self.first_call()
        self.control()
        for _ in range(self.calls):
            self.random.choice(self.rare() if self.random.random() < rarity else calls)()
            self.after_call()
        check("parity agrees", memory.parity_agrees(self.unit.ram, self.unit.parity), True)

    def first_call(self) -> None:
        """A call that may come first only; here none does."""

    def after_call(self) -> None:
        self.agree("RAM", self.unit.ram, self.plain.bytes_held)

    def rare(self) -> Calls:
        return self.snoop, self.flush, self.control, self.reset

    def agree(self, what: str, got: Any, expected: Any) -> None:
        """What the list gives, and what the plain memory expects."""
        try:
            check(what, got, expected)
        except Mismatch as mismatch:
            raise Disagreement(str(mismatch)) from None

    def compared(self, call: str, number: int, expected: int) -> None:
        self.met[f"{call} refused" if number else call] += 1
        self.agree(f"number of {call}", number, expected)

    def logged(self, result: Result, log: list[int], before: list[int]) -> None:
        words = [word for record in result.records for word in record]
        check("count", len(result.records), result.cycles)
        check("log", log, words + before[len(words) :])
        check("128", any(record.flags & 128 for record in result.records), False)

    def read(self) -> None:
        address, width, pcd = self.address(), self.width(), self.random.random() < 0.1
        answers, log = self.read_answers(address, width), self.log()
        before, lines = list(log), valid_and_tags(self.unit.directory)
        result = read(self.unit, address, width, answers, pcd, log)
        expected = self.plain.read(address, width, pcd, answers, len(log))
        self.read_gives("read", result, expected)
        self.logged(result, log, before)
        self.met["replaced"] += replaced(lines, valid_and_tags(self.unit.directory))

    def read_gives(self, call: str, result: Result, expected: tuple[int, int]) -> None:
        number, value = expected
        self.compared(call, result.number, number)
        self.agree("value", result.value, value)
        self.met["hit"] += not result.number and not result.cycles

    def read_carrying(self) -> None:
        address, width, pcd = self.address(), self.width(), self.random.random() < 0.1
        answers, log = self.read_answers(address, width), self.log()
        carried = self.carried(address)
        before = list(log)
        result = read_carrying(self.unit, address, width, carried, answers, pcd, log)
        told = (len(log), carried, result.records)
        expected = self.plain.read_carrying(address, width, pcd, answers, *told)
        self.read_gives("carrying read", result, expected)
        self.logged(result, log, before)
        between = [write for write in carried if write.cycle < result.cycles]
        self.met["landed between cycles"] += bool(between)
        after = len(between) < len(carried) and not result.number
        self.met["landed after the value"] += after

    def carried(self, address: int) -> list[CarriedWrite]:
        """Up to four writes, often at equal numbers, in the lines that are read or anywhere."""
        count = self.random.randint(1, CARRIED_MOST + self.wrong())
        cycles = [self.random.choice((0, 0, 1, 1, 2, 3, 4, 5, 9, 40)) for _ in range(count)]
        writes = []
        for cycle in cycles if self.wrong() else sorted(cycles):
            near = (address + self.random.randrange(20)) % len(self.unit.ram)
            place = near if self.random.random() < 0.6 else self.address()
            writes.append(CarriedWrite(cycle, place, self.external_bytes(place)))
        return writes

    def write(self) -> None:
        address, width = self.address(), self.width()
        bits = self.random.choice((8, 16, 32, 64)) if self.wrong() else min(8 * width, 64)
        value, answers, log = self.random.getrandbits(bits), self.answers(), self.log()
        before = list(log)
        result = write(self.unit, address, width, value, answers, log)
        number = self.plain.write(address, width, value, answers, len(log))
        self.compared("write", result.number, number)
        self.logged(result, log, before)

    def external(self) -> None:
        address = self.address()
        written = self.external_bytes(address)
        number = external(self.unit, address, written).number
        self.compared("external", number, self.plain.external_write(address, written))

    def external_bytes(self, address: int) -> bytes:
        room = LINE_BYTES - address % LINE_BYTES
        count = self.random.randrange(20) if self.wrong() else self.random.randint(1, room)
        return self.random.randbytes(count)

    def view(self) -> None:
        address = self.address()
        before = snapshot(self.unit)
        number, part = view(self.unit, address)
        expected, sixteen = self.plain.view(address)
        self.compared("view", number, expected)
        self.agree("view", access.part_bytes(part, self.unit.ram, self.unit.data), sixteen)
        check("a view changes nothing", snapshot(self.unit), before)
        self.met["view of a held line"] += part.buffer == "data"

    def snoop(self) -> None:
        address = self.address()
        number = access.snoop(self.unit.directory, address).number
        self.compared("snoop", number, self.plain.snoop(address))

    def flush(self) -> None:
        self.compared("flush", access.flush(self.unit.directory).number, self.plain.flush())

    def control(self) -> None:
        """Never the pair 1, 1: with NW = 1 a held line may come to differ from RAM."""
        pairs = ((False, False), (False, False), (True, False), (False, True))
        self.control_with(*self.random.choice(pairs))

    def control_with(self, cd: bool, nw: bool) -> None:
        number = access.control(self.unit.directory, cd, nw).number
        self.compared("control", number, self.plain.control(cd, nw))

    def reset(self) -> None:
        self.compared("reset", access.reset(self.unit.directory).number, self.plain.reset())
        self.control()


class ListWithTestCalls(RandomList):
    """A list with test calls too, compared in stretches: from an accepted test write to the next
    flush or reset the plain memory is still fed, and what differs from it is counted only."""

    shares = ((2, 1, 0.2), (6, 2, 0.15))

    def rare(self) -> Calls:
        test_calls = (*[self.test_write] * 3, self.test_read)
        return (*test_calls, self.control, self.control, *super().rare())

    def agree(self, what: str, got: Any, expected: Any) -> None:
        if self.comparison.compared:
            super().agree(what, got, expected)
        else:
            self.met[f"{what} differs while suspended"] += got != expected

    def place(self) -> tuple[int, int]:
        """Set and way, mostly of a set that the accesses go to."""
        if self.wrong():
            return self.random.choice(((SETS, 0), (0, WAYS), (NUMBER_LIMIT, NUMBER_LIMIT)))
        return self.random.choice((0, 0, 0, 1, SETS - 1)), self.random.randrange(WAYS)

    def test_write(self) -> None:
        """Mostly with CD = 1, which a control call sets before it."""
        if self.random.random() < 0.8:
            self.control_with(True, False)
        tag = TAG_LIMIT + 1 if self.wrong() else self.random.choice((*range(8), TAG_LIMIT))
        valid, sixteen = self.random.random() < 0.8, self.random.randbytes(LINE_BYTES)
        before = snapshot(self.unit)
        number = test_write(self.unit, *self.place(), tag, valid, sixteen).number
        after = snapshot(self.unit)
        check("LRU numbers, CD, NW, ranges, RAM and parity", after[2:8], before[2:8])
        if number:
            check("a refused test write changes nothing", after, before)
        self.met["planted"] += valid and not number
        self.met["test write refused" if number else "test write"] += 1
        self.suspend(number)

    def suspend(self, number: int) -> None:
        self.comparison.after_test_write(number)

    def test_read(self) -> None:
        before = snapshot(self.unit)
        number = test_read(self.unit, *self.place()).number
        check("a test read changes nothing", snapshot(self.unit), before)
        self.met["test read refused" if number else "test read"] += 1

    def control(self) -> None:
        """While suspended any pair."""
        if self.comparison.compared:
            super().control()
            return
        pairs = ((False, False), (False, False), (True, False), (True, True), (False, True))
        cd, nw = self.random.choice(pairs)
        self.met["NW set while suspended"] += cd and nw
        self.control_with(cd, nw)

    def flush(self) -> None:
        self.begin_anew()
        super().flush()

    def reset(self) -> None:
        self.begin_anew()
        super().reset()

    def begin_anew(self) -> None:
        if not self.comparison.compared:
            self.met["begun anew"] += 1
            self.met["RAM not the old memory's"] += self.unit.ram != self.plain.bytes_held
        kept_ranges = kept(self.unit.directory.ranges)
        self.comparison.before_flush_or_reset(self.unit.ram, kept_ranges)


class NeverSuspended(ListWithTestCalls):
    """Compared through test writes too: a comparison that planted lines must break."""

    def suspend(self, number: int) -> None:
        pass


class NotBegunAnew(ListWithTestCalls):
    """Compared with the old memory after a flush or reset: a comparison that must break where a
    write was refused or stayed inside while suspended."""

    def begin_anew(self) -> None:
        self.comparison.compared = True


def run_lists(kind: type[RandomList], lists: int) -> Counter[str]:
    met: Counter[str] = Counter()
    for seed in range(lists):
        tried = kind(seed)
        try:
            tried.run()
        except Mismatch as mismatch:
            raise type(mismatch)(f"list {seed}: {mismatch}") from None
        met += tried.met
    return met


def lists_with_test_calls() -> None:
    """Each stretch agrees with its plain memory; with either rule left out a list does not."""
    met = run_lists(ListWithTestCalls, LISTS)
    for kind in ("test write", "test read", "test write refused", "test read refused"):
        check(f"{kind} met", met[kind] > 50, True)
    for kind in ("planted", "begun anew", "NW set while suspended"):
        check(f"{kind} met", met[kind] > 50, True)
    check("planted bytes read", met["value differs while suspended"] > 50, True)
    check("21 met", met["number of read differs while suspended"] > 50, True)
    check("a new memory needed", met["RAM not the old memory's"] > 10, True)
    for altered in (NeverSuspended, NotBegunAnew):
        told = tells(lambda: run_lists(altered, LISTS), Disagreement)
        check(f"{altered.__name__}: a list tells", told, True)


def random_lists() -> None:
    """Each list agrees with the plain memory, and the lists meet what they are meant to."""
    met = run_lists(RandomList, LISTS)
    for kind in ("read", "write", "external", "view", "snoop", "flush", "control", "reset"):
        check(f"{kind} met", met[kind] > 50, True)
    for kind in ("read refused", "write refused", "external refused", "view refused"):
        check(f"{kind} met", met[kind] > 50, True)
    for kind in ("control refused", "hit", "replaced", "view of a held line"):
        check(f"{kind} met", met[kind] > 50, True)
    for kind in ("carrying read", "landed between cycles", "landed after the value"):
        check(f"{kind} met", met[kind] > 1000, True)
    check("carrying read refused", met["carrying read refused"] > 50, True)


def ill_formed_directory(source: random.Random) -> Directory:
    """A directory in which the few sets of a small RAM are often ill-formed."""
    directory = steps.first()
    directory.cd, directory.nw = source.random() < 0.5, source.random() < 0.5
    for index in range(8):
        directory.tags[index] = source.choice((0, 1, 2, 3, 4, 5, 2097151, 2097152))
        directory.valid[index] = source.random() < 0.5
    directory.lru[:2] = [source.choice((0, 3, 7, 8, 255)) for _ in range(2)]
    if source.random() < 0.2:
        count = source.choice((0, 1, RANGES_MOST, RANGES_MOST + 1, NUMBER_LIMIT))
        directory.ranges = Ranges(count, _some_ranges(source, RANGES_MOST))
    return directory


def _some_ranges(source: random.Random, count: int) -> list[Range]:
    """Mostly one that fits the smallest RAM."""
    wrong = (Range(0, 0), Range(8, 16), Range(16, 16), Range(NUMBER_LIMIT - 15, 32))
    return [source.choice((*[Range(0, 16)] * 40, *wrong)) for _ in range(count)]


def refused_calls() -> None:
    """Whatever is lent, a refused call leaves all of it as it was."""
    source = random.Random(486)
    met: Counter[int] = Counter()
    for _ in range(4000):
        unit = unit_of(source.choice((16, 16, 32, 2064)))
        if source.random() < 0.1:
            unit.ram.pop()
        unit.directory = ill_formed_directory(source)
        if source.random() < 0.1:
            unit.parity.append(0)
        if source.random() < 0.1:
            unit.data.pop()
        log = [7] * source.choice((LOG_WORDS - 1, LOG_WORDS, LOG_WORDS))
        before, log_before = snapshot(unit), list(log)
        number = _any_call(source, unit, log)
        met[number] += 1
        if number:
            check(f"untouched after {number}", snapshot(unit), before)
            check("log untouched", log, log_before)
    expected = {0, 1, 2, 3, 4, 5, 6, 7, 8, 9, 10, 21, 22, 23, 31, 32, 33, 37, 38}
    check("numbers met", set(met), expected)


def _any_call(source: random.Random, unit: Unit, log: list[int]) -> int:
    address = source.choice((0, 1, 13, 14, 15, 16, 2046, 2050, 99999))
    width = source.choice((1, 2, 4, 4, 8, 8, 3))
    answers = [source.randrange(8) for _ in range(ANSWERS)] + [0] * (source.random() < 0.1)
    call = source.randrange(12)
    if call < 2:
        return read(unit, address, width, answers, False, log).number
    if call == 11:
        return set_ranges(unit, *_some_ranges(source, source.randrange(12))).number
    if call > 8:
        cycles = [source.choice((0, 0, 1, 4)) for _ in range(source.randrange(1, 4))]
        place = source.choice((0, 9, 16, 2050))
        carried = [CarriedWrite(cycle, place, bytes(source.choice((1, 7)))) for cycle in cycles]
        return read_carrying(unit, address, width, carried, answers, False, log).number
    if call == 2:
        value = source.choice((1, 255, 256, 2**32 - 1, 2**32, 2**64 - 1))
        return write(unit, address, width, value, answers, log).number
    if call == 3:
        return external(unit, address, bytes(source.randrange(18))).number
    if call == 4:
        return access.snoop(unit.directory, address).number
    if call == 5:
        number, part = view(unit, address)
        check("a refused view is empty", part.length, 0 if number else LINE_BYTES)
        return number
    if call > 6:
        return _any_test_call(source, unit)
    cd, nw = source.random() < 0.5, source.random() < 0.5
    return access.control(unit.directory, cd, nw).number


def _any_test_call(source: random.Random, unit: Unit) -> int:
    set_index, way = source.choice((0, 1, SETS)), source.choice((0, WAYS - 1, WAYS))
    if source.random() < 0.5:
        tag, valid = source.choice((0, TAG_LIMIT, TAG_LIMIT + 1)), source.random() < 0.5
        return test_write(unit, set_index, way, tag, valid, source.randbytes(LINE_BYTES)).number
    line = test_read(unit, set_index, way)
    if line.number:
        check("zeros and an invalid mark", line[1:], (0, False, 0, bytes(LINE_BYTES)))
    return line.number
