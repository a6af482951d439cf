"""C-14's flush rule beside the one that it replaces. "Show too that, in any list from reset without
test writes, each CPU read and write gives the same answers and records under either flush rule."

Quoted sentences are C-14's unless document 01 is named.
"""

from collections import Counter
from collections.abc import Callable
from typing import Any
from unittest.mock import patch

from scripts.diagnostics import diagnostics as diagnostics_script
from unit486_model import directory as steps
from unit486_model.access import Result
from unit486_model.directory import LINE_BYTES, LINES, LRU_LIMIT, SETS, WAY_BYTES, WAYS, Directory

from .random_lists import Calls, RandomList
from .unit_calls import (
    Mismatch,
    check,
    held,
    read,
    snapshot,
    tells,
    test_read,
    test_write,
    unit_of,
    valid_and_tags,
)
from .vectors import LRU_TABLE, flushes

LISTS = 50
# Mostly the pair that fills.
PAIRS = (*[(False, False)] * 5, (True, False), (True, True), (False, True))

Rule = Callable[[Directory], None]

_flush, _fill = steps.flush, steps.fill


def document_01(directory: Directory) -> None:
    """Document 01: "A flush (FLUSH#, INVD and WBINVD alike) clears valid marks and nothing else
    (H)". It stands here to be compared with."""
    directory.valid[:] = [False] * LINES


def _keeps_lines_of_set_0(directory: Directory) -> None:
    kept = directory.valid[:WAYS]
    _flush(directory)
    directory.valid[:WAYS] = kept


def _keeps_way_3(directory: Directory) -> None:
    kept = directory.valid[WAYS - 1 :: WAYS]
    _flush(directory)
    directory.valid[WAYS - 1 :: WAYS] = kept


def _leaves_numbers_above_7(directory: Directory) -> None:
    _flush(directory)
    directory.lru[:] = [LRU_LIMIT + 1] * SETS


def _keeps_the_first_number(directory: Directory) -> None:
    kept = directory.lru[0]
    _flush(directory)
    directory.lru[0] = kept


def _keeps_the_last_number(directory: Directory) -> None:
    kept = directory.lru[-1]
    _flush(directory)
    directory.lru[-1] = kept


def _clears_tags(directory: Directory) -> None:
    _flush(directory)
    directory.tags[:] = [0] * LINES


# Those that a read or a write can tell from C-14's; the others show in test calls alone.
SEEN_BY_ACCESSES = (_keeps_lines_of_set_0, _keeps_way_3, _leaves_numbers_above_7)
WRONG = (
    document_01,
    _keeps_the_first_number,
    _keeps_the_last_number,
    _clears_tags,
    *SEEN_BY_ACCESSES,
)


def _fill_without_use(directory: Directory, address: int) -> int:
    set_index = steps.set_of(address)
    kept = directory.lru[set_index]
    way = _fill(directory, address)
    directory.lru[set_index] = kept
    return way


class Differs(Mismatch):
    """A read or write that is not the same under two rules: no other check ends so."""


class RuledList(RandomList):
    """A list from reset without test writes, with every pair of CD and NW. Its flushes follow a
    rule. What it gives and leaves is kept, to be compared with the same list under another."""

    ram_sizes = (6 * WAY_BYTES,)
    calls = 300
    shares = ((8, 3, 0.08), (40, 2, 0.05))

    def __init__(self, seed: int, rule: Rule) -> None:
        super().__init__(seed)
        self.rule = rule
        # What each CPU read and write gives; what the others give and all calls leave, but for the
        # LRU numbers; these.
        self.accesses: list[Result] = []
        self.others: list[tuple[str, Any]] = []
        self.numbers: list[list[int]] = []
        # Valid marks and tags, and the sets whose LRU number the last flush left above 0.
        self.lines = valid_and_tags(self.unit.directory)
        self.left: set[int] = set()

    def address(self) -> int:
        """Mostly in the six lines of one set, so that it becomes full."""
        if self.random.random() < 0.8:
            return WAY_BYTES * self.random.randrange(6) + self.random.randrange(LINE_BYTES)
        return super().address()

    def rare(self) -> Calls:
        return (*[self.flush] * 3, *[self.control] * 4, *super().rare())

    def agree(self, what: str, got: Any, expected: Any) -> None:
        """Not compared with the plain memory: with NW = 1 a held line may come to differ."""
        self.others.append((what, got))

    def logged(self, result: Result, log: list[int], before: list[int]) -> None:
        super().logged(result, log, before)
        self.accesses.append(result)

    def after_call(self) -> None:
        tags, valid, lru, *rest = snapshot(self.unit)
        self.others.append(("tags, valid marks, CD, NW, buffers", (tags, valid, *rest)))
        self.numbers.append(lru)
        before, self.lines = self.lines, valid_and_tags(self.unit.directory)
        if before != self.lines:
            pairs = enumerate(zip(before, self.lines))
            replaced = [index for index, (old, new) in pairs if old != new and old[0] and new[0]]
            there = sum(index // WAYS in self.left for index in replaced)
            self.met["replaced where a flush left a number"] += there

    def flush(self) -> None:
        numbers = self.unit.directory.lru
        self.met["LRU numbers flushed"] += any(numbers)
        self.rule(self.unit.directory)
        self.left = {set_index for set_index, lru in enumerate(numbers) if lru}

    def control(self) -> None:
        cd, nw = self.random.choice(PAIRS)
        self.met["CD = NW = 1"] += cd and nw
        self.control_with(cd, nw)

    def reset(self) -> None:
        super().reset()
        self.left = set()


class PlantedList(RuledList):
    """With test writes too, which the claim leaves out: C-14's disk "plants four lines of a set by
    test write"."""

    def rare(self) -> Calls:
        return (*[self.plant] * 4, *super().rare())

    def plant(self) -> None:
        self.control_with(True, False)
        for way in range(WAYS):
            sixteen = self.random.randbytes(LINE_BYTES)
            check("test write", test_write(self.unit, 0, way, way, True, sixteen), Result(0))
        self.control_with(False, False)


def _same_accesses(kind: type[RuledList], other: Rule) -> Counter[str]:
    """The lists under C-14's rule and under another; what was met under the other."""
    met: Counter[str] = Counter()
    for seed in range(LISTS):
        one, two = kind(seed, steps.flush), kind(seed, other)
        one.run()
        two.run()
        for index, (expected, got) in enumerate(zip(one.accesses, two.accesses, strict=True)):
            try:
                check(f"list {seed}, access {index}", got, expected)
            except Mismatch as mismatch:
                raise Differs(str(mismatch)) from None
        same = [got == expected for expected, got in zip(one.others, two.others, strict=True)]
        met["all else is the same"] += all(same)
        met["LRU numbers differ"] += sum(a != b for a, b in zip(one.numbers, two.numbers))
        met += two.met
    return met


def either_rule() -> None:
    """The claim on random lists. They flush LRU numbers above 0 and then replace lines of those
    sets; a wrong rule shows in what reads and writes give, and so does either rule where a valid
    line need not have been used since the flush."""
    met = _same_accesses(RuledList, document_01)
    check("all else is the same", met["all else is the same"], LISTS)
    for kind in ("read", "write", "carrying read", "external", "view", "snoop", "control", "reset"):
        check(f"{kind} met", met[kind] > 50, True)
    for kind in ("CD = NW = 1", "LRU numbers flushed", "replaced where a flush left a number"):
        check(f"{kind} met", met[kind] > 50, True)
    check("LRU numbers differ", met["LRU numbers differ"] > 1000, True)
    for rule in SEEN_BY_ACCESSES:
        told = tells(lambda: _same_accesses(RuledList, rule), Differs)
        check(f"{rule.__name__}: a list tells", told, True)
    told = tells(lambda: _same_accesses(PlantedList, document_01), Differs)
    check("with test writes a list tells", told, True)
    with patch.object(steps, "fill", _fill_without_use):
        told = tells(lambda: _same_accesses(RuledList, document_01), Differs)
    check("with fills that are no uses a list tells", told, True)


def wrong_rules() -> None:
    """Each of them shows in the checks of a flush and in the script of test calls."""
    for rule in WRONG:
        with patch.object(steps, "flush", rule):
            told = tells(flushes), tells(diagnostics_script)
        check(f"{rule.__name__}: checks and script tell", told, (True, True))


def first_victims() -> None:
    """ "The LRU number read back and the line replaced differ from a real part's": document 01's
    rule shows each LRU number. A real part's are 0 and its victim, way 0."""
    for lru, (_, victim, _, _) in LRU_TABLE.items():
        check(f"C-14's from {lru}", _first_victim(lru, steps.flush), (0, 0))
        check(f"document 01's from {lru}", _first_victim(lru, document_01), (lru, victim))


def _first_victim(lru: int, rule: Rule) -> tuple[int, int | None]:
    """ "A diagnostic disk flushes, plants four lines of a set by test write and then misses in that
    set": the LRU number read back, and the way of the line replaced."""
    unit = unit_of(cd=True)
    unit.directory.lru[SETS - 1] = lru
    rule(unit.directory)
    for way in range(WAYS):
        test_write(unit, SETS - 1, way, way, True, bytes(LINE_BYTES))
    number = test_read(unit, SETS - 1, 0).lru
    unit.directory.cd = False
    missed = WAYS * WAY_BYTES + (SETS - 1) * LINE_BYTES
    check("a fill", read(unit, missed, 4).cycles, 4)
    return number, held(unit, missed)
