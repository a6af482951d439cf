"""Random lists of calls with read-only ranges against the plain memory, under C-17's premises;
lists in which one of them does not hold must differ."""

from unit486_model.bus import ANSWERS, WIDTHS
from unit486_model.directory import LINE_BYTES
from unit486_model.plain import without_ken
from unit486_model.ranges import RANGES_MOST, Range, kept

from .random_lists import Calls, Disagreement, ListWithTestCalls, RandomList, run_lists
from .unit_calls import check, set_ranges, snapshot, tells

LISTS = 80
# Two lines, three lines of one set, six of them.
RAM_SIZES = (32, 4112, 10256)


class ListWithRanges(RandomList):
    """A list whose first call sets ranges; later ones that are refused do no harm."""

    ram_sizes = RAM_SIZES
    shares = ((3, 1, 0.08), (8, 2, 0.04))

    def first_call(self) -> None:
        self.set_ranges(self.wrong())

    def ranges(self) -> list[Range]:
        """Often lines that the accesses go to, overlapping at times, up to all of RAM."""
        lines, made = len(self.unit.ram) // LINE_BYTES, []
        for _ in range(self.random.choice((0, 1, 1, 2, 3, RANGES_MOST))):
            hot = self.random.choice((0, 1, 128, 129, 256, 383, 384, 512)) % lines
            line = hot if self.random.random() < 0.7 else self.random.randrange(lines)
            most = lines - line if self.random.random() < 0.05 else min(3, lines - line)
            made.append(Range(LINE_BYTES * line, LINE_BYTES * self.random.randint(1, most)))
        return made

    def wrong_ranges(self) -> list[Range]:
        """One that is wrong among others, or more than eight."""
        length = len(self.unit.ram)
        wrong = (Range(0, 0), Range(8, 16), Range(0, 8), Range(length - 16, 32), Range(length, 16))
        made = [*self.ranges(), self.random.choice(wrong)]
        self.random.shuffle(made)
        nine = [Range(0, LINE_BYTES)] * (RANGES_MOST + 1)
        return self.random.choice((made, nine, [*nine, wrong[0]]))

    def set_ranges(self, wrong: bool) -> None:
        given = self.wrong_ranges() if wrong else self.ranges()
        before = snapshot(self.unit)
        number = set_ranges(self.unit, *given).number
        after = snapshot(self.unit)
        check("all but the ranges", (after[:5], after[6:]), (before[:5], before[6:]))
        self.compared("set ranges", number, self.plain.set_ranges(given))

    def rare(self) -> Calls:
        return (lambda: self.set_ranges(True), *super().rare())

    def read_answers(self, address: int, width: int) -> list[int]:
        answers = super().read_answers(address, width)
        if width not in WIDTHS or len(answers) != ANSWERS:
            return answers
        met = without_ken(kept(self.unit.directory.ranges), address, width, answers)
        self.met["KEN# taken from answers"] += met != answers
        return met

    def write(self) -> None:
        before = bytes(self.unit.ram)
        super().write()
        self.met["RAM changed by a write"] += self.unit.ram != before

    def after_call(self) -> None:
        super().after_call()
        self.agree("ranges", kept(self.unit.directory.ranges), self.plain.ranges)


class RangesAndTestCalls(ListWithRanges, ListWithTestCalls):
    """With test calls: while the comparison is suspended ranges are set anew at any time and KEN#
    comes where it likes; from the next flush or reset on the memory has the directory's ranges."""

    shares = ListWithTestCalls.shares

    def rare(self) -> Calls:
        return (*[self.set_while_suspended] * 3, *super().rare())

    def set_while_suspended(self) -> None:
        if not self.comparison.compared:
            check("set", set_ranges(self.unit, *self.ranges()).number, 0)
            self.met["set while suspended"] += 1

    def read_answers(self, address: int, width: int) -> list[int]:
        if self.comparison.compared:
            return super().read_answers(address, width)
        return self.answers()


class WithKen(ListWithRanges):
    """KEN# in ranges: a held line of ROM is altered by a write hit, and no comparison stands."""

    def read_answers(self, address: int, width: int) -> list[int]:
        return self.answers()


class SetLater(ListWithRanges):
    """Accepted later: a line that is held then is altered so. Often all of RAM, or none of it; few
    calls end a line."""

    shares = ((5, 0, 0.1),)

    def ranges(self) -> list[Range]:
        all_of_ram = [Range(0, len(self.unit.ram))]
        return self.random.choice((all_of_ram, [], super().ranges()))

    def rare(self) -> Calls:
        return (lambda: self.set_ranges(False),)


class OldRanges(RangesAndTestCalls):
    """Begun anew from RAM alone, with the memory's own ranges: those that were set while the
    comparison was suspended are not among them."""

    def begin_anew(self) -> None:
        old = self.plain.ranges
        super().begin_anew()
        self.plain.ranges = old


def lists_with_ranges() -> None:
    """Each list agrees with the plain memory under the premises; without one of them a list does
    not."""
    met = run_lists(ListWithRanges, LISTS)
    for kind in ("read", "carrying read", "write", "external", "view", "snoop", "flush", "reset"):
        check(f"{kind} met", met[kind] > 20, True)
    for kind in ("set ranges", "set ranges refused", "KEN# taken from answers", "hit"):
        check(f"{kind} met", met[kind] > 50, True)
    check("writes into RAM", met["RAM changed by a write"] > 50, True)
    check("writes into ROM", met["write"] - met["RAM changed by a write"] > 50, True)
    met = run_lists(RangesAndTestCalls, LISTS)
    for kind in ("set while suspended", "begun anew", "set ranges"):
        check(f"{kind} met", met[kind] > 50, True)
    for altered in (WithKen, SetLater, OldRanges):
        told = tells(lambda: run_lists(altered, LISTS), Disagreement)
        check(f"{altered.__name__}: a list tells", told, True)
