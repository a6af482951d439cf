"""One doubleword: the board's answers, the sizing of a cycle, lists of cycles, records."""

from collections.abc import Iterator, Sequence
from typing import NamedTuple

from .directory import line_address
from .memory import DOUBLEWORD_BYTES

# "An access of 1, 2 or 4 bytes", and C-15: "Add width 8. An access then touches up to three
# doublewords".
WIDTHS = (1, 2, 4, 8)
DOUBLEWORDS = 3

# "0 to 15 serve the cycles of the lower doubleword in turn, 16 to 31 those of the upper"; C-15:
# "48 answers in groups of 16", whatever the width. A fill under BS8# needs all sixteen of a group.
GROUP = 16
ANSWERS = GROUP * DOUBLEWORDS

# "An answer is 1 for KEN# active + 2 for BS8# + 4 for BS16#."
KEN, BS8, BS16 = 1, 2, 4
ANSWER_LIMIT = KEN + BS8 + BS16

# "Each cycle leaves three 32-bit words in the log"; there is room for one cycle per answer. C-15:
# "needs a log of 144 words".
RECORD_WORDS = 3
LOG_WORDS = RECORD_WORDS * ANSWERS

# "Flags: 1, 2, 4, 8 for moved bytes 0 to 3; 16 write; 32 fill; 64 the last cycle ...; 128
# read with wrong parity in a moved byte."
ALL_LANES = 15
WRITE, FILL, LAST, WRONG = 16, 32, 64, 128

# "Starting at byte 0, 4, 8 or 12, the order is 0-4-8-12, 4-0-12-8, 8-12-0-4 or 12-8-4-0.", by its
# start; C-13: "four cases of four offsets".
BURST_ORDER = {
    0: (0, 4, 8, 12),
    4: (4, 0, 12, 8),
    8: (8, 12, 0, 4),
    12: (12, 8, 4, 0),
}


class Doubleword(NamedTuple):
    """One aligned doubleword that an access touches, and the lanes it wants there."""

    address: int
    wanted: int


class Cycle(NamedTuple):
    """One cycle: the doubleword, the lanes moved and the answer that the board gave."""

    address: int
    lanes: int
    answer: int


class Record(NamedTuple):
    """Rule: "three 32-bit words in the log: doubleword address; flags; data, unmoved lanes 0"."""

    address: int
    flags: int
    word: int


def doublewords(address: int, width: int) -> list[Doubleword]:
    """Rule: "touches one or two aligned doublewords, the lower one completed first (H)"; C-15: "up
    to three", ascending."""
    lane = address % DOUBLEWORD_BYTES
    wanted = ((1 << width) - 1) << lane
    count = -(-(lane + width) // DOUBLEWORD_BYTES)
    return [
        Doubleword(
            address - lane + DOUBLEWORD_BYTES * index,
            wanted >> DOUBLEWORD_BYTES * index & ALL_LANES,
        )
        for index in range(count)
    ]


def groups(answers: Sequence[int]) -> list[Sequence[int]]:
    """The answers, parted by doubleword in ascending order."""
    return [answers[start : start + GROUP] for start in range(0, len(answers), GROUP)]


def moved(wanted: int, answer: int) -> int:
    """Rule: "A cycle moves part of the bytes still wanted, starting with the lowest: with BS8#
    that byte alone; with BS16# all wanted bytes in its half of the doubleword; otherwise
    all. With both, BS8# rules"."""
    lowest = wanted & -wanted
    if answer & BS8:
        return lowest
    if answer & BS16:
        return wanted & (3 if lowest <= 2 else 12)
    return wanted


def cycles(address: int, wanted: int, answers: Iterator[int]) -> list[Cycle]:
    """The cycles that move the wanted lanes of one doubleword, each with the next answer."""
    made = []
    while wanted:
        answer = next(answers)
        lanes = moved(wanted, answer)
        made.append(Cycle(address, lanes, answer))
        wanted &= ~lanes
    return made


def plain_cycles(doubleword: Doubleword, group: Sequence[int]) -> list[Cycle]:
    """The cycles of a write, or of a read that is no fill: "the wanted bytes only"."""
    return cycles(doubleword.address, doubleword.wanted, iter(group))


def fill_cycles(doubleword: Doubleword, group: Sequence[int]) -> list[Cycle]:
    """Rule: "Fill: all four bytes of each doubleword of the line (H for the first under BS8# or
    BS16#)", in burst order from the doubleword that missed."""
    line = line_address(doubleword.address)
    answers = iter(group)
    made = []
    for offset in BURST_ORDER[doubleword.address - line]:
        made += cycles(line + offset, ALL_LANES, answers)
    return made


def flags(made: list[Cycle], index: int, kind: int) -> int:
    """Flags of one of the cycles made for a doubleword; kind is 0, WRITE or FILL.

    "64 the last cycle made for this doubleword of the access, in a fill only its very last"
    """
    return made[index].lanes + kind + (LAST if index == len(made) - 1 else 0)


def put_records(log: list[int], records: list[Record]) -> None:
    """Records from word 0 on; "Later log words are unchanged"."""
    log[: RECORD_WORDS * len(records)] = [word for record in records for word in record]
