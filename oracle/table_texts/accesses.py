"""The event file that each table serves: accesses of block 0, whose rows tell its answers apart.

The cycles are worked out from the sizing tables: answers 0 and 1 move a doubleword at once, 4 and 5
a half of it, the others a byte; under KEN#, which the odd ones carry, a read that may fill takes
the four doublewords of each line.
"""

from collections.abc import Iterator
from typing import NamedTuple

from unit486_model import events
from unit486_model.board import BLOCKS
from unit486_model.events import HEADER

from checks.unit_calls import check

NAME = "accesses.txt"
NO_CYCLES = (0,) * 8
# A table's answers beyond those that a board can give.
ABOVE = (8, 9, 128, 255)
# Answers whose rows are the same: BS8# rules over BS16#.
SAME = ((2, 6), (3, 7))


class Event(NamedTuple):
    """A line, its answer and value, and its cycles by block 0's answer 0 to 7."""

    line: bytes
    answer: int = 0
    value: int = 0
    cycles: tuple[int, ...] = NO_CYCLES


EVENTS = (
    Event(b"C\t0\t0"),
    Event(b"W\t0\t4\t287454020", cycles=(1, 1, 4, 4, 2, 2, 4, 4)),
    # Two bytes inside a doubleword, or a fill; then the line is held, or not.
    Event(b"R\t1\t2\t0", value=8755, cycles=(1, 4, 2, 16, 2, 8, 2, 16)),
    Event(b"R\t0\t4\t0", value=287454020, cycles=(1, 0, 4, 0, 2, 0, 4, 0)),
    # Eight bytes: two, four and two of them, inside the line.
    Event(b"W\t2\t8\t18446744073709551615", cycles=(3, 3, 8, 8, 4, 4, 8, 8)),
    Event(b"R\t2\t8\t0", value=18446744073709551615, cycles=(3, 0, 8, 0, 4, 0, 8, 0)),
    # Three, four and one of them, over two lines.
    Event(b"R\t61\t8\t0", cycles=(3, 8, 8, 32, 5, 16, 8, 32)),
    # PCD.
    Event(b"R\t4096\t4\t1", cycles=(1, 1, 4, 4, 2, 2, 4, 4)),
    Event(b"R 0 4 0", answer=11),
    Event(b"X\t0\tAA"),
    Event(b"R\t0\t1\t0", value=170, cycles=(1, 4, 1, 16, 1, 8, 1, 16)),
    Event(b"R\t65533\t4\t0", answer=5),
    Event(b"W\t0\t1\t256", answer=8),
    Event(b"R\t0\t3\t0", answer=4),
)


def text() -> bytes:
    return b"".join(event.line + b"\n" for event in EVENTS)


def rows(answer: int) -> bytes:
    """What the run gives where block 0 has this answer, by document 01."""
    return HEADER + b"".join(
        b"%d\t%d\t%d\t%d\n" % (place, *_columns(event, answer))
        for place, event in enumerate(EVENTS, start=1)
    )


def _columns(event: Event, answer: int) -> tuple[int, int, int]:
    """Number 6 for "one above 7" comes after 4 and 5, and before 8; only reads and writes have
    it."""
    if answer < len(event.cycles):
        return event.answer, event.value, event.cycles[answer]
    served = event.line[:2] in (b"R\t", b"W\t") and event.answer not in (4, 5)
    return 6 if served else event.answer, 0, 0


def _tables(answer: int) -> Iterator[list[int]]:
    """Only block 0 counts: RAM of the program ends in it."""
    for other in (0, 1, 255):
        yield [answer] + [other] * (BLOCKS - 1)


def event_text() -> bytes:
    """The file, held to document 01 for each answer."""
    for answer in (*range(8), *ABOVE):
        for table in _tables(answer):
            check(f"rows with {answer}", events.run(table, text()), rows(answer))
    return text()
