"""A table file: its text, and what C-16 says of it, to which it is held as it is made."""

from collections.abc import Callable, Iterable, Mapping, Sequence
from typing import NamedTuple

from unit486_model import block_table
from unit486_model.board import BLOCKS

from checks.unit_calls import check

# The answers on the good lines of refused files. No good file has them all, so that a refused
# table which is used shows.
REFUSED = (5, 0, 3, 6, 1, 4, 7, 2, 6, 0, 2, 7, 3, 1, 5, 4)
# A table that no text gives.
JUNK = tuple(255 - block for block in range(BLOCKS))
# Lines at which a refusal is met.
PLACES = {"first": 0, "middle": 8, "last": BLOCKS - 1}


# A line made of the block and the answer that would be good in its place.
BadLine = Callable[[int, int], bytes]


class TableFile(NamedTuple):
    """The number of loading it, and the table that a loaded one gives."""

    name: str
    text: bytes
    number: int
    table: tuple[int, ...] | None


def table_line(block: int, answer: int) -> bytes:
    return b"%d\t%d" % (block, answer)


def table_lines(table: Sequence[int]) -> list[bytes]:
    return [table_line(block, answer) for block, answer in enumerate(table)]


def text_of(lines: Iterable[bytes], last_newline: bool = True) -> bytes:
    """The lines, each ended by a newline, the last one's optional."""
    text = b"".join(line + b"\n" for line in lines)
    return text if last_newline else text[:-1]


def good_file(name: str, text: bytes, table: Sequence[int]) -> TableFile:
    """A text that gives each block the answer in `table`."""
    check(f"good-{name}", block_table.load(JUNK, text), (tuple(table), 0))
    return TableFile(f"good-{name}.txt", text, 0, tuple(table))


def refused_file(name: str, text: bytes, number: int) -> TableFile:
    """A text that C-16 answers with this number, and that leaves the old table."""
    check(name, block_table.load(JUNK, text), (JUNK, number))
    return TableFile(f"{name}.txt", text, number, None)


def with_lines(lines: Mapping[int, bytes]) -> list[bytes]:
    """Sixteen good lines but for those at these places."""
    return [lines.get(place, line) for place, line in enumerate(table_lines(REFUSED))]


def at_places(
    name: str,
    number: int,
    bad_line: BadLine,
    places: Mapping[str, int] = PLACES,
) -> list[TableFile]:
    """A file for each place, with one bad line there."""
    return [
        refused_file(
            f"{name}-{word}", text_of(with_lines({place: bad_line(place, REFUSED[place])})), number
        )
        for word, place in places.items()
    ]
