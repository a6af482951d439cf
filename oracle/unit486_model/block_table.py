"""C-16: the plant's own block table, loaded from text. Quoted sentences are C-16's."""

from collections.abc import Sequence
from typing import NamedTuple

from .board import BLOCKS
from .bus import ANSWER_LIMIT
from .events import lines_of, number


class LoadedTable(NamedTuple):
    """The table that is in force after the call, and the call's number."""

    table: tuple[int, ...]
    number: int


def scan(line: bytes) -> tuple[int, int] | None:
    """Rule: "tab-parted lines, block number and answer, written as the program's"; None if
    malformed. Two numbers and a tab are at most 21 bytes, so the program's 80 never decide."""
    fields = line.split(b"\t")
    if len(fields) != 2:
        return None
    block, answer = (number(field) for field in fields)
    return None if block is None or answer is None else (block, answer)


def line_number(line: bytes, place: int) -> int:
    """Rule: "34 for a malformed ... line; 35 for a wrong or repeated block; 36 for an answer above
    7 ... lowest number first". With "blocks ascending from 0" a line's block is its place, so a
    repeated block is a wrong one."""
    scanned = scan(line)
    if scanned is None:
        return 34
    block, answer = scanned
    if block != place:
        return 35
    return 36 if answer > ANSWER_LIMIT else 0


def text_number(text: bytes) -> int:
    """Rule: "reported for the earliest bad line". The first "missing ... line" is later than all
    that are there, a "seventeenth" later than sixteen."""
    lines = lines_of(text)
    numbers = [line_number(line, place) for place, line in enumerate(lines[:BLOCKS])]
    if len(lines) != BLOCKS:
        numbers.append(34)
    return next((found for found in numbers if found), 0)


def load(given: Sequence[int], text: bytes) -> LoadedTable:
    """Rule: "Check it whole before use; a rejected table leaves the old one, a loaded one gives
    each block exactly the answer on its line". The text may have any length."""
    refused = text_number(text)
    if refused:
        return LoadedTable(tuple(given), refused)
    scanned = map(scan, lines_of(text))
    return LoadedTable(tuple(line[1] for line in scanned if line), 0)
