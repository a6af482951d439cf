"""Read-only ranges, for boot ROM: "Guests write into their boot ROM to test for it."

Quoted sentences are those of document 02's request C-17.
"""

from collections.abc import Sequence
from dataclasses import dataclass, field
from typing import NamedTuple

# "Give the unit up to eight read-only ranges of whole lines."
RANGES_MOST = 8


class Range(NamedTuple):
    """A range's first byte, and how many it has."""

    start: int
    length: int


@dataclass
class Ranges:
    """Rule: "the directory keeps them, none at first". There are eight places, of which the first
    `count` are in use. A host can make a directory with any count."""

    count: int = 0
    places: list[Range] = field(default_factory=lambda: [Range(0, 0)] * RANGES_MOST)


def kept(ranges: Ranges) -> list[Range]:
    """The ranges in use, all eight where the count is above."""
    return ranges.places[: ranges.count]


def set_anew(ranges: Ranges, given: Sequence[Range]) -> None:
    """Rule: "One call sets them all anew". Nothing is left in the places that are not in use."""
    ranges.count = len(given)
    ranges.places[:] = [*given, *[Range(0, 0)] * (RANGES_MOST - len(given))]


def read_only(ranges: Ranges, address: int) -> bool:
    """Whether the byte at the address lies in one of the ranges."""
    return any(start <= address < start + length for start, length in kept(ranges))


def ranges_of(words: Sequence[int]) -> list[Range]:
    """Ranges lent as words, start and length in turn. A start without a length has none: 37."""
    pairs = [words[index : index + 2] for index in range(0, len(words), 2)]
    return [Range(pair[0], pair[1] if len(pair) == 2 else 0) for pair in pairs]
