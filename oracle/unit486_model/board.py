"""The board table: the answers that the board gives to an access."""

from collections.abc import Sequence

from .bus import DOUBLEWORDS, GROUP, WIDTHS, doublewords

# "The answer by 1 MiB block 0 to 15"; C-16's "ours", which the program uses.
BLOCKS = 16
BLOCK_BYTES = 1_048_576
TABLE = (1, 1, 1, 1, 1, 1, 1, 1, 5, 5, 5, 5, 4, 4, 2, 3)


def block_of(address: int) -> int:
    """Rule: "The block is (address / 1,048,576) mod 16"."""
    return address // BLOCK_BYTES % BLOCKS


def answers(table: Sequence[int], address: int, width: int) -> list[int]:
    """Rule: "repeated 16 times for each doubleword; an absent upper doubleword takes the lower's".
    C-15: "the board table fills the third group from its own doubleword, or from the lowest where
    there is none". C-16: the table may be the plant's own.

    The block is that of each doubleword's own address. A width that the access will answer
    with 4 has no doubleword but the lowest.
    """
    touched = doublewords(address, width if width in WIDTHS else 1)
    given = [table[block_of(doubleword.address)] for doubleword in touched]
    given += [given[0]] * (DOUBLEWORDS - len(given))
    return [answer for answer in given for _ in range(GROUP)]
