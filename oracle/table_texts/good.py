"""Tables that are loaded: each answer in each block, and each way to write a number."""

from collections.abc import Sequence

from scripts.board import PRINTED
from unit486_model.board import BLOCKS

from .writer import TableFile, good_file, table_lines, text_of

# Document 01's constant.
OURS = [int(answer) for answer in PRINTED]
# The fewest and the most digits of a number.
ONE, TEN = 1, 10


def turned(answer: int) -> list[int]:
    """A table whose block 0 has this answer. Over the eight answers each block takes each of them;
    blocks eight apart and neighbours differ."""
    return [(answer + 3 * block + block // 8) % 8 for block in range(BLOCKS)]


def plain_files() -> list[TableFile]:
    tables = [("ours", OURS)]
    tables += [(f"block-0-{answer}", turned(answer)) for answer in range(8)]
    tables += [(f"all-{answer}", [answer] * BLOCKS) for answer in (0, 7)]
    return [good_file(name, text_of(table_lines(table)), table) for name, table in tables]


def padded(table: Sequence[int], digits: Sequence[tuple[int, int]]) -> list[bytes]:
    """Leading zeros up to so many digits of block and answer, by line."""
    return [
        b"%0*d\t%0*d" % (block_digits, block, answer_digits, table[block])
        for block, (block_digits, answer_digits) in enumerate(digits)
    ]


def zero_files() -> list[TableFile]:
    by_line = [(1 + block % TEN, TEN - block % TEN) for block in range(BLOCKS)]
    return [
        good_file(f"zeros-{name}", text_of(padded(turned(answer), digits)), turned(answer))
        for name, answer, digits in (
            ("block", 2, [(TEN, ONE)] * BLOCKS),
            ("answer", 3, [(ONE, TEN)] * BLOCKS),
            ("both", 6, [(TEN, TEN)] * BLOCKS),
            ("each-length", 0, by_line),
        )
    ]


def ending_files() -> list[TableFile]:
    """The last newline is optional, also after a tenth digit."""
    return [
        good_file(f"no-last-newline-{name}", text_of(lines, last_newline=False), table)
        for name, table, lines in (
            ("ours", OURS, table_lines(OURS)),
            ("block-0-7", turned(7), table_lines(turned(7))),
            ("zeros", turned(4), padded(turned(4), [(TEN, TEN)] * BLOCKS)),
        )
    ]


def good_files() -> list[TableFile]:
    return [*plain_files(), *zero_files(), *ending_files()]
