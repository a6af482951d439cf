"""Tables with wrong or repeated blocks, 35, and with answers above 7, 36."""

from collections.abc import Iterable

from unit486_model.board import BLOCKS

from .writer import (
    PLACES,
    REFUSED,
    TableFile,
    at_places,
    refused_file,
    table_line,
    table_lines,
    text_of,
)

FIRST, MIDDLE, LAST = PLACES.values()
# The first line has no block before it to repeat, the last none after it to change places with.
REPEATED = {"second": 1, "middle": MIDDLE, "last": LAST}
SWAPPED = {"first": FIRST, "middle": MIDDLE, "last": LAST - 1}
# Block 16 is the next one in the last line, and sixteen more in the first.
BELOW_LAST = {"first": FIRST, "middle": MIDDLE}
ABOVE_FIRST = {"middle": MIDDLE, "last": LAST}
# Added to a block, numbers that leave it as it was in a byte and in two, as 16 does in four bits.
NARROW = (256, 65_536)


def block_files() -> list[TableFile]:
    """One line with another block than its place."""
    files = at_places("block-next", 35, lambda block, answer: table_line(block + 1, answer))
    files += at_places(
        "block-repeated", 35, lambda block, answer: table_line(block - 1, answer), REPEATED
    )
    # The whole line stands twice.
    files += at_places(
        "block-line-twice", 35, lambda block, _: table_line(block - 1, REFUSED[block - 1]), REPEATED
    )
    files += at_places("block-0", 35, lambda _, answer: table_line(0, answer), {"last": LAST})
    files += at_places("block-16", 35, lambda _, answer: table_line(16, answer), BELOW_LAST)
    files += at_places("block-4294967295", 35, lambda _, answer: b"4294967295\t%d" % answer)
    files += at_places(
        "block-16-more", 35, lambda block, answer: table_line(block + 16, answer), ABOVE_FIRST
    )
    for more in NARROW:
        files += at_places(
            f"block-{more}-more", 35, lambda block, answer: table_line(block + more, answer)
        )
    files += at_places("block-zeros", 35, lambda block, answer: b"%010d\t%d" % (block + 1, answer))
    return files


def in_order(name: str, blocks: Iterable[int]) -> TableFile:
    """Lines of the blocks in this order, each with the answer that would be its own."""
    lines = [table_line(block, REFUSED[block % BLOCKS]) for block in blocks]
    return refused_file(f"order-{name}", text_of(lines), 35)


def swapped_files() -> list[TableFile]:
    """Two neighbours have changed places; each block is there once."""
    return [
        in_order(f"swapped-{word}", [*range(place), place + 1, place, *range(place + 2, BLOCKS)])
        for word, place in SWAPPED.items()
    ]


def order_files() -> list[TableFile]:
    exchanged = [table_line(answer, block) for block, answer in enumerate(REFUSED)]
    return [
        in_order("descending", range(BLOCKS - 1, -1, -1)),
        in_order("from-1", range(1, BLOCKS + 1)),
        in_order("0-last", [*range(1, BLOCKS), 0]),
        in_order("even-first", [*range(0, BLOCKS, 2), *range(1, BLOCKS, 2)]),
        in_order("as-text", sorted(range(BLOCKS), key=str)),
        in_order("0-only", [0] * BLOCKS),
        in_order("twice", [block // 2 for block in range(BLOCKS)]),
        refused_file("order-answer-first", text_of(exchanged), 35),
    ]


# The smallest, those that are good in three bits, a byte or two, C-24's limit and above it.
LARGE = (8, 9, 10, 15, 16, 255, 256, 263, 65_541, 4_294_967_288, 4_294_967_295)


def answer_files() -> list[TableFile]:
    files = []
    for wrong in LARGE:
        files += at_places(f"answer-{wrong}", 36, lambda block, _: table_line(block, wrong))
    files += at_places("answer-zeros", 36, lambda block, _: b"%d\t%010d" % (block, 8))
    files.append(refused_file("answer-all-8", text_of(table_lines([8] * BLOCKS)), 36))
    return files


def wrong_files() -> list[TableFile]:
    return [*block_files(), *swapped_files(), *order_files(), *answer_files()]
