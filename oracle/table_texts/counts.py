"""Tables with fewer lines than sixteen, and with more: 34, after any bad line before."""

from unit486_model.board import BLOCKS

from .faults import BAD
from .writer import (
    PLACES,
    REFUSED,
    TableFile,
    refused_file,
    table_line,
    table_lines,
    text_of,
    with_lines,
)

GOOD = table_lines(REFUSED)


def missing_files() -> list[TableFile]:
    files = [
        refused_file("missing-all", b"", 34),
        refused_file("missing-newline-alone", b"\n", 34),
        refused_file("missing-newlines", b"\n" * BLOCKS, 34),
    ]
    for count in (1, 8, 15):
        files.append(refused_file(f"missing-after-{count}", text_of(GOOD[:count]), 34))
        text = text_of(GOOD[:count], last_newline=False)
        files.append(refused_file(f"missing-after-{count}-no-last-newline", text, 34))
    return files


def missing_after_bad_files() -> list[TableFile]:
    """The bad line is earlier than the missing one: alone, in the midst of others, and just before
    it."""
    return [
        refused_file(
            f"missing-{count}-lines-{number}-in-{place + 1}",
            text_of(with_lines({place: BAD[number](place, 1)})[:count]),
            number,
        )
        for number in (35, 36)
        for count, place in ((1, 0), (8, 3), (15, 0), (15, 14))
    ]


# What stands after sixteen good lines.
SEVENTEENTH = {
    "16": b"16\t1\n",
    "16-no-last-newline": b"16\t1",
    "0": b"0\t1\n",
    "15-again": b"15\t4\n",
    "large-answer": b"16\t9\n",
    "empty": b"\n",
    "empty-twice": b"\n\n",
    "malformed": b"16 1\n",
    "malformed-no-last-newline": b"Q",
    "blank": b" ",
    "cr": b"\r",
    "nul": b"\0",
    "table-again": text_of(GOOD),
}


def seventeenth_files() -> list[TableFile]:
    return [
        refused_file(f"seventeenth-{name}", text_of(GOOD) + more, 34)
        for name, more in SEVENTEENTH.items()
    ]


def seventeenth_after_bad_files() -> list[TableFile]:
    return [
        refused_file(
            f"seventeenth-after-{number}-{word}",
            text_of([*with_lines({place: BAD[number](place, 1)}), table_line(BLOCKS, 1)]),
            number,
        )
        for number in (35, 36)
        for word, place in PLACES.items()
    ]


def count_files() -> list[TableFile]:
    missing = (*missing_files(), *missing_after_bad_files())
    return [*missing, *seventeenth_files(), *seventeenth_after_bad_files()]
