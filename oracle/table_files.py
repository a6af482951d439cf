"""The program `table_files`: its event file, its table files, its arguments and what it must print.

The files are made in `table_texts/`; tables, answers and rows are those of the model's
`block_table`, `board` and `events`.
"""

import sys
from collections.abc import Callable, Iterator, Sequence
from functools import cache, partial

from checks.unit_calls import run_script
from table_texts import accesses
from table_texts.counts import count_files
from table_texts.faults import fault_files
from table_texts.good import good_files
from table_texts.malformed import malformed_files, whole_files
from table_texts.writer import JUNK, TableFile
from table_texts.wrong import wrong_files
from unit486_model import block_table, board, events
from unit486_model.board import BLOCK_BYTES, BLOCKS, TABLE
from unit486_model.bus import GROUP

CRATE = "crates/table_files"
# The first and last answer of each group.
SHOWN = [answer for group in range(3) for answer in (group * GROUP, group * GROUP + GROUP - 1)]


@cache
def files() -> tuple[TableFile, ...]:
    """Refused tables of every subject under ours, and again after each good one but the last."""
    good = good_files()
    refused = [*malformed_files(), *whole_files(), *wrong_files(), *fault_files(), *count_files()]
    return tuple(
        file
        for place, loaded in enumerate(good)
        for file in (*refused[place :: len(good)], loaded)
    )


def arguments() -> bytes:
    names = [accesses.NAME, *(file.name for file in files())]
    return "".join(f"{name}\n" for name in names).encode()


def _row(*fields: str | int) -> bytes:
    return "\t".join(str(field) for field in fields).encode() + b"\n"


def board_rows(table: Sequence[int]) -> Iterator[bytes]:
    """Eight bytes from the last doubleword of each block on."""
    for block in range(BLOCKS):
        answers = board.answers(table, (block + 1) * BLOCK_BYTES - 3, 8)
        yield _row("board", block, *(answers[shown] for shown in SHOWN))


def printed() -> bytes:
    """For each file what is loaded over the table in force and over a junk one, and what the board
    and the run over event lines give with them."""
    parts, table, lines = [], TABLE, accesses.event_text()
    # Most files leave the table in force.
    run = cache(lambda in_force: events.run(in_force, lines))
    for file in files():
        table, number = block_table.load(table, file.text)
        junk, junk_number = block_table.load(JUNK, file.text)
        parts += [file.name.encode() + b"\n", _row("load", number, *table)]
        parts += [_row("junk", junk_number, *junk), *board_rows(table)]
        parts += [run(table), run(junk)]
    return b"".join(parts)


def expectations() -> list[tuple[str, Callable[[], bytes]]]:
    """The program's files, each with what it must hold."""
    lines = (f"{CRATE}/data/{accesses.NAME}", accesses.event_text)
    data = [(f"{CRATE}/data/{file.name}", partial(bytes, file.text)) for file in files()]
    return [lines, *data, (f"{CRATE}/args", arguments), (f"{CRATE}/stdout", printed)]


def main(words: list[str]) -> int:
    if words:
        print("usage: table_files.py", file=sys.stderr)
        return 2
    for made in files():
        print(f"{made.name}: {made.number} for {len(made.text)} bytes")
    return 0


if __name__ == "__main__":
    sys.exit(run_script(main))
