"""Models with one rule of C-16 broken. Its readings must tell each of them, and so must the output
of the program `table_files` and each of the table files that are there for it."""

import re
from collections.abc import Callable, Sequence
from typing import Any

from table_texts.accesses import event_text
from table_texts.counts import (
    missing_after_bad_files,
    missing_files,
    seventeenth_after_bad_files,
    seventeenth_files,
)
from table_texts.faults import long_file, one_line_files, two_line_files
from table_texts.good import ending_files, plain_files, zero_files
from table_texts.malformed import malformed_files, whole_files
from table_texts.writer import text_of
from table_texts.wrong import answer_files, block_files, order_files, swapped_files
from unit486_model import block_table, board, events
from unit486_model.block_table import LoadedTable
from unit486_model.board import BLOCKS, TABLE
from unit486_model.bus import ANSWER_LIMIT
from unit486_model.events import INPUT_LIMIT, NUMBER_LIMIT

from . import block_table as c16
from .altered_sizes import Altered, told
from .table_files import output

_load, _scan, _number = block_table.load, block_table.scan, block_table.number
_line_number, _lines_of = block_table.line_number, block_table.lines_of
_run, _board_answers = events.run, board.answers


# --- what is handed back


def _answers_over(given: Sequence[int], lines: Sequence[bytes]) -> tuple[int, ...]:
    """The given table with the answers that these lines have, one byte each."""
    table = list(given)
    for place, line in enumerate(lines[:BLOCKS]):
        scanned = _scan(line)
        if scanned:
            table[place] = scanned[1] % 256
    return tuple(table)


def _line_by_line(given: Sequence[int], text: bytes) -> LoadedTable:
    """Each line is used as it is read, up to the bad one."""
    lines, number = _lines_of(text), _load(given, text).number
    numbers = [_line_number(line, place) for place, line in enumerate(lines[:BLOCKS])]
    good = next((place for place, found in enumerate(numbers) if found), len(lines))
    return LoadedTable(_answers_over(given, lines[:good]), number)


def _rejected_handed_back(given: Sequence[int], text: bytes) -> LoadedTable:
    return LoadedTable(_answers_over(given, _lines_of(text)), _load(given, text).number)


def _ours_after_refusal(given: Sequence[int], text: bytes) -> LoadedTable:
    return _load(TABLE, text)


def _zeros_after_refusal(given: Sequence[int], text: bytes) -> LoadedTable:
    return _load((0,) * BLOCKS, text)


def _given_when_loaded(given: Sequence[int], text: bytes) -> LoadedTable:
    return LoadedTable(tuple(given), _load(given, text).number)


# --- number of lines


def _missing_accepted(given: Sequence[int], text: bytes) -> LoadedTable:
    """Blocks without a line keep their answer."""
    lines = _lines_of(text)
    numbers = [_line_number(line, place) for place, line in enumerate(lines)]
    if len(lines) < BLOCKS and not any(numbers):
        return LoadedTable(_answers_over(given, lines), 0)
    return _load(given, text)


def _sixteen_lines(text: bytes) -> list[bytes]:
    return _lines_of(text)[:BLOCKS]


def _empty_lines_last(text: bytes) -> list[bytes]:
    return _lines_of(text.rstrip(b"\n"))


def _empty_lines_skipped(text: bytes) -> list[bytes]:
    return [line for line in _lines_of(text) if line]


def _last_newline_needed(text: bytes) -> list[bytes]:
    return text.split(b"\n")[:-1]


def _ended_by_cr(text: bytes) -> list[bytes]:
    return [line.removesuffix(b"\r") for line in _lines_of(text)]


def _limited(given: Sequence[int], text: bytes) -> LoadedTable:
    """The program's 12."""
    return LoadedTable(tuple(given), 12) if len(text) > INPUT_LIMIT else _load(given, text)


# --- which bad line


def _numbers(text: bytes) -> list[int]:
    """Of all bad lines, in order."""
    lines = _lines_of(text)
    numbers = [_line_number(line, place) for place, line in enumerate(lines[:BLOCKS])]
    return [number for number in [*numbers, 0 if len(lines) == BLOCKS else 34] if number]


def _last_bad_line(text: bytes) -> int:
    return next(reversed(_numbers(text)), 0)


def _lowest_of_all(text: bytes) -> int:
    return min(_numbers(text), default=0)


def _count_first(text: bytes) -> int:
    return 34 if len(_lines_of(text)) != BLOCKS else next(iter(_numbers(text)), 0)


# --- which number


def _answer_before_block(line: bytes, place: int) -> int:
    scanned = _scan(line)
    return 36 if scanned and scanned[1] > ANSWER_LIMIT else _line_number(line, place)


def _block_before_malformed(line: bytes, place: int) -> int:
    block = _number(line.split(b"\t")[0])
    return 35 if block not in (None, place) else _line_number(line, place)


def _answer_before_malformed(line: bytes, place: int) -> int:
    answer = _number((line + b"\t").split(b"\t")[1])
    return 36 if (answer or 0) > ANSWER_LIMIT else _line_number(line, place)


# --- blocks


def _any_order(given: Sequence[int], text: bytes) -> LoadedTable:
    """Sixteen blocks, each once."""
    lines = _lines_of(text)
    by_block = dict(zip([scanned[0] for scanned in map(_scan, lines) if scanned], lines))
    if len(lines) == BLOCKS and set(by_block) == set(range(BLOCKS)):
        return _load(given, text_of(by_block[block] for block in range(BLOCKS)))
    return _load(given, text)


def _with_block(line: bytes, block: int) -> bytes:
    return b"\t".join([b"%d" % block, *line.split(b"\t")[1:]])


def _repeated_accepted(line: bytes, place: int) -> int:
    scanned = _scan(line)
    repeated = scanned is not None and scanned[0] < place
    return _line_number(_with_block(line, place) if repeated else line, place)


def _from_1(line: bytes, place: int) -> int:
    return _line_number(line, place + 1)


def _scanned_as(block_limit: int, answer_limit: int) -> Callable[[bytes], Any]:
    """Block and answer in fewer bits."""

    def scan(line: bytes) -> tuple[int, int] | None:
        scanned = _scan(line)
        return scanned and (scanned[0] % block_limit, scanned[1] % answer_limit)

    scan.__name__ = f"block below {block_limit}, answer below {answer_limit}"
    return scan


# --- line syntax


def _more_fields(line: bytes) -> tuple[int, int] | None:
    return _scan(b"\t".join(line.split(b"\t")[:2]))


def _any_white_space(line: bytes) -> tuple[int, int] | None:
    return _scan(b"\t".join(line.split()))


def _any_digits(field: bytes) -> int | None:
    return int(field) if field.isdigit() and int(field) <= NUMBER_LIMIT else None


def _nine_digits(field: bytes) -> int | None:
    return None if len(field) > 9 else _number(field)


def _no_leading_zeros(field: bytes) -> int | None:
    return None if re.match(rb"0[0-9]", field) else _number(field)


def _wrapped(field: bytes) -> int | None:
    digits = field.isdigit() and len(field) <= 10
    return int(field) % (NUMBER_LIMIT + 1) if digits else None


def _signed(field: bytes) -> int | None:
    return _number(field[1:] if field[:1] in (b"+", b"-") else field)


def _empty_is_0(field: bytes) -> int | None:
    return _number(field or b"0")


def _digits_before_the_rest(field: bytes) -> int | None:
    return _number(field[: len(field) - len(field.lstrip(b"0123456789"))])


# --- use of the table


def _run_with_ours(table: Sequence[int], text: bytes) -> bytes:
    return _run(TABLE, text)


def _board_of_ours(table: Sequence[int], address: int, width: int) -> list[int]:
    return _board_answers(TABLE, address, width)


def _board_of_block_0(table: Sequence[int], address: int, width: int) -> list[int]:
    return _board_answers(table[:1] * BLOCKS, address, width)


def _board_up_to_7(table: Sequence[int], address: int, width: int) -> list[int]:
    return [answer % 8 for answer in _board_answers(table, address, width)]


REFUSED = (malformed_files, block_files, answer_files, missing_files, seventeenth_files)
AFTER_BAD = (missing_after_bad_files, seventeenth_after_bad_files)

ALTERED = (
    Altered(block_table, "load", _line_by_line, (*REFUSED, swapped_files, two_line_files)),
    Altered(block_table, "load", _rejected_handed_back, (*REFUSED, order_files)),
    Altered(block_table, "load", _ours_after_refusal, REFUSED),
    Altered(block_table, "load", _zeros_after_refusal, REFUSED),
    Altered(block_table, "load", _given_when_loaded, (plain_files, zero_files)),
    Altered(block_table, "load", _missing_accepted, (missing_files,)),
    Altered(block_table, "lines_of", _sixteen_lines, (seventeenth_files,)),
    Altered(block_table, "lines_of", _empty_lines_last, (seventeenth_files,)),
    Altered(block_table, "lines_of", _empty_lines_skipped, (seventeenth_files, malformed_files)),
    Altered(block_table, "lines_of", _last_newline_needed, (ending_files, seventeenth_files)),
    Altered(block_table, "lines_of", _ended_by_cr, (malformed_files, whole_files)),
    Altered(block_table, "load", _limited, (long_file,)),
    Altered(block_table, "text_number", _last_bad_line, (two_line_files, long_file)),
    Altered(block_table, "text_number", _lowest_of_all, (two_line_files, long_file)),
    Altered(block_table, "text_number", _count_first, (*AFTER_BAD, long_file)),
    Altered(block_table, "line_number", _answer_before_block, (one_line_files,)),
    Altered(block_table, "line_number", _block_before_malformed, (one_line_files,)),
    Altered(block_table, "line_number", _answer_before_malformed, (one_line_files,)),
    Altered(block_table, "load", _any_order, (swapped_files, order_files)),
    Altered(block_table, "line_number", _repeated_accepted, (block_files, order_files)),
    Altered(block_table, "line_number", _from_1, (plain_files, order_files)),
    Altered(block_table, "scan", _scanned_as(16, 2**32), (block_files,)),
    Altered(block_table, "scan", _scanned_as(256, 2**32), (block_files,)),
    Altered(block_table, "scan", _scanned_as(65_536, 2**32), (block_files,)),
    Altered(block_table, "scan", _scanned_as(2**32, 8), (answer_files, two_line_files)),
    Altered(block_table, "scan", _scanned_as(2**32, 256), (answer_files,)),
    Altered(block_table, "scan", _scanned_as(2**32, 65_536), (answer_files,)),
    Altered(block_table, "ANSWER_LIMIT", 6, (plain_files,)),
    Altered(block_table, "ANSWER_LIMIT", 8, (answer_files,)),
    Altered(block_table, "ANSWER_LIMIT", 15, (answer_files, two_line_files)),
    Altered(block_table, "ANSWER_LIMIT", 255, (answer_files, two_line_files)),
    Altered(block_table, "scan", _more_fields, (malformed_files, one_line_files)),
    Altered(block_table, "scan", _any_white_space, (malformed_files, whole_files)),
    Altered(block_table, "number", _any_digits, (malformed_files,)),
    Altered(block_table, "number", _nine_digits, (zero_files, answer_files)),
    Altered(block_table, "number", _no_leading_zeros, (zero_files, answer_files)),
    Altered(block_table, "number", _wrapped, (malformed_files,)),
    Altered(block_table, "number", _signed, (malformed_files, one_line_files)),
    Altered(block_table, "number", _empty_is_0, (malformed_files,)),
    Altered(block_table, "number", _digits_before_the_rest, (malformed_files, one_line_files)),
    Altered(events, "run", _run_with_ours, (event_text,)),
    Altered(board, "answers", _board_of_ours, (event_text,)),
    Altered(board, "answers", _board_of_block_0, ()),
    Altered(board, "answers", _board_up_to_7, (event_text,)),
)


def altered_models() -> None:
    models = (model._replace(told_by=(*model.told_by, output)) for model in ALTERED)
    told(models, c16.readings)
