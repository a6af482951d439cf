"""Models with one rule of C-15 broken. Its readings must tell each of them, and so must each of the
scripts and event files that are there for it."""

from collections.abc import Callable, Iterable, Sequence
from typing import Any, NamedTuple
from unittest.mock import patch

from inputs.boundaries import (
    crossing_files,
    eight_byte_files,
    number_length_files,
    value_digits_file,
    value_files,
    width_files,
)
from inputs.malformed import number_files
from scripts.bench import bench
from scripts.board import board as board_script
from scripts.eight_bytes import eight_bytes as eight_bytes_script
from scripts.numbers import numbers
from scripts.sizing import sizing
from unit486_model import access, board, bus, events, refusal
from unit486_model import directory as steps
from unit486_model.access import Result
from unit486_model.bus import ANSWERS, GROUP, LAST, LOG_WORDS, RECORD_WORDS, Doubleword
from unit486_model.carried import Reading

from . import eight_bytes
from .unit_calls import check, tells

_groups, _board_answers, _sets_of = bus.groups, board.answers, steps.sets_of
_argument_number, _read_doubleword = refusal.argument_number, access._read_doubleword
_read_carrying = access.read_carrying


# --- groups and doublewords


def _third_from_the_second(answers: Sequence[int]) -> list[Sequence[int]]:
    lowest, second, _ = _groups(answers)
    return [lowest, second, second]


def _upper_goes_on(reading: Reading, doubleword: Doubleword, pcd: bool, group: Any) -> Any:
    """The upper doubleword goes on in the middle's group, where that one stopped."""
    asked = reading.__dict__.setdefault("asked", [])
    if len(asked) == 2:
        before, made = asked[1]
        group = [*before[made:], *group]
    word, records = _read_doubleword(reading, doubleword, pcd, group)
    asked.append((group, len(records)))
    return word, records


def _descending(items: Iterable[Any], start: int = 0) -> list[tuple[int, Any]]:
    """In place of `enumerate`: the highest doubleword first, all else as it was."""
    pairs = list(enumerate(items, start))
    return pairs[::-1] if pairs and isinstance(pairs[0][1], Doubleword) else pairs


def _middle_without_64(*lent: Any) -> Result:
    """64 in the last cycle of the lowest doubleword and of the highest only."""
    result, log = _read_carrying(*lent), lent[8]
    last = [index for index, record in enumerate(result.records) if record.flags & LAST]
    records = list(result.records)
    for index in last[1:-1]:
        records[index] = records[index]._replace(flags=records[index].flags - LAST)
        log[RECORD_WORDS * index + 1] -= LAST
    return result._replace(records=tuple(records))


def _value_of_32_bits(*lent: Any) -> Result:
    result = _read_carrying(*lent)
    return result._replace(value=result.value % 2**32)


def _sets_of_two_doublewords(address: int, count: int) -> list[int]:
    return _sets_of(address, count if count != 8 else 5 - address % 4)


# --- numbers


def _four_bytes_of_any_value(*given: Any) -> int:
    ram, address, width, answers, log, value = (*given, None)[:6]
    cut = value % 2**32 if value is not None and width == 4 else value
    return _argument_number(ram, address, width, answers, log, cut)


def _eight_bytes_of_32_bits(*given: Any) -> int:
    number = _argument_number(*given)
    return 8 if number == 0 and len(given) == 6 and given[5] >= 2**32 else number


def _log_by_width(*given: Any) -> int:
    ram, address, width, answers, log, *value = given
    needed = LOG_WORDS - (0 if width == 8 else RECORD_WORDS * GROUP)
    enough = LOG_WORDS if log >= needed else 0
    return _argument_number(ram, address, width, answers, enough, *value)


def _answers_by_width(*given: Any) -> int:
    ram, address, width, answers, log, *value = given
    more = [0] * GROUP if width != 8 and len(answers) == ANSWERS - GROUP else []
    return _argument_number(ram, address, width, [*answers, *more], log, *value)


def _answers_that_are_used(*given: Any) -> int:
    ram, address, width, answers, log, *value = given
    used = GROUP * ((address % 4 + min(width, 8) + 3) // 4)
    seen = [*answers[:used], *[0] * len(answers[used:])]
    return _argument_number(ram, address, width, seen, log, *value)


def _a_byte_short(ram: int, address: int, width: int, *rest: Any) -> int:
    return _argument_number(ram - (width == 8), address, width, *rest)


# --- the board table


def _third_from_the_middle(table: Any, address: int, width: int) -> list[int]:
    given = _board_answers(table, address, width)
    present = (address % 4 + width + 3) // 4 if width in (1, 2, 4, 8) else 1
    return given if present == 3 else [*given[: 2 * GROUP], *given[GROUP : 2 * GROUP]]


def _third_from_the_lowest(table: Any, address: int, width: int) -> list[int]:
    given = _board_answers(table, address, width)
    return [*given[: 2 * GROUP], *given[:GROUP]]


def _groups_of_any_width(table: Any, address: int, width: int) -> list[int]:
    """A refused width has as many doublewords as its bytes touch, three at most."""
    taken = width if width in (1, 2, 4, 8) else min(max(width, 1), 8)
    return _board_answers(table, address, taken)


class Altered(NamedTuple):
    """What is replaced, by what, and the scripts and files that must tell beside the readings."""

    owner: Any
    name: str
    altered: Any
    told_by: tuple[Callable[[], object], ...]


NARROW_VALUES = {**events.FORMS, b"W": (events.number,) * 3}
WIDE_NUMBERS = {**events.FORMS, b"W": (events.value,) * 3}

ALTERED = (
    Altered(bus, "groups", _third_from_the_second, (eight_bytes_script, sizing)),
    Altered(access, "_read_doubleword", _upper_goes_on, (eight_bytes_script, sizing)),
    Altered(access, "enumerate", _descending, (eight_bytes_script, sizing)),
    Altered(access, "read_carrying", _middle_without_64, (eight_bytes_script, sizing)),
    Altered(access, "read_carrying", _value_of_32_bits, (eight_bytes_script, eight_byte_files)),
    Altered(steps, "sets_of", _sets_of_two_doublewords, (eight_bytes_script,)),
    Altered(refusal, "WIDTHS", (1, 2, 4), (eight_bytes_script, numbers, crossing_files)),
    Altered(refusal, "WIDTHS", range(1, 9), (eight_bytes_script, numbers, width_files, bench)),
    Altered(refusal, "WIDTHS", (1, 2, 4, 6, 8), (eight_bytes_script, numbers, width_files)),
    Altered(refusal, "argument_number", _four_bytes_of_any_value, (numbers, value_files)),
    Altered(refusal, "argument_number", _eight_bytes_of_32_bits, (numbers, value_files)),
    Altered(refusal, "argument_number", _log_by_width, (numbers, bench)),
    Altered(refusal, "argument_number", _answers_by_width, (numbers,)),
    Altered(refusal, "argument_number", _answers_that_are_used, (numbers,)),
    Altered(refusal, "argument_number", _a_byte_short, (eight_bytes_script, numbers)),
    Altered(refusal, "LOG_WORDS", 143, (numbers, bench)),
    Altered(refusal, "LOG_WORDS", 145, (numbers, bench)),
    Altered(board, "answers", _third_from_the_middle, (board_script,)),
    Altered(board, "answers", _third_from_the_lowest, (board_script,)),
    Altered(board, "answers", _groups_of_any_width, (board_script,)),
    Altered(events, "VALUE_DIGITS", 19, (value_digits_file, value_files)),
    Altered(events, "VALUE_DIGITS", 21, (value_digits_file, value_files, number_files)),
    Altered(events, "VALUE_LIMIT", 2**64, (value_digits_file, value_files, number_files)),
    Altered(events, "VALUE_LIMIT", 2**64 - 2, (value_digits_file, value_files)),
    Altered(events, "NUMBER_DIGITS", 20, (number_length_files, number_files)),
    Altered(events, "FORMS", NARROW_VALUES, (value_digits_file, value_files)),
    Altered(events, "FORMS", WIDE_NUMBERS, (number_length_files, number_files)),
)


def _made(maker: Callable[[], object]) -> None:
    """A script or a file is held to the papers as it is made, files one after the other."""
    made = maker()
    if isinstance(made, Iterable):
        list(made)


def told(models: Iterable[Altered], readings: Callable[[], None]) -> None:
    """Each model is told by the readings, and by all that it names."""
    for owner, name, altered, told_by in models:
        what = f"{name}: {getattr(altered, '__name__', altered)}"
        with patch.object(owner, name, altered, create=name == "enumerate"):
            check(f"{what}: readings tell", tells(readings), True)
            for maker in told_by:
                check(f"{what}: {maker.__name__} tells", tells(lambda: _made(maker)), True)


def altered_models() -> None:
    told(ALTERED, eight_bytes.readings)
