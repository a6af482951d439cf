"""Models with one rule of C-12 broken. The readings of C-12 and the script of carrying reads must
tell each of them; random lists those that agreement with the plain memory sees."""

from collections.abc import Callable, Sequence
from typing import Any
from unittest.mock import patch

from scripts.carried import carried as carried_script
from unit486_model import access, memory, refusal
from unit486_model import directory as steps
from unit486_model.bus import Doubleword
from unit486_model.carried import CarriedWrite, Reading
from unit486_model.directory import set_of

from . import carried
from .random_lists import LISTS, Disagreement, RandomList, run_lists
from .unit_calls import check, tells

_due, _put, _spoiled = Reading.due, Reading.put, Reading.spoiled
_fill, _read_doubleword = access._fill, access._read_doubleword
_carried_number = refusal.carried_number


def _put_without_snoop(reading: Reading, write: CarriedWrite) -> None:
    ranges = reading.directory.ranges
    memory.store_bytes(reading.ram, reading.parity, ranges, write.address, write.written)
    reading.landed += 1


def _put_without_parity(reading: Reading, write: CarriedWrite) -> None:
    parity = bytes(reading.parity)
    _put(reading, write)
    reading.parity[:] = parity


def _spoiled_never(reading: Reading, first: int, address: int) -> bool:
    return False


def _spoiled_with_snoops_only(reading: Reading, first: int, address: int) -> bool:
    return not reading.directory.nw and _spoiled(reading, first, address)


def _spoiled_from_the_first_cycle(reading: Reading, first: int, address: int) -> bool:
    return _spoiled(reading, first - 1, address)


def _spoiled_by_any_line(reading: Reading, first: int, address: int) -> bool:
    return any(first < write.cycle < reading.cycle for write in reading.carried)


def _landed_before_lookup(reading: Reading, *rest: Any) -> Any:
    for write in reading.due():
        reading.put(write)
    return _read_doubleword(reading, *rest)


def _counted_by_doubleword(reading: Reading, *rest: Any) -> Any:
    reading.cycle = 0
    return _read_doubleword(reading, *rest)


def _victim_before_cycles(reading: Reading, doubleword: Doubleword, group: Sequence[int]) -> Any:
    way = steps.victim(reading.directory, set_of(doubleword.address))
    with patch.object(steps, "victim", lambda *_: way):
        return _fill(reading, doubleword, group)


def _due_from_the_end(reading: Reading) -> list[CarriedWrite]:
    return _due(reading)[::-1]


def _forgotten(reading: Reading) -> None:
    pass


def _equal_numbers_refused(ram: int, writes: Sequence[CarriedWrite]) -> int:
    cycles = [write.cycle for write in writes]
    return 33 if len(set(cycles)) < len(cycles) else _carried_number(ram, writes)


def _sets_of_the_read(address: int, width: int, writes: Sequence[CarriedWrite]) -> list[int]:
    return steps.sets_of(address, width)


# What is replaced, by what, and whether agreement with the plain memory sees it. A fill dropped
# without need, a later lookup and another victim leave every byte right; that memory has no parity
# and asks for 33 as the read does; lists set no NW = 1 and break no state.
ALTERED: list[tuple[Any, str, Callable[..., Any], bool]] = [
    (Reading, "put", _put_without_snoop, True),
    (Reading, "put", _put_without_parity, False),
    (Reading, "spoiled", _spoiled_never, True),
    (Reading, "spoiled", _spoiled_with_snoops_only, False),
    (Reading, "spoiled", _spoiled_from_the_first_cycle, False),
    (Reading, "spoiled", _spoiled_by_any_line, False),
    (access, "_read_doubleword", _landed_before_lookup, False),
    (access, "_read_doubleword", _counted_by_doubleword, True),
    (access, "_fill", _victim_before_cycles, False),
    (Reading, "due", _due_from_the_end, True),
    (Reading, "end", _forgotten, True),
    (refusal, "carried_number", _equal_numbers_refused, False),
    (access, "_sets_of", _sets_of_the_read, False),
]


def altered_models() -> None:
    for owner, name, altered, seen in ALTERED:
        with patch.object(owner, name, altered):
            told = tells(carried.readings), tells(carried_script)
            lists = seen and tells(lambda: run_lists(RandomList, LISTS), Disagreement)
        check(f"{altered.__name__}: readings and script tell", told, (True, True))
        check(f"{altered.__name__}: lists tell", lists, seen)
