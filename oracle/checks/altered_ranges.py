"""Models with one rule of C-17 broken. Its readings and the script `read_only.txt` must tell each
of them; random lists with ranges those that agreement with the plain memory sees."""

from collections.abc import Callable, Sequence
from typing import Any
from unittest.mock import patch

from scripts.read_only import read_only as read_only_script
from unit486_model import access, carried, memory, ranges, refusal
from unit486_model import directory as steps
from unit486_model.access import Result
from unit486_model.bus import Doubleword
from unit486_model.carried import CarriedWrite, Reading
from unit486_model.directory import Directory
from unit486_model.ranges import RANGES_MOST, Range, Ranges

from . import read_only
from .random_lists import Disagreement, run_lists
from .range_lists import LISTS, ListWithRanges
from .unit_calls import check, tells

_store_byte, _store_bytes, _store_lanes = memory.store_byte, memory.store_bytes, memory.store_lanes
_set_anew, _kept, _read_only = ranges.set_anew, ranges.kept, ranges.read_only
_range_number, _ranges_number = refusal.range_number, refusal.ranges_number
_kept_number = refusal.kept_ranges_number
_reset, _flush, _control = steps.reset, steps.flush, steps.control
_put, _spoiled, _write_doubleword = Reading.put, Reading.spoiled, access._write_doubleword
_write, _external_write, _set_ranges = access.write, access.external_write, access.set_ranges
_read_carrying, _view_number = access.read_carrying, access.view_number

NONE = Ranges()


# --- what is ignored


def _cpu_writes_change_ram(ram: Any, parity: Any, kept: Ranges, *rest: Any) -> None:
    _store_lanes(ram, parity, NONE, *rest)


def _external_writes_change_ram(ram: Any, parity: Any, kept: Ranges, *rest: Any) -> None:
    _store_bytes(ram, parity, NONE, *rest)


def _carried_writes_change_ram(reading: Reading, write: CarriedWrite) -> None:
    stored, reading.directory.ranges = reading.directory.ranges, NONE
    _put(reading, write)
    reading.directory.ranges = stored


def _parity_changes(ram: Any, parity: Any, kept: Ranges, address: int, byte: int) -> None:
    """RAM is as it was, its parity that of the written byte."""
    old = ram[address]
    _store_byte(ram, parity, NONE, address, byte)
    if _read_only(kept, address):
        ram[address] = old


def _upper_four_change(ram: Any, parity: Any, kept: Ranges, address: int, byte: int) -> None:
    """A DP bit stays, the bits above it become 0."""
    if _read_only(kept, address):
        parity[address // 4] &= 15
    _store_byte(ram, parity, kept, address, byte)


def _parity_stays_too_far(ram: Any, parity: Any, kept: Ranges, address: int, byte: int) -> None:
    """Outside the ranges too a parity byte keeps its upper four bits."""
    upper = parity[address // 4] & 0xF0
    _store_byte(ram, parity, kept, address, byte)
    parity[address // 4] |= upper if kept.count else 0


def _no_snoop(directory: Directory, ram: Any, parity: Any, address: int, written: bytes) -> None:
    memory.store_bytes(ram, parity, directory.ranges, address, written)
    if not ranges.read_only(directory.ranges, address):
        steps.invalidate(directory, address)


def _kept_where_ignored(reading: Reading, first: int, address: int) -> bool:
    there = ranges.read_only(reading.directory.ranges, address)
    return not there and _spoiled(reading, first, address)


def _line_not_altered(
    directory: Directory, ram: Any, parity: Any, data: bytearray, doubleword: Doubleword, *rest: Any
) -> Any:
    old = bytes(data)
    records = _write_doubleword(directory, ram, parity, data, doubleword, *rest)
    if ranges.read_only(directory.ranges, doubleword.address):
        data[:] = old
    return records


def _no_cycles(
    directory: Directory, ram: Any, parity: Any, data: Any, doubleword: Doubleword, *rest: Any
) -> Any:
    records = _write_doubleword(directory, ram, parity, data, doubleword, *rest)
    return [] if ranges.read_only(directory.ranges, doubleword.address) else records


def _old_data_in_records(
    directory: Directory, ram: Any, parity: Any, data: Any, doubleword: Doubleword, *rest: Any
) -> Any:
    records = _write_doubleword(directory, ram, parity, data, doubleword, *rest)
    if not ranges.read_only(directory.ranges, doubleword.address):
        return records
    return [
        record._replace(word=memory.read_lanes(ram, record.address, record.flags & 15))
        for record in records
    ]


# --- where a range is


def _ends_a_line_early(kept: Ranges, address: int) -> bool:
    return any(start <= address < start + size - 16 for start, size in _kept(kept))


def _ends_a_line_late(kept: Ranges, address: int) -> bool:
    return any(start <= address < start + size + 16 for start, size in _kept(kept))


def _begins_a_line_late(kept: Ranges, address: int) -> bool:
    return any(start + 16 <= address < start + size for start, size in _kept(kept))


def _first_range_only(kept: Ranges, address: int) -> bool:
    return any(start <= address < start + size for start, size in _kept(kept)[:1])


def _seven_ranges(kept: Ranges) -> list[Range]:
    return _kept(kept)[:7]


def _all_places(kept: Ranges) -> list[Range]:
    return [one for one in kept.places if kept.count and one.length]


def _by_first_byte(
    directory: Directory, ram: Any, parity: Any, data: Any, address: int, *rest: Any
) -> Result:
    """All bytes of a write are ignored where its first is, else none."""
    stored = directory.ranges
    if not _kept_number(len(ram), stored):
        all_of_ram = Ranges(1, [Range(0, len(ram))] * RANGES_MOST)
        directory.ranges = all_of_ram if _read_only(stored, address) else NONE
    result = _write(directory, ram, parity, data, address, *rest)
    directory.ranges = stored
    return result


# --- the ranges that are kept


def _reset_forgets(directory: Directory) -> None:
    _reset(directory)
    directory.ranges = Ranges()


def _flush_forgets(directory: Directory) -> None:
    _flush(directory)
    directory.ranges = Ranges()


def _control_forgets(directory: Directory, cd: bool, nw: bool) -> None:
    _control(directory, cd, nw)
    directory.ranges = Ranges()


def _added(kept: Ranges, given: Sequence[Range]) -> None:
    _set_anew(kept, [*_kept(kept), *given][-RANGES_MOST:])


def _unused_places_stay(kept: Ranges, given: Sequence[Range]) -> None:
    old = list(kept.places)
    _set_anew(kept, given)
    kept.places[len(given) :] = old[len(given) :]


def _set_though_refused(directory: Directory, ram: Any, given: Sequence[Range]) -> Result:
    result = _set_ranges(directory, ram, given)
    if result.number in (37, 38):
        _set_anew(directory.ranges, list(given)[:RANGES_MOST])
    return result


# --- numbers


def _38_before_37(ram: int, given: Sequence[Range]) -> int:
    return 38 if len(given) > RANGES_MOST else _ranges_number(ram, given)


def _38_before_37_of_kept(ram: int, kept: Ranges) -> int:
    return 38 if kept.count > RANGES_MOST else _kept_number(ram, kept)


def _nine_taken(ram: int, given: Sequence[Range]) -> int:
    number = _ranges_number(ram, given)
    return 0 if number == 38 and len(given) == 9 else number


def _empty_taken(ram: int, given: Range) -> int:
    return _range_number(ram, given if given.length else given._replace(length=16))


def _any_start_taken(ram: int, given: Range) -> int:
    return _range_number(ram, given._replace(start=given.start - given.start % 16))


def _any_length_taken(ram: int, given: Range) -> int:
    return _range_number(ram, given._replace(length=given.length + -given.length % 16))


def _sum_of_32_bits(ram: int, given: Range) -> int:
    start, length = given
    if (start + length) % 2**32 <= ram and length and not start % 16 and not length % 16:
        return 0
    return _range_number(ram, given)


def _a_line_beyond_ram(ram: int, given: Range) -> int:
    return _range_number(ram + 16, given)


def _ram_less_a_line(ram: int, given: Range) -> int:
    return _range_number(ram - 16, given)


def _never_tested(ram: int, kept: Ranges) -> int:
    return 0


def _ranges_first(call: Callable[..., Result]) -> Callable[..., Result]:
    """A call that tests the ranges directly after RAM's length."""

    def altered(directory: Directory, ram: bytearray, *rest: Any) -> Result:
        number = refusal.ram_number(len(ram)) or _kept_number(len(ram), directory.ranges)
        return Result(number) if number else call(directory, ram, *rest)

    return altered


def _view_tests_ranges_first(directory: Directory, ram: bytearray, *rest: Any) -> int:
    number = refusal.ram_number(len(ram)) or _kept_number(len(ram), directory.ranges)
    return number or _view_number(directory, ram, *rest)


def _states_first(
    directory: Directory, ram: Any, parity: Any, address: int, *rest: Any
) -> Result:
    number = refusal.states_number(directory, [steps.set_of(address)])
    return Result(number) if number else _external_write(directory, ram, parity, address, *rest)


# What is replaced, by what, and whether agreement with the plain memory sees it. That memory has no
# parity and asks for numbers as the calls do; under the premises no line of ROM is held; in a list
# only the first call sets ranges, and the directory's are never wrong.
ALTERED: list[tuple[Any, str, Callable[..., Any], bool]] = [
    (memory, "store_lanes", _cpu_writes_change_ram, True),
    (memory, "store_bytes", _external_writes_change_ram, True),
    (Reading, "put", _carried_writes_change_ram, True),
    (memory, "store_byte", _parity_changes, False),
    (memory, "store_byte", _upper_four_change, False),
    (memory, "store_byte", _parity_stays_too_far, False),
    (access, "land", _no_snoop, False),
    (carried, "land", _no_snoop, False),
    (Reading, "spoiled", _kept_where_ignored, False),
    (access, "_write_doubleword", _line_not_altered, False),
    (access, "_write_doubleword", _no_cycles, False),
    (access, "_write_doubleword", _old_data_in_records, False),
    (memory, "read_only", _ends_a_line_early, True),
    (memory, "read_only", _ends_a_line_late, True),
    (memory, "read_only", _begins_a_line_late, True),
    (memory, "read_only", _first_range_only, True),
    (ranges, "kept", _seven_ranges, False),
    (refusal, "kept", _seven_ranges, False),
    (refusal, "kept", _all_places, False),
    (access, "write", _by_first_byte, True),
    (steps, "reset", _reset_forgets, True),
    (steps, "flush", _flush_forgets, True),
    (steps, "control", _control_forgets, True),
    (ranges, "set_anew", _added, False),
    (ranges, "set_anew", _unused_places_stay, False),
    (access, "set_ranges", _set_though_refused, True),
    (refusal, "ranges_number", _38_before_37, False),
    (refusal, "kept_ranges_number", _38_before_37_of_kept, False),
    (refusal, "ranges_number", _nine_taken, False),
    (refusal, "range_number", _empty_taken, False),
    (refusal, "range_number", _any_start_taken, False),
    (refusal, "range_number", _any_length_taken, False),
    (refusal, "range_number", _sum_of_32_bits, False),
    (refusal, "range_number", _a_line_beyond_ram, False),
    (refusal, "range_number", _ram_less_a_line, False),
    (refusal, "kept_ranges_number", _never_tested, False),
    (access, "write", _ranges_first(_write), False),
    (access, "external_write", _ranges_first(_external_write), False),
    (access, "read_carrying", _ranges_first(_read_carrying), False),
    (access, "view_number", _view_tests_ranges_first, False),
    (access, "external_write", _states_first, False),
]


def altered_models() -> None:
    for owner, name, altered, seen in ALTERED:
        with patch.object(owner, name, altered):
            told = tells(read_only.readings), tells(read_only_script)
            lists = seen and tells(lambda: run_lists(ListWithRanges, LISTS), Disagreement)
        what = f"{name}: {altered.__name__}"
        check(f"{what}: readings and script tell", told, (True, True))
        check(f"{what}: lists tell", lists, seen)
