"""The rows that the program `directory_tables` must print.

A row has fields parted by a tab, numbers in decimal, and ends with a newline.
"""

import sys
from collections.abc import Callable, Iterator
from itertools import combinations

from unit486_model import access, refusal
from unit486_model import directory as steps
from unit486_model.directory import LRU_LIMIT, TAG_LIMIT, WAYS, Directory, line_index

Row = tuple[str | int, ...]

LRU_NUMBERS = range(LRU_LIMIT + 1)
PAIRS = [(False, False), (False, True), (True, False), (True, True)]

# The set asked in every row, and another one.
SET = 5
OTHER_SET = 6


def text_of(rows: Iterator[Row]) -> str:
    """Rows as the program prints them; a yes-or-no field prints as 0 or 1."""
    return "".join("\t".join(_field(field) for field in row) + "\n" for row in rows)


def _field(field: str | int) -> str:
    return field if isinstance(field, str) else str(int(field))


def directory_tables() -> str:
    """All that the program `directory_tables` must print."""
    return text_of(_directory_rows())


def _directory_rows() -> Iterator[Row]:
    yield from _lru_rows()
    yield from _fill_rows()
    yield from _victim_rows()
    yield from _control_rows()
    yield from _snoop_rows()
    yield from _state_rows()
    yield ("reset", *_sums(steps.first()))
    yield ("flush", *_sums(_flushed()))


def store_line(directory: Directory, set_index: int, way: int, tag: int) -> None:
    """Make one line valid without a use."""
    directory.tags[line_index(set_index, way)] = tag
    directory.valid[line_index(set_index, way)] = True


def full_set(set_index: int, tags: tuple[int, ...], lru: int) -> Directory:
    """A reset directory but for one set, whose ways are valid with these tags."""
    directory = steps.first()
    for way, tag in enumerate(tags):
        store_line(directory, set_index, way, tag)
    directory.lru[set_index] = lru
    return directory


def _lru_rows() -> Iterator[Row]:
    for lru in LRU_NUMBERS:
        after = [steps.lru_after(lru, way) for way in range(WAYS)]
        directory = full_set(SET, (10, 11, 12, 13), lru)
        yield ("lru", lru, *after, steps.victim(directory, SET))


def _fill_rows() -> Iterator[Row]:
    for lru in LRU_NUMBERS:
        directory = full_set(SET, (10, 11, 12, 13), lru)
        ways = [steps.fill(directory, tag * 2048 + SET * 16) for tag in (20, 21, 22, 23)]
        yield ("fills", lru, *ways, directory.lru[SET])


def _victim_rows() -> Iterator[Row]:
    for lru in LRU_NUMBERS:
        for mask in range(1 << WAYS):
            directory = full_set(SET, (10, 11, 12, 13), lru)
            for way in range(WAYS):
                directory.valid[line_index(SET, way)] = bool(mask >> way & 1)
            yield ("victim", lru, mask, steps.victim(directory, SET))


def _control_rows() -> Iterator[Row]:
    for cd, nw in PAIRS:
        directory = steps.first()
        number = access.control(directory, cd, nw).number
        yield ("control", cd, nw, number, directory.cd, directory.nw)


def _snoop_rows() -> Iterator[Row]:
    for cd, nw in PAIRS:
        directory = steps.first()
        directory.cd, directory.nw = cd, nw
        store_line(directory, SET, 1, 7)
        store_line(directory, SET, 2, 9)
        directory.lru[SET] = 3
        snooped, other = 7 * 2048 + SET * 16 + 11, 9 * 2048 + SET * 16
        number = access.snoop(directory, snooped).number
        held = [steps.lookup(directory, address) is not None for address in (snooped, other)]
        yield ("snoop", cd, nw, number, *held)


def good_directory() -> Directory:
    """The directory that the state rows change."""
    return full_set(SET, (10, 11, 12, 13), 3)


def _same_tag(directory: Directory, lower: int, upper: int, valid: bool) -> None:
    directory.tags[line_index(SET, upper)] = directory.tags[line_index(SET, lower)]
    directory.valid[line_index(SET, upper)] = valid


def _store_tag(directory: Directory, way: int, tag: int, valid: bool = True) -> None:
    directory.tags[line_index(SET, way)] = tag
    directory.valid[line_index(SET, way)] = valid


def _store_lru(directory: Directory, lru: int) -> None:
    directory.lru[SET] = lru


def _order_21(directory: Directory) -> None:
    _store_tag(directory, 0, TAG_LIMIT + 1)
    _store_tag(directory, 1, TAG_LIMIT + 1)
    _store_lru(directory, LRU_LIMIT + 1)


def _order_22(directory: Directory) -> None:
    _store_tag(directory, 3, TAG_LIMIT + 1)
    _store_lru(directory, LRU_LIMIT + 1)


def _other_set(directory: Directory) -> None:
    store_line(directory, OTHER_SET, 0, TAG_LIMIT + 1)
    store_line(directory, OTHER_SET, 1, TAG_LIMIT + 1)
    directory.lru[OTHER_SET] = LRU_LIMIT + 1


def _state_rows() -> Iterator[Row]:
    def asked(label: str, change: Callable[[Directory], None]) -> Row:
        directory = good_directory()
        change(directory)
        return ("state", label, refusal.states_number(directory, [SET]))

    yield asked("good", lambda directory: None)
    for i, j in combinations(range(WAYS), 2):
        yield asked(f"tag_{i}_{j}", lambda directory: _same_tag(directory, i, j, True))
    for i, j in combinations(range(WAYS), 2):
        yield asked(f"stale_{i}_{j}", lambda directory: _same_tag(directory, i, j, False))
    for i in range(WAYS):
        above = TAG_LIMIT + 1
        yield asked(f"limit_{i}", lambda directory: _store_tag(directory, i, TAG_LIMIT))
        yield asked(f"above_{i}", lambda directory: _store_tag(directory, i, above))
        yield asked(f"above_invalid_{i}", lambda directory: _store_tag(directory, i, above, False))
    yield asked("lru_7", lambda directory: _store_lru(directory, LRU_LIMIT))
    yield asked("lru_8", lambda directory: _store_lru(directory, LRU_LIMIT + 1))
    yield asked("order_21", _order_21)
    yield asked("order_22", _order_22)
    yield asked("other_set", _other_set)


def _sums(directory: Directory) -> Row:
    """Number of valid lines, sum of tags, sum of LRU numbers, CD, NW."""
    control_bits = (directory.cd, directory.nw)
    return (sum(directory.valid), sum(directory.tags), sum(directory.lru), *control_bits)


def _flushed() -> Directory:
    """Two sets with valid lines and LRU numbers above 0 before the flush, one of them the last."""
    directory = good_directory()
    directory.cd = directory.nw = False
    store_line(directory, 127, 3, 99)
    directory.lru[127] = 5
    access.flush(directory)
    return directory


def main(words: list[str]) -> int:
    if words:
        print("usage: tables.py", file=sys.stderr)
        return 2
    print(directory_tables(), end="")
    return 0


if __name__ == "__main__":
    sys.exit(main(sys.argv[1:]))
