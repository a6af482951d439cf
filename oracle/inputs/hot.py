"""Six lines and more of one set, so that lines are replaced in the order of their uses."""

from collections.abc import Iterator, Sequence
from itertools import permutations

from unit486_model.access import Result
from unit486_model.directory import LINE_BYTES, SETS, WAY_BYTES, WAYS

from checks.unit_calls import check
from checks.vectors import LRU_TABLE

from .writer import DONE, EventFile

HIT = Result(0)
FILL = Result(0, 0, 4)


def address_of(tag: int, set_index: int) -> int:
    return tag * WAY_BYTES + set_index * LINE_BYTES


def hot_file(name: str) -> EventFile:
    file = EventFile(f"hot-{name}")
    file.control(False, False)
    return file


def fill_set(file: EventFile, set_index: int) -> None:
    """Tags 0 to 3 in ways 0 to 3; the LRU number is then 0."""
    for tag in range(WAYS):
        check("fill", file.read(address_of(tag, set_index), 4), FILL)
        check("way", file.held(address_of(tag, set_index)), tag)


def use_way(file: EventFile, set_index: int, way: int, kind: int) -> None:
    """A hit of one of the kinds that are uses: reads with and without PCD, and writes."""
    address = address_of(way, set_index) + 3 * way
    if kind == 0:
        check("read hit", file.read(address, 1), HIT)
    elif kind == 1:
        check("read hit with PCD", file.read(address, 1, pcd=True), HIT)
    else:
        check("write hit", file.write(address, 1, 0), Result(0, 0, 1))


def number_after(uses: Sequence[int]) -> int:
    """The LRU number after these uses of a set that was at 0."""
    number = 0
    for way in uses:
        number = LRU_TABLE[number][0][way]
    return number


def order_files() -> Iterator[EventFile]:
    """Ways used in every order, then a fifth line: which of the four is gone."""
    for first in range(WAYS):
        file = hot_file(f"order-{first}")
        orders = [order for order in permutations(range(WAYS)) if order[0] == first]
        for set_index, order in enumerate(orders):
            fill_set(file, set_index)
            for way in order:
                use_way(file, set_index, way, (set_index + way) % 3)
            _fifth_line(file, set_index, LRU_TABLE[number_after(order)][1])
        yield file


def _fifth_line(file: EventFile, set_index: int, victim: int) -> None:
    check("fifth", file.read(address_of(4, set_index), 4), FILL)
    check("its way", file.held(address_of(4, set_index)), victim)
    others = [way for way in range(WAYS) if way != victim]
    for way in others:
        check("still held", file.read(address_of(way, set_index), 4), HIT)
    check("replaced", file.read(address_of(victim, set_index), 4), FILL)


def use_files() -> Iterator[EventFile]:
    """Each LRU number reached by uses, then four fills."""
    uses = {lru: _uses_to(lru) for lru in LRU_TABLE}
    for lru, (_, _, fills, after) in LRU_TABLE.items():
        file = hot_file(f"number-{lru}")
        for set_index in (0, 77, SETS - 1):
            fill_set(file, set_index)
            for way in uses[lru]:
                use_way(file, set_index, way, way % 3)
            check("number", file.unit.directory.lru[set_index], lru)
            for tag, way in enumerate(fills, start=WAYS):
                check("fill", file.read(address_of(tag, set_index) + 8, 4), FILL)
                check("way", file.held(address_of(tag, set_index)), way)
            check("number after", file.unit.directory.lru[set_index], after)
            for tag in range(WAYS, 2 * WAYS):
                check("held", file.read(address_of(tag, set_index), 4), HIT)
            for tag in range(WAYS):
                check("gone", file.held(address_of(tag, set_index)), None)
        yield file


def _uses_to(lru: int) -> tuple[int, ...]:
    """The first order of ways that leads from 0 to this number."""
    orders = [order for count in range(WAYS + 1) for order in permutations(range(WAYS), count)]
    return next(order for order in orders if number_after(order) == lru)


def round_files() -> Iterator[EventFile]:
    """Lines of one set in turn: four stay, five and more push one another out."""
    for count in (4, 5, 6, 7, 8, 16, 32):
        file = hot_file(f"round-{count}")
        for turn in range(3):
            for tag in range(count):
                result = file.read(address_of(tag, 5) + turn, 2)
                check("first turn fills", turn > 0 or result == FILL, True)
                check("four lines stay", count > WAYS or turn == 0 or result == HIT, True)
        yield file


def bench_file() -> EventFile:
    """The bench table's fills: ways 0, 1, 2, 3, 0, and 2 for the sixth."""
    file = hot_file("bench")
    addresses = (0, 0x800, 0x1000, 0x1800, 0x2000, 0x2800)
    for address, way in zip(addresses, (0, 1, 2, 3, 0, 2)):
        file.read(address, 4)
        check("way", file.held(address), way)
    for address in addresses:
        expected = FILL if file.held(address) is None else HIT
        check("read", file.read(address, 4), expected)
    return file


def invalid_way_file() -> EventFile:
    """Snooped lines leave ways that are taken before any victim, the lowest first."""
    file = hot_file("invalid-ways")
    gone = [ways for count in (1, 2, 3, 4) for ways in permutations(range(WAYS), count)]
    for set_index, ways in enumerate(gone[::3]):
        fill_set(file, set_index)
        for way in ways:
            file.snoop(address_of(way, set_index))
        for tag, way in enumerate(sorted(ways), start=WAYS):
            check("fill", file.read(address_of(tag, set_index), 4), FILL)
            check("lowest", file.held(address_of(tag, set_index)), way)
        for tag in range(WAYS + len(ways)):
            held = file.held(address_of(tag, set_index)) is not None
            if held:
                check("held", file.read(address_of(tag, set_index), 1), HIT)
    return file


def no_use_file() -> EventFile:
    """Misses that fill nothing, snoops of lines not held and refused accesses are no uses."""
    file = hot_file("no-uses")
    fill_set(file, 9)
    check("read hit", file.read(address_of(1, 9), 4), HIT)
    other = address_of(9, 9)
    check("PCD", file.read(other, 4, pcd=True), Result(0, 0, 1))
    check("write miss", file.write(other, 4, 0), Result(0, 0, 1))
    check("snoop of no line", file.snoop(other), DONE)
    check("external of no line", file.external(other, b"\0"), DONE)
    check("width 3", file.read(address_of(2, 9), 3), Result(4))
    check("value 256", file.write(address_of(3, 9), 1, 256), Result(8))
    check("malformed", file.line(b"R\t%d\t4\t2" % address_of(0, 9)), Result(11))
    _fifth_line(file, 9, LRU_TABLE[number_after([1])][1])
    return file


def hot_files() -> list[EventFile]:
    singles = [bench_file(), invalid_way_file(), no_use_file()]
    return [*singles, *order_files(), *use_files(), *round_files()]
