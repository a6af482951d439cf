"""21 to 23: in either touched set, their order, and accesses that cross from set to set."""

from collections.abc import Callable
from itertools import combinations, product

from unit486_model.access import Result
from unit486_model.bus import ANSWERS, KEN
from unit486_model.directory import LRU_LIMIT, TAG_LIMIT, WAYS, line_index

from checks.unit_calls import check

from .script_unit import directory_bytes
from .writer import Script

RAM_BYTES = 2064

# Lower and upper set of a crossing access, and the address of its first byte.
CROSSINGS = {(0, 1): 14, (127, 0): 0x7FD, (64, 65): 0x40D}


def states() -> Script:
    script = Script("states.txt")
    _every_call(script)
    _pairs_and_ways(script)
    _crossing_accesses(script)
    _order_in_a_set(script)
    _one_line_one_set(script)
    _lines_beyond_ram(script)
    _ended_by_reset(script)
    return script


def fault_21(script: Script, set_index: int) -> None:
    script.store_line(set_index, 1, 0x1234)
    script.store_line(set_index, 3, 0x1234)


def fault_22(script: Script, set_index: int) -> None:
    script.store_line(set_index, 2, TAG_LIMIT + 1)


def fault_23(script: Script, set_index: int) -> None:
    script.lru(set_index, LRU_LIMIT + 1)


FAULTS: dict[int, Callable[[Script, int], None]] = {21: fault_21, 22: fault_22, 23: fault_23}


def _refused(script: Script, result: Result, number: int, before: bytes) -> None:
    check("number", result, Result(number))
    check("the directory as given", directory_bytes(script.directory), before)


def _every_call(script: Script) -> None:
    """Reads, writes, external writes and snoops, in each mode; not flushes, control or reset. A
    flush ends all three, 23 by its LRU numbers of 0."""
    for number, (cd, nw) in product(FAULTS, product((False, True), repeat=2)):
        script.new(ram=RAM_BYTES, cd=cd, nw=nw)
        script.store_line(5, 0, 0)
        FAULTS[number](script, 5)
        before = directory_bytes(script.directory)
        for address in (0x50, 0x58):
            _refused(script, script.read(address, 4), number, before)
            _refused(script, script.write(address, 2, 77), number, before)
            _refused(script, script.external(address, b"\x01\x02"), number, before)
            _refused(script, script.snoop(address), number, before)
        check("another set", script.read(0x60, 4).number, 0)
        check("control", script.control(True, False), Result(0))
        check("flush", script.flush(), Result(0))
        check("ended", script.snoop(0x50), Result(0))
        check("reset", script.reset(), Result(0))
        check("at last", script.read(0x50, 4).number, 0)


def _pairs_and_ways(script: Script) -> None:
    """Every pair of ways for 21, every way for 22; invalid ways are exempt from both."""
    script.new(ram=RAM_BYTES, cd=False)
    for lower, upper in combinations(range(WAYS), 2):
        for way in (lower, upper):
            script.store_line(9, way, 0x77)
        check("21", script.read(0x94, 2), Result(21))
        script.mark(9, upper, False)
        check("stale", script.snoop(0x94), Result(0))
        script.mark(9, lower, False)
    for way in range(WAYS):
        script.store_line(9, way, TAG_LIMIT)
        check("the largest tag", script.snoop(0x94), Result(0))
        script.tag(9, way, 0xFFFFFFFF)
        check("22", script.write(0x94, 2, 5), Result(22))
        script.mark(9, way, False)
        check("an invalid way", script.snoop(0x94), Result(0))
    for lru in (LRU_LIMIT, LRU_LIMIT + 1, 255):
        script.lru(9, lru)
        check("23", script.snoop(0x94), Result(23 if lru > LRU_LIMIT else 0))


def _crossing_accesses(script: Script) -> None:
    """Every pair of faults, 0 for none: all of the lower set comes before the upper."""
    pairs = product((0, *FAULTS), repeat=2)
    for (sets, address), (lower, upper) in product(CROSSINGS.items(), pairs):
        script.new(ram=RAM_BYTES, cd=False)
        for set_index, number in zip(sets, (lower, upper)):
            if number:
                FAULTS[number](script, set_index)
        before = directory_bytes(script.directory)
        ram = bytes(script.unit.ram)
        for result in (script.read(address, 4), script.write(address, 4, 0xABCDEF01)):
            if lower or upper:
                _refused(script, result, lower or upper, before)
                check("RAM", bytes(script.unit.ram), ram)
            else:
                check("accepted", result.number, 0)
        # Each set by itself: the access that stays in one line sees the other set's fault no more.
        check("below", script.read(address - 2, 2).number, lower)
        check("above", script.write(address + 3, 1, 1).number, upper)


def _order_in_a_set(script: Script) -> None:
    for present in ((21, 22, 23), (21, 22), (21, 23), (22, 23)):
        script.new(ram=RAM_BYTES, cd=False)
        for number in present:
            FAULTS[number](script, 3)
        check("the lowest", script.read(0x30, 1), Result(min(present)))
        check("for a snoop too", script.snoop(0x3F), Result(min(present)))
    script.new(ram=RAM_BYTES, cd=False)
    for way in (0, 2):
        script.store_line(3, way, TAG_LIMIT + 1)
    check("equal tags above the limit", script.read(0x30, 1), Result(21))


def _one_line_one_set(script: Script) -> None:
    """A fill and an access that ends at the line's end touch no further set."""
    script.new(ram=RAM_BYTES, cd=False)
    for set_index in (1, 3):
        FAULTS[21](script, set_index)
    check("fill", script.read(0x2C, 4, [KEN] * ANSWERS).cycles, 4)
    check("at its start", script.external(0x20, bytes(range(16))), Result(0))
    check("across its end", script.read(0x2D, 4), Result(21))
    check("across its start", script.write(0x1E, 4, 1), Result(21))


def _lines_beyond_ram(script: Script) -> None:
    """Lines that lie beyond RAM are legal: they count as valid, are replaced, and are snooped."""
    for lru in range(LRU_LIMIT + 1):
        script.new(ram=32, cd=False)
        for way in range(WAYS):
            script.store_line(0, way, TAG_LIMIT - way)
        script.lru(0, lru)
        for address in (0, 4):
            script.read(address, 4)
        check("snoop", script.snoop(TAG_LIMIT * 2048 + 3), Result(0))
        check("gone", script.held(TAG_LIMIT * 2048), None)
        check("another set's", script.snoop(TAG_LIMIT * 2048 + 16), Result(0))
        check("RAM's line", script.directory.valid[line_index(1, 0)], False)


def _ended_by_reset(script: Script) -> None:
    for number, fault in FAULTS.items():
        script.new(ram=32, cd=False)
        fault(script, 1)
        check("number", script.read(0x10, 4), Result(number))
        check("reset", script.reset(), Result(0))
        check("ended", script.read(0x10, 4).number, 0)
