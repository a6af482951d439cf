"""The tables and examples of the sources, and document 01's bench table and program."""

import copy

from unit486_model import access, bus, events, memory
from unit486_model import directory as steps
from unit486_model.access import Result
from unit486_model.bus import ANSWERS, BS8, BS16, GROUP, KEN, WIDTHS
from unit486_model.directory import LINES, SETS, TAG_LIMIT, WAYS, Directory

from .unit_calls import (
    NO_KEN,
    address_flags,
    answers_of,
    check,
    flags,
    held,
    number_with_ram,
    read,
    snapshot,
    store_line,
    unit_of,
    write,
)

# --- the directory

# LRU number: after use of ways 0 to 3, victim of a full set, four fills, number after them.
LRU_TABLE = {
    0: ((3, 1, 4, 0), 0, (0, 2, 1, 3), 0),
    1: ((3, 1, 4, 0), 2, (2, 0, 3, 1), 1),
    2: ((3, 1, 6, 2), 1, (1, 2, 0, 3), 2),
    3: ((3, 1, 6, 2), 2, (2, 1, 3, 0), 3),
    4: ((7, 5, 4, 0), 0, (0, 3, 1, 2), 4),
    5: ((7, 5, 4, 0), 3, (3, 0, 2, 1), 5),
    6: ((7, 5, 6, 2), 1, (1, 3, 0, 2), 6),
    7: ((7, 5, 6, 2), 3, (3, 1, 2, 0), 7),
}


def lru_table() -> None:
    """Uses, victims and four kept fills by steps, and the fills again by reads."""
    for lru, (uses, victim, fills, after) in LRU_TABLE.items():
        got = tuple(steps.lru_after(lru, way) for way in range(WAYS))
        check(f"uses from {lru}", got, uses)
        unit = unit_of(0x6000)
        for way in range(WAYS):
            store_line(unit, 9, way, way)
        unit.directory.lru[9] = lru
        check(f"victim at {lru}", steps.victim(unit.directory, 9), victim)
        ways = []
        for tag in (4, 5, 6, 7):
            check("fill", read(unit, tag * 2048 + 9 * 16 + 4, 4).cycles, 4)
            ways.append(held(unit, tag * 2048 + 9 * 16))
        check(f"fills from {lru}", tuple(ways), fills)
        check(f"after the fills from {lru}", unit.directory.lru[9], after)


def lowest_invalid_way() -> None:
    for lru in range(8):
        for mask in range(15):
            directory = steps.first()
            directory.lru[0] = lru
            directory.valid[:WAYS] = [bool(mask >> way & 1) for way in range(WAYS)]
            lowest = next(way for way in range(WAYS) if not mask >> way & 1)
            check(f"victim of mask {mask}", steps.victim(directory, 0), lowest)


# CD, NW: a read miss may fill; a write hit goes to RAM; a snoop drops; a control call's number.
MODES = {
    (0, 0): (True, True, True, 0),
    (0, 1): (True, True, False, 9),
    (1, 0): (False, True, True, 0),
    (1, 1): (False, False, False, 0),
}


def modes() -> None:
    for (cd, nw), expected in MODES.items():
        fills, through, drops, number = expected
        unit = unit_of(cd=bool(cd), nw=bool(nw))
        check("read miss", read(unit, 0, 4).cycles, 4 if fills else 1)
        check("held after a miss", held(unit, 0) is not None, fills)
        _mode_of_a_held_line(bool(cd), bool(nw), through, drops)
        directory = steps.first()
        check("control", access.control(directory, bool(cd), bool(nw)).number, number)
        pair = (True, True) if number else (bool(cd), bool(nw))
        check("control's pair", (directory.cd, directory.nw), pair)


def _mode_of_a_held_line(cd: bool, nw: bool, through: bool, drops: bool) -> None:
    """Hits, misses, snoops and flushes where the line at 0 is held in way 0."""
    unit = unit_of()
    read(unit, 0, 4)
    unit.directory.cd, unit.directory.nw = cd, nw
    for pcd in (False, True):
        check("read hit", read(unit, 0, 4, pcd=pcd).cycles, 0)
    before = unit.ram[0]
    check("write hit", write(unit, 0, 1, 250).cycles, 1 if through else 0)
    check("write hit in RAM", unit.ram[0], 250 if through else before)
    check("write hit in the array", unit.data[0], 250)
    check("write miss", write(unit, 64, 1, 250).cycles, 1)
    check("write miss in RAM", (unit.ram[64], held(unit, 64)), (250, None))
    # "Use of way 0 sets B0 and B1".
    check("LRU number", unit.directory.lru[0], 3)
    flushed = copy.deepcopy(unit)
    access.flush(flushed.directory)
    check("flush", (held(flushed, 0), flushed.directory.lru[0]), (None, 0))
    access.snoop(unit.directory, 15)
    check("snoop drops", held(unit, 0) is None, drops)


def flushes() -> None:
    """C-14: "The data sheet zeroes the 128 LRU numbers on a flush as on reset". Every set at once,
    from each LRU number and from some above 7, in each mode; tags, CD and NW stay."""
    tags = [TAG_LIMIT - line for line in range(LINES)]
    for cd, nw in MODES:
        for lru in (*LRU_TABLE, 8, 255):
            given = Directory(list(tags), [True] * LINES, [lru] * SETS, bool(cd), bool(nw))
            check("flush", access.flush(given), Result(0))
            flushed = Directory(tags, [False] * LINES, [0] * SETS, bool(cd), bool(nw))
            check(f"flushed from {lru}", given, flushed)


# --- sizing

# Tables 3-10/7-1 and 3-11/7-2. BE3-0#: (moved, rest) with no BS#, with BS16#, with BS8#.
SIZING = {
    "1110": ((1, 0), (1, 0), (1, 0)),
    "1100": ((3, 0), (3, 0), (1, 2)),
    "1000": ((7, 0), (3, 4), (1, 6)),
    "0000": ((15, 0), (3, 12), (1, 14)),
    "1101": ((2, 0), (2, 0), (2, 0)),
    "1001": ((6, 0), (2, 4), (2, 4)),
    "0001": ((14, 0), (2, 12), (2, 12)),
    "1011": ((4, 0), (4, 0), (4, 0)),
    "0011": ((12, 0), (12, 0), (4, 8)),
    "0111": ((8, 0), (8, 0), (8, 0)),
}


def sizing_tables() -> None:
    for enables, (no_size, half, byte) in SIZING.items():
        wanted = 15 - int(enables, 2)
        sizes = {0: no_size, BS16: half, BS8: byte, BS8 + BS16: byte}
        for size, expected in sizes.items():
            for ken in (0, KEN):
                moved = bus.moved(wanted, size + ken)
                check(f"{enables} answer {size + ken}", (moved, wanted - moved), expected)


# Width, offset: flags by doubleword with constant answers 0, 4 (BS16#) and 2 or 6 (BS8#).
FLAG_TABLE = {
    (1, 0): ("65", "65", "65"),
    (1, 1): ("66", "66", "66"),
    (1, 2): ("68", "68", "68"),
    (1, 3): ("72", "72", "72"),
    (2, 0): ("67", "67", "1,66"),
    (2, 1): ("70", "2,68", "2,68"),
    (2, 2): ("76", "76", "4,72"),
    (2, 3): ("72|65", "72|65", "72|65"),
    (4, 0): ("79", "3,76", "1,2,4,72"),
    (4, 1): ("78|65", "2,76|65", "2,4,72|65"),
    (4, 2): ("76|67", "76|67", "4,72|1,66"),
    (4, 3): ("72|71", "72|3,68", "72|1,2,68"),
    (8, 0): ("79|79", "3,76|3,76", "1,2,4,72|1,2,4,72"),
    (8, 1): ("78|79|65", "2,76|3,76|65", "2,4,72|1,2,4,72|65"),
    (8, 2): ("76|79|67", "76|3,76|67", "4,72|1,2,4,72|1,66"),
    (8, 3): ("72|79|71", "72|3,76|3,68", "72|1,2,4,72|1,2,68"),
}


def flag_table() -> None:
    """Each row by the bus's cycles, by reads and by writes. It has a row for each width that a call
    accepts, at each offset in a doubleword."""
    check("rows", list(FLAG_TABLE), [(width, offset) for width in WIDTHS for offset in range(4)])
    for (width, offset), columns in FLAG_TABLE.items():
        for answer, column in ((0, 0), (BS16, 1), (BS8, 2), (BS8 + BS16, 2)):
            parts = [[int(flag) for flag in part.split(",")] for part in columns[column].split("|")]
            check(f"cycles {width} at {offset}", _bus_flags(offset, width, answer), parts)
            _flags_of_calls(width, offset, answer, parts)


def _bus_flags(offset: int, width: int, answer: int) -> list[list[int]]:
    parts = []
    for doubleword in bus.doublewords(offset, width):
        made = bus.plain_cycles(doubleword, [answer] * GROUP)
        parts.append([bus.flags(made, index, 0) for index in range(len(made))])
    return parts


def _flags_of_calls(width: int, offset: int, answer: int, parts: list[list[int]]) -> None:
    expected = [(4 * index, flag) for index, part in enumerate(parts) for flag in part]
    unit = unit_of()
    result = read(unit, offset, width, [answer] * ANSWERS)
    check(f"read {width} at {offset} answer {answer}", address_flags(result), expected)
    check("value", result.value, int.from_bytes(unit.ram[offset : offset + width], "little"))
    for record in result.records:
        lanes = memory.read_lanes(unit.ram, record.address, record.flags & 15)
        check("word", record.word, lanes)
    written = write(unit, offset, width, 256**width - 1, [answer] * ANSWERS)
    expected = [(address, flag + 16) for address, flag in expected]
    check(f"write {width} at {offset} answer {answer}", address_flags(written), expected)
    check("bytes", unit.ram[offset : offset + width], b"\xff" * width)


def sizing_examples() -> None:
    """Examples printed in the sources, and the byte sets left over inside a fill."""
    mixed = [BS8, BS8, BS16, 0]
    check("BS8 BS8 BS16", flags(read(unit_of(), 0, 4, answers_of(mixed))), [1, 2, 76])
    lower = flags(read(unit_of(), 1, 4, answers_of([BS8])))[:-1]
    check("24 bits under BS8", lower, [2, 4, 72])
    for offset, transfers in ((0, 2), (1, 3), (2, 2), (3, 3)):
        result = read(unit_of(), offset, 4, [BS16] * ANSWERS)
        check(f"32 bits under BS16 at {offset}", result.cycles, transfers)
    left = {15}
    while True:
        more = {wanted - bus.moved(wanted, answer) for wanted in left for answer in range(8)}
        if more <= left | {0}:
            break
        left |= more - {0}
    check("byte sets inside a fill", left, {15, 14, 12, 8})


# --- fills


# Table 3-9, which is table 6-2 and table 8-1 too: First, Second, Third, Fourth Address.
BURST_TABLE = ("0 4 8 C", "4 0 C 8", "8 C 0 4", "C 8 4 0")


def burst_order() -> None:
    """Table 3-9, and C-13: "each case is its start exclusive-or 0, 4, 8 and 12 in turn"."""
    for line in BURST_TABLE:
        order = tuple(int(offset, 16) for offset in line.split())
        check(f"order from {order[0]}", bus.BURST_ORDER[order[0]], order)
        check("exclusive or", order, tuple(order[0] ^ offset for offset in (0, 4, 8, 12)))


# Address, answers of the lower group, records' addresses and flags.
FILL_VECTORS = [
    (0x104, [1], [(0x104, 47), (0x100, 47), (0x10C, 47), (0x108, 111)]),
    (
        0x104,
        [5],
        [(0x104, 35), (0x104, 44), (0x100, 35), (0x100, 44)]
        + [(0x10C, 35), (0x10C, 44), (0x108, 35), (0x108, 108)],
    ),
    (
        0,
        [3],
        [(4 * index, flag) for index in range(3) for flag in (33, 34, 36, 40)]
        + [(12, 33), (12, 34), (12, 36), (12, 104)],
    ),
    (
        0,
        [1, 1, 1, 3],
        [(0, 47), (4, 47), (8, 47), (12, 33), (12, 34), (12, 36), (12, 104)],
    ),
    (8, [3, 1], [(8, 33), (8, 46), (12, 47), (0, 47), (4, 111)]),
]


def fill_vectors() -> None:
    """The records, and that the last cycle's KEN#, first and last alone, decides."""
    for address, group, expected in FILL_VECTORS:
        unit = unit_of()
        result = read(unit, address, 4, answers_of(group))
        check(f"fill from {address:x}", address_flags(result), expected)
        check("kept", held(unit, address), 0)
        line = steps.line_address(address)
        start = steps.data_offset(steps.set_of(address), 0)
        check("line", unit.data[start : start + 16], unit.ram[line : line + 16])
        _only_first_and_last_matter(address, group, len(expected) - 1)


def _only_first_and_last_matter(address: int, group: list[int], last: int) -> None:
    sizes = [answer & ~KEN for answer in answers_of(group)]
    for first_ken in (0, KEN):
        for last_ken in (0, KEN):
            given = list(sizes)
            given[0] |= first_ken
            given[last] |= last_ken
            unit = unit_of()
            before = snapshot(unit)
            result = read(unit, address, 4, given)
            kept = bool(first_ken and last_ken)
            check("fill made", bool(result.records[0].flags & 32), bool(first_ken))
            check("fill kept", held(unit, address) is not None, kept)
            if not kept:
                check("dropped", snapshot(unit), before)


# --- document 01's own tables


def bench_table() -> None:
    check("32-bit write at 0", flags(write(unit_of(), 0, 4, 1, NO_KEN)), [95])
    fill = read(unit_of(), 4, 4)
    check("fill from 4", address_flags(fill), [(4, 47), (0, 47), (12, 47), (8, 111)])
    check("two at 3", address_flags(read(unit_of(), 3, 2, NO_KEN)), [(0, 72), (4, 65)])
    check("two at 1, BS16#", flags(read(unit_of(), 1, 2, [4] * ANSWERS)), [2, 68])
    check("two at 0, answer 6", flags(read(unit_of(), 0, 2, [6] * ANSWERS)), [1, 66])
    check("fill under BS8#", read(unit_of(), 0, 4, [3] * ANSWERS).cycles, 16)
    unit = unit_of()
    ways = []
    for address in (0, 0x800, 0x1000, 0x1800, 0x2000, 0x2800):
        read(unit, address, 4)
        ways.append(held(unit, address))
    check("ways", ways, [0, 1, 2, 3, 0, 2])
    unit = unit_of()
    check("KEN# first only", read(unit, 0, 4, answers_of([1, 0])).cycles, 4)
    check("nothing held", any(unit.directory.valid), False)
    check("width 3", read(unit_of(), 0, 3), Result(4))
    check("RAM 16", read(unit_of(16), 0, 4).number, 0)
    check("RAM 15", number_with_ram(15), 1)
    # C-15: "the bench table's log cases become 144 and 143".
    check("log 144", read(unit_of(), 0, 4, log=[0] * 144).number, 0)
    check("log 143", read(unit_of(), 0, 4, log=[0] * 143), Result(7))


PROGRAM_INPUT = (
    b"C\t0\t0\nW\t0\t4\t287454020\nR\t1\t2\t0\nR\t0\t4\t0\nX\t2\tAA\nR\t2\t1\t0\nR\t65534\t4\t0"
)
PROGRAM_OUTPUT = b"""event\tanswer\tvalue\tcycles
1\t0\t0\t0
2\t0\t0\t1
3\t0\t8755\t4
4\t0\t287454020\t0
5\t0\t0\t0
6\t0\t170\t4
7\t5\t0\t0
"""


def program_start() -> None:
    """Rule: "65,536 zero RAM bytes, zero parity, a zero data array, a reset directory"."""
    unit = events.program_unit()
    check("RAM", bytes(unit.ram), bytes(65_536))
    check("parity", bytes(unit.parity), bytes(16_384))
    check("data array", bytes(unit.data), bytes(8192))
    check("directory", unit.directory, steps.first())
    check("header", events.HEADER, b"event\tanswer\tvalue\tcycles\n")
    check("empty input", events.run_program(b""), events.HEADER)
    check("number 12", events.run_program(bytes(65_537)), events.HEADER + b"0\t12\t0\t0\n")


def program_example() -> None:
    check("without a last newline", events.run_program(PROGRAM_INPUT), PROGRAM_OUTPUT)
    check("with it", events.run_program(PROGRAM_INPUT + b"\n"), PROGRAM_OUTPUT)
