"""Sentences of document 01 that could be read in two ways, each with an input that tells."""

from collections.abc import Callable

from unit486_model import access, board, events, memory, refusal
from unit486_model import directory as steps
from unit486_model.access import Part, Result
from unit486_model.bus import ANSWERS, GROUP
from unit486_model.directory import WAYS, line_index
from unit486_model.events import Unit

from .unit_calls import (
    ALL_KEN,
    NO_KEN,
    address_flags,
    answers_of,
    check,
    external,
    flags,
    held,
    number_with_ram,
    read,
    snapshot,
    store_line,
    unit_of,
    view,
    write,
)


def control_on_a_held_line() -> None:
    """Why no accepted control call of a compared list may set NW."""
    unit = unit_of()
    read(unit, 0, 4)
    check("control 1 1", access.control(unit.directory, True, True), Result(0))
    before = bytes(unit.ram)
    check("write stays inside", write(unit, 0, 1, 5), Result(0))
    check("RAM stays", bytes(unit.ram), before)
    check("external", external(unit, 1, b"\xaa"), Result(0))
    check("stale hit", read(unit, 1, 1).value, before[1])


def refusal_examples() -> None:
    small = unit_of(16)
    check("external past RAM", external(small, 16, b"a").number, 10)
    check("external empty past RAM", external(small, 99, b"").number, 10)
    check("external of 16", external(small, 0, bytes(16)).number, 0)
    check("external of 17", external(unit_of(), 0, bytes(17)).number, 10)
    check("external across lines", external(unit_of(), 15, b"ab").number, 10)
    check("snoop anywhere", access.snoop(steps.first(), 4294967295).number, 0)
    check("sum does not wrap", read(small, 4294967295, 4).number, 5)
    check("up to the end", (read(small, 12, 4).number, read(small, 13, 4).number), (0, 5))
    check("width before address", read(small, 99, 0).number, 4)
    check("width before value", write(small, 0, 4294967295, 4294967295).number, 4)
    check("view at the end", (view(small, 15)[0], view(small, 16)[0]), (0, 5))
    for length, number in ((0, 1), (15, 1), (16, 0), (24, 1), (32, 0)):
        check(f"RAM {length}", number_with_ram(length), number)
    check("most RAM", number_with_ram(memory.RAM_MOST), 0)
    check("above it", refusal.ram_number(memory.RAM_MOST + 16), 1)
    for value, width, number in ((255, 1, 0), (256, 1, 8), (65535, 2, 0), (65536, 2, 8)):
        check(f"value {value}", write(unit_of(), 0, width, value).number, number)
    check("any 32-bit value", write(unit_of(), 0, 4, 4294967295).number, 0)
    _length_and_answer_numbers()
    directory = steps.first()
    directory.cd, directory.nw = False, True
    check("pair already held", access.control(directory, False, True).number, 9)


def _length_and_answer_numbers() -> None:
    unit = unit_of()
    read(unit, 0, 4)
    high_upper = [1] * (ANSWERS - 1) + [8]
    for answers in (ALL_KEN[1:], [*ALL_KEN, 1], [], high_upper):
        check("answers, also for a hit", read(unit, 0, 4, answers).number, 6)
    check("answers before log", read(unit, 0, 4, [], log=[]).number, 6)
    check("log before value", write(unit, 0, 1, 256, log=[0] * 143).number, 7)
    check("log, also for a hit", read(unit, 0, 4, log=[0] * 143).number, 7)
    unit.directory.cd = unit.directory.nw = True
    check("log, also for a hit inside", write(unit, 0, 4, 1, log=[0] * 143).number, 7)
    unit.parity.pop()
    check("parity length", read(unit, 0, 4).number, 2)
    check("parity before external", external(unit, 0, b"").number, 2)
    check("view has no parity", view(unit, 0)[0], 0)
    unit.data.pop()
    check("parity before data", read(unit, 0, 3).number, 2)
    check("view's data array", view(unit, 99999), (3, Part("ram", 0, 0)))
    unit.ram.pop()
    check("RAM before all", read(unit, 0, 3).number, 1)
    check("external has no data array", external(unit_of(), 0, b"a").number, 0)


def state_examples() -> None:
    unit = unit_of()
    store_line(unit, 5, 0, 7)
    store_line(unit, 5, 3, 7)
    address = 3 * 2048 + 5 * 16
    asked: list[tuple[str, Callable[[], int]]] = [
        ("read", lambda: read(unit, address, 4).number),
        ("write", lambda: write(unit, address, 4, 1).number),
        ("external", lambda: external(unit, address, b"a").number),
        ("snoop", lambda: access.snoop(unit.directory, address).number),
        ("view", lambda: view(unit, address)[0]),
    ]
    for call, number in asked:
        check(f"{call}: any two equal tags", number(), 21)
    unit.directory.nw = unit.directory.cd = True
    for call, number in asked:
        check(f"{call}: with NW = 1 too", number(), 21)
    check("refused view", view(unit, address)[1], Part("ram", 0, 0))
    unit.directory.valid[line_index(5, 3)] = False
    check("stale tags do not count", view(unit, address)[0], 0)
    _order_of_state_numbers()


def _order_of_state_numbers() -> None:
    unit = unit_of()
    store_line(unit, 1, 0, 9)
    store_line(unit, 1, 1, 9)
    unit.directory.lru[0] = 9
    check("lower set all through", read(unit, 14, 4).number, 23)
    unit.directory.lru[0] = 0
    check("then the next", read(unit, 14, 4).number, 21)
    before = snapshot(unit)
    check("write crossing into it", write(unit, 14, 4, 1).number, 21)
    check("nothing changed", snapshot(unit), before)
    unit = unit_of()
    unit.directory.lru[127], unit.directory.lru[0] = 9, 8
    store_line(unit, 0, 0, 2097152)
    check("set 127 before set 0", read(unit, 0x7FE, 4).number, 23)
    unit.directory.lru[127] = 7
    check("set 0 after set 127", read(unit, 0x7FE, 4).number, 22)
    check("one line, one set", read(unit, 0x7FC, 4).number, 0)
    store_line(unit, 0, 1, 2097152)
    check("21 before 22", read(unit, 0, 4).number, 21)


def lines_beyond_ram() -> None:
    """They are legal, are victims, and are dropped by snoops."""
    unit = unit_of(32)
    for way in range(WAYS):
        store_line(unit, 0, way, 2097151 - way)
    check("fill", read(unit, 0, 4).cycles, 4)
    check("its victim", held(unit, 0), 0)
    check("snoop", access.snoop(unit.directory, (2097151 - 1) * 2048 + 3).number, 0)
    check("dropped", unit.directory.valid[:WAYS], [True, False, True, True])


def invalidate_step() -> None:
    """The plain step on a set that the call would refuse: the lowest match alone goes."""
    unit = unit_of()
    store_line(unit, 3, 1, 6)
    store_line(unit, 3, 2, 6)
    steps.invalidate(unit.directory, 6 * 2048 + 3 * 16)
    got = [unit.directory.valid[line_index(3, way)] for way in range(WAYS)]
    check("lowest match", got, [False, False, True, False])
    check("bits of a number above 7", steps.lru_after(8 + 4, 0), 7)


def uses() -> None:
    """What is a use of the line at 0 and what leaves the LRU number alone."""
    unit = unit_of()
    read(unit, 0, 4)
    read(unit, 0x800, 4)
    check("after two fills", unit.directory.lru[0], 1)
    view(unit, 0)
    write(unit, 0x1000, 4, 1)
    read(unit, 0x1000, 4, NO_KEN)
    read(unit, 0x1000, 4, pcd=True)
    read(unit, 0x1000, 4, answers_of([1, 0]))
    check("no uses", unit.directory.lru[0], 1)
    write(unit, 0, 4, 1)
    check("write hit", unit.directory.lru[0], 3)
    read(unit, 0x800, 1)
    check("read hit", unit.directory.lru[0], 1)
    unit.directory.cd = unit.directory.nw = True
    write(unit, 0, 4, 1)
    check("write hit inside", unit.directory.lru[0], 3)


def cycle_examples() -> None:
    check("KEN# late", flags(read(unit_of(), 0, 4, answers_of([2, 3]))), [1, 2, 4, 72])
    check("byte 0 first", flags(read(unit_of(), 3, 1, [3] * ANSWERS))[0], 33)
    check("low half first", flags(read(unit_of(), 3, 1, [5] * ANSWERS))[0], 35)
    unit = unit_of()
    result = read(unit, 2, 4, answers_of([1, 0], [1]))
    addresses = [record.address for record in result.records]
    check("dropped, then its own fill", addresses, [0, 4, 8, 12, 4, 0, 12, 8])
    check("64 once per fill", flags(result), [47, 47, 47, 111] * 2)
    check("second kept", (held(unit, 0), result.value), (0, _value(unit, 2, 4)))
    result = read(unit_of(), 2, 4, answers_of([1], [2]))
    check("kept, then a hit", address_flags(result), [(0, 47), (4, 47), (8, 47), (12, 111)])
    unit = unit_of()
    read(unit, 0, 4)
    result = read(unit, 14, 4, answers_of([1], [4, 2]))
    check("upper alone misses", address_flags(result), [(16, 67)])
    check("both halves' value", result.value, _value(unit, 14, 4))
    result = read(unit, 30, 4, answers_of([6], [1]))
    check("each line its own", flags(result), [4, 72, 47, 47, 47, 111])
    check("KEN# means nothing to a write", flags(write(unit_of(), 0, 4, 1)), [95])
    result = write(unit_of(), 1, 2, 0xBBAA, [4] * ANSWERS)
    check("lanes of a write", [r.word for r in result.records], [0xAA00, 0xBB0000])
    log = list(range(100, 300))
    result = read(unit_of(), 0, 2, [2] * ANSWERS, log=log)
    words = [word for record in result.records for word in record]
    check("log", log, words + list(range(106, 300)))


def _value(unit: Unit, address: int, width: int) -> int:
    return int.from_bytes(unit.ram[address : address + width], "little")


def inside_and_through() -> None:
    """CD = NW = 1 is judged by doubleword: a hit below, a miss above."""
    unit = unit_of()
    read(unit, 0, 4)
    unit.directory.cd = unit.directory.nw = True
    unit.parity[3] |= 0xF0
    before, parity = bytes(unit.ram), unit.parity[3]
    check("write", address_flags(write(unit, 14, 4, 0xDDCCBBAA, NO_KEN)), [(16, 83)])
    check("lower RAM stays", unit.ram[:16], before[:16])
    check("lower parity stays", unit.parity[3], parity)
    check("array", unit.data[14:16], b"\xaa\xbb")
    check("upper RAM", unit.ram[16:18], b"\xcc\xdd")


def parity_examples() -> None:
    unit = unit_of()
    unit.parity[0] = 0xFF
    check("one byte", write(unit, 0, 1, 0).number, 0)
    check("upper four cleared", unit.parity[0], 0x0E)
    unit.parity[1] ^= 2
    wrong = memory.parity_for(unit.ram)[1] ^ 2
    check("a fault", unit.parity[1], wrong)
    check("unmoved lane", flags(read(unit, 4, 1, NO_KEN)), [65])
    check("moved lane", flags(read(unit, 5, 1, NO_KEN)), [194])
    check("by byte", flags(read(unit, 4, 4, [2] * ANSWERS)), [1, 130, 4, 72])
    unit.parity[0] = memory.parity_for(unit.ram)[0]
    unit.parity[2] ^= 1
    result = read(unit, 0, 4)
    check("in a fill", flags(result), [47, 175, 175, 111])
    check("kept all the same", (held(unit, 0), unit.data[:16]), (0, unit.ram[:16]))
    check("hits say nothing", read(unit, 4, 4).records, ())
    check("writes say nothing", flags(write(unit, 8, 2, 0, NO_KEN)), [83])
    unit.parity[4] = memory.parity_for(unit.ram)[4] | 0xF0
    check("upper four ignored", flags(read(unit, 16, 4, NO_KEN)), [79])


def view_examples() -> None:
    unit = unit_of()
    check("in RAM", view(unit, 0x81B), (0, Part("ram", 0x810, 16)))
    read(unit, 0x810, 4)
    start = steps.data_offset(1, 0)
    check("held", view(unit, 0x81B), (0, Part("data", start, 16)))
    unit.ram.append(0)
    check("ill-sized RAM", view(unit, 0), (1, Part("ram", 0, 0)))


def board_examples() -> None:
    def pair(address: int, width: int) -> tuple[int, int]:
        given = board.answers(board.TABLE, address, width)
        lowest, second = given[0], given[GROUP]
        check("answers", given, [lowest] * GROUP + [second] * GROUP + [lowest] * GROUP)
        return lowest, second

    check("FFFFE", pair(0xFFFFE, 4), (1, 1))
    check("7FFFFE", pair(0x7FFFFE, 4), (1, 5))
    check("7FFFFE, two bytes", pair(0x7FFFFE, 2), (1, 1))
    check("bad width", pair(0x7FFFFE, 3), (1, 1))
    check("over the top", pair(0xFFFFFFFD, 4), (3, 1))
    by_block = [board.answers(board.TABLE, block << 20, 4)[0] for block in range(32)]
    check("table", by_block, [1] * 8 + [5] * 4 + [4, 4, 2, 3] + [1] * 8 + [5] * 4 + [4, 4, 2, 3])


# One line each: the row's answer after C 0 0.
LINE_ANSWERS = [
    (b"", 11),
    (b"\r", 11),
    (b"F\r", 11),
    (b"F\t", 11),
    (b"F ", 11),
    (b"f", 11),
    (b"Q", 11),
    (b"S", 11),
    (b"S\t\t0", 11),
    (b"S\t0\x00", 11),
    (b"S\t+1", 11),
    (b"S\t 1", 11),
    (b"S\t\xd9\xa1", 11),
    (b"S\t0000000007", 0),
    (b"S\t00000000007", 11),
    (b"S\t4294967295", 0),
    (b"S\t4294967296", 11),
    (b"R\t0\t3\t0", 4),
    (b"R\t0\t4294967295\t0", 4),
    (b"R\t0\t4\t00", 11),
    (b"R\t0\t4\t2", 11),
    (b"R\t0\t4\t", 11),
    (b"R\t0\t4", 11),
    (b"R\t65532\t4\t1", 0),
    (b"R\t65533\t4\t1", 5),
    (b"W\t0\t1\t256", 8),
    (b"C\t0\t1", 9),
    (b"C\t1", 11),
    (b"X\t0\t", 10),
    (b"X\t0", 11),
    (b"X\t0\tA", 11),
    (b"X\t0\taa", 11),
    (b"X\t0\t" + b"AA" * 16, 0),
    (b"X\t0\t" + b"AA" * 17, 10),
    (b"X\t0\t" + b"AA" * 38, 10),
    (b"X\t00\t" + b"AA" * 38, 11),
    (b"X\t65536\tAA", 10),
    (b"X\t65535\tAA", 0),
    (b"Z", 0),
    (b"A" * 80, 11),
    (b"A" * 81, 11),
]


def program_examples() -> None:
    header = events.HEADER
    check("empty input", events.run_program(b""), header)
    check("one newline", events.run_program(b"\n"), header + b"1\t11\t0\t0\n")
    check("two rows", events.run_program(b"Z\n\n"), header + b"1\t0\t0\t0\n2\t11\t0\t0\n")
    for line, answer in LINE_ANSWERS:
        last = events.run_program(b"C\t0\t0\n" + line + b"\n").splitlines()[2].split(b"\t")
        check(f"line {line!r}", last[:2], [b"2", b"%d" % answer])
        if answer:
            check("its zeros", last[2:], [b"0", b"0"])
    check("80 bytes", len(b"X\t0\t" + b"AA" * 38), 80)
    full = events.run_program(b"\n" * 65536)
    check("65,536 bytes", (full.count(b"\n"), len(full)), (65537, 840888))
    check("65,537 bytes", events.run_program(b"\n" * 65537), header + b"0\t12\t0\t0\n")
    text = b"C\t0\t0\nW\t0\t1\t9\nZ\nR\t0\t1\t0\n"
    check("Z keeps RAM", events.run_program(text).splitlines()[-1], b"4\t0\t9\t1")


def the_invalid_pair() -> None:
    """A directory that already holds CD = 0 and NW = 1 fills, writes through, never snoops."""
    unit = unit_of(nw=True)
    read(unit, 0, 4)
    check("fills", held(unit, 0), 0)
    check("writes through", flags(write(unit, 0, 4, 1, NO_KEN)), [95])
    external(unit, 0, b"\x09")
    check("snoops nothing", (unit.ram[0], read(unit, 0, 1).value), (9, 1))
    access.flush(unit.directory)
    check("flushes", held(unit, 0), None)


def readings() -> None:
    for group in (
        control_on_a_held_line,
        refusal_examples,
        state_examples,
        lines_beyond_ram,
        invalidate_step,
        uses,
        cycle_examples,
        inside_and_through,
        parity_examples,
        view_examples,
        board_examples,
        program_examples,
        the_invalid_pair,
    ):
        group()
