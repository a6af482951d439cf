"""Sentences of document 02's request C-16 that could be read in two ways, each with an input that
tells."""

from collections.abc import Sequence
from itertools import combinations, product

from scripts.random_source import RandomSource
from table_texts import accesses
from table_texts.faults import BAD
from table_texts.writer import JUNK, REFUSED, table_line, table_lines, text_of, with_lines
from unit486_model import block_table, board, events
from unit486_model.board import BLOCKS, TABLE
from unit486_model.bus import GROUP

from .unit_calls import check

# Tables that may be in force: ours, and one above what a board can answer.
GIVEN = (TABLE, JUNK)
EVERY_PLACE = range(BLOCKS)
# Blocks of one digit and of two.
SOME_PLACES = (0, 5, 10, BLOCKS - 1)


def _number(lines: Sequence[bytes]) -> int:
    """The number of a table of these lines, which must not depend on the last newline; a refused
    one leaves each given table."""
    numbers = set[int]()
    for given, last_newline in product(GIVEN, (True, False)):
        table, number = block_table.load(given, text_of(lines, last_newline))
        check("left as given", number == 0 or table == given, True)
        numbers.add(number)
    check("one number", len(numbers), 1)
    return numbers.pop()


# --- a table that is loaded


def loaded_as_printed() -> None:
    """ "gives each block exactly the answer on its line": a printed table loads as itself,
    whichever was in force."""
    source = RandomSource("printed tables")
    tables = [(answer,) * BLOCKS for answer in range(8)]
    tables += [(0,) * block + (7,) + (0,) * (BLOCKS - 1 - block) for block in EVERY_PLACE]
    tables += [tuple(source.below(8) for _ in EVERY_PLACE) for _ in range(30)]
    for table, given, last_newline in product((*tables, TABLE), GIVEN, (True, False)):
        text = text_of(table_lines(table), last_newline)
        check(f"printed {table}", block_table.load(given, text), (table, 0))
    paper = (1, 1, 1, 1, 1, 1, 1, 1, 5, 5, 5, 5, 4, 4, 2, 3)
    check("ours", block_table.load(JUNK, text_of(table_lines(paper))), (TABLE, 0))


def each_block() -> None:
    """The board takes each block's answer from its own line."""
    table = (7, 6, 5, 4, 3, 2, 1, 0, 0, 2, 4, 6, 1, 3, 5, 7)
    loaded = block_table.load(TABLE, text_of(table_lines(table))).table
    for block in range(2 * BLOCKS):
        answer = table[block % BLOCKS]
        for address, width in ((block << 20, 4), ((block << 20) + 0xFFFF8, 8)):
            check(f"block {block}", board.answers(loaded, address, width), [answer] * 48)
        second = table[(block + 1) % BLOCKS]
        crossing = [answer] * GROUP + [second] * (2 * GROUP)
        last = ((block + 1) << 20) - 3
        check(f"across {block}", board.answers(loaded, last, 8), crossing)
    check("above 7 too", board.answers(JUNK, 15 << 20, 4), [240] * 48)


def in_force() -> None:
    """ "hands back the table in force; the run over event lines takes it, and the program itself
    uses ours"."""
    lines = accesses.text()
    for answer in range(8):
        table = block_table.load(TABLE, text_of(table_lines([answer, *REFUSED[1:]]))).table
        check(f"run with {answer}", events.run(table, lines), accesses.rows(answer))
        left = block_table.load(table, b"0\t1\n").table
        check(f"run with {answer} left", events.run(left, lines), accesses.rows(answer))
    left = block_table.load(JUNK, b"").table
    check("run with junk left", events.run(left, lines), accesses.rows(JUNK[0]))
    check("program", events.run_program(lines), accesses.rows(1))


# --- lines


# "written as the program's": B and A stand for the block and answer of the line's place.
LINES = (
    (b"B\tA", 0),
    (b"0000B\t000000000A", 0),
    (b"", 34),
    (b"B", 34),
    (b"BA", 34),
    (b"B\t", 34),
    (b"\tA", 34),
    (b"\t", 34),
    (b"B\t\tA", 34),
    (b"\tB\tA", 34),
    (b"B\tA\t", 34),
    (b"B\tA\t0", 34),
    (b"B A", 34),
    (b" B\tA", 34),
    (b"B \tA", 34),
    (b"B\t A", 34),
    (b"B\tA ", 34),
    (b"+B\tA", 34),
    (b"B\t+A", 34),
    (b"-B\tA", 34),
    (b"B\t-0", 34),
    (b"0xB\tA", 34),
    (b"B\tAh", 34),
    (b"B\t/", 34),
    (b"B\t:", 34),
    (b"B\tA\r", 34),
    (b"\rB\tA", 34),
    (b"B\tA\0", 34),
    (b"B\t\0", 34),
    (b"\xffB\tA", 34),
    (b"B\t\xb1", 34),
    (b"B\t\xd9\xa1", 34),
    (b"B\t0000000000A", 34),
    (b"0000000000B\tA", 34),
    (b"B\t4294967296", 34),
    (b"B\t4294967297", 34),
    (b"4294967296\tA", 34),
    (b"B\t" + b"0" * 78 + b"A", 34),
    (b"B\tA" + b" " * 78, 34),
    (b"B\t7", 0),
    (b"B\t0000000007", 0),
    (b"B\t8", 36),
    (b"B\t0000000008", 36),
    (b"B\t9", 36),
    (b"B\t15", 36),
    (b"B\t255", 36),
    (b"B\t256", 36),
    (b"B\t257", 36),
    (b"B\t65536", 36),
    (b"B\t4294967295", 36),
    (b"16\tA", 35),
    (b"99\tA", 35),
    (b"4294967295\tA", 35),
)


def line_syntax() -> None:
    """A malformed line is 34, a well-formed one with a number too large is 35 or 36."""
    for (line, number), place in product(LINES, SOME_PLACES):
        block, answer = b"%d" % place, b"%d" % REFUSED[place]
        there = line.replace(b"B", block).replace(b"A", answer)
        check(f"{there!r} at {place}", _number(with_lines({place: there})), number)
    for place, more in product(EVERY_PLACE, (16, 256, 65_536)):
        wide = table_line(place + more, REFUSED[place])
        check("not in fewer bits", _number(with_lines({place: wide})), 35)


def blocks_in_order() -> None:
    """ "blocks ascending from 0": a line's block is its place, so that all sixteen in another order
    are refused, and a repeated one where it is met again."""
    lines = table_lines(REFUSED)
    for first, second in product(EVERY_PLACE, repeat=2):
        swapped = list(lines)
        swapped[first], swapped[second] = lines[second], lines[first]
        check(f"{first} and {second}", _number(swapped), 0 if first == second else 35)
        block = with_lines({second: table_line(first, REFUSED[second])})
        check(f"block {first} at {second}", _number(block), 0 if first == second else 35)
    check("descending", _number(lines[::-1]), 35)
    check("from 1", _number([table_line(place + 1, 1) for place in EVERY_PLACE]), 35)
    check("0 last", _number([*lines[1:], lines[0]]), 35)
    # The second of two lines with one block is the bad one, not the first.
    repeated = with_lines({3: table_line(2, 9), 4: b""})
    check("repeated, then malformed", _number(repeated), 35)
    check("large, then repeated", _number(with_lines({2: table_line(2, 9), 3: lines[2]})), 36)


# --- number of lines


def missing_lines() -> None:
    """ "34 for a ... missing ... line": also where the text is empty, and only if all before it are
    good."""
    lines = table_lines(REFUSED)
    for given in GIVEN:
        for text in (b"", b"\n", b"\n\n", b"\n" * BLOCKS):
            check(f"{text!r}", block_table.load(given, text), (given, 34))
    for count in range(1, BLOCKS):
        check(f"{count} lines", _number(lines[:count]), 34)
        for place in range(count):
            for bad, number in ((table_line(16, 1), 35), (table_line(place, 8), 36)):
                short = with_lines({place: bad})[:count]
                check(f"{count} lines, {number} at {place}", _number(short), number)


def seventeenth_line() -> None:
    """ "34 for a ... seventeenth line": whatever it holds, an empty one too, and only if the
    sixteen before it are good."""
    lines = table_lines(REFUSED)
    good = text_of(lines)
    for given in GIVEN:
        for more in (b"16\t1", b"16\t1\n", b"0\t5", b"15\t4\n", b"16\t9", b"\n", b"\n\n", b"x\n"):
            check(f"{more!r} after all", block_table.load(given, good + more), (given, 34))
        for more in (b" ", b"\t", b"\r", b"\0", b"\r\n", good, b"\n" + good):
            check(f"{more!r} after all", block_table.load(given, good + more), (given, 34))
    check("last newline", block_table.load(TABLE, good), (REFUSED, 0))
    for place in EVERY_PLACE:
        for bad, number in ((table_line(99, 1), 35), (table_line(place, 8), 36)):
            long = [*with_lines({place: bad}), table_line(BLOCKS, 1)]
            check(f"seventeen, {number} at {place}", _number(long), number)


# --- several faults


def earliest_line() -> None:
    """ "reported for the earliest bad line, lowest number first": the order of lines goes before
    that of numbers."""
    check("36 in line 3, 34 in line 5", _number(with_lines({2: b"2\t9", 4: b"4"})), 36)
    check("35 in line 3, 34 in line 5", _number(with_lines({2: b"3\t1", 4: b"4"})), 35)
    check("36 in line 3, 35 in line 5", _number(with_lines({2: b"2\t9", 4: b"5\t1"})), 36)
    for (first, second), (earlier, later) in product(
        combinations(SOME_PLACES, 2), product(BAD, repeat=2)
    ):
        bad = {first: BAD[earlier](first, 1), second: BAD[later](second, 1)}
        check(f"{earlier} at {first}, {later} at {second}", _number(with_lines(bad)), earlier)


def lowest_number() -> None:
    """In one line malformed goes first, then the block, then the answer."""
    for place in EVERY_PLACE:
        for line, number in (
            (b"%d\t9" % (place + 1), 35),
            (b"4294967295\t4294967295", 35),
            (b"%d\t1\t0" % (place + 1), 34),
            (b"%d\tx" % (place + 1), 34),
            (b"%d\t9\t" % place, 34),
            (b"x\t9", 34),
            (b"%d\t4294967296" % (place + 1), 34),
            (b"4294967296\t9", 34),
            (b"%d\t9\r" % (place + 1), 34),
            (b"%d 9" % (place + 1), 34),
        ):
            check(f"{line!r} at {place}", _number(with_lines({place: line})), number)


def any_length() -> None:
    """No number limits the text: one longer than the program's input is read all the same."""
    rubbish = b"Q" * 80 + b"\n"
    for place, number in product(EVERY_PLACE, BAD):
        text = text_of(with_lines({place: BAD[number](place, 1)})) + rubbish * 810
        check(f"{number} at {place}, long", block_table.load(JUNK, text), (JUNK, number))
    text = text_of(table_lines(REFUSED)) + rubbish * 810
    check("seventeenth, long", block_table.load(JUNK, text), (JUNK, 34))


def readings() -> None:
    for group in (
        loaded_as_printed,
        each_block,
        in_force,
        line_syntax,
        blocks_in_order,
        missing_lines,
        seventeenth_line,
        earliest_line,
        lowest_number,
        any_length,
    ):
        group()
