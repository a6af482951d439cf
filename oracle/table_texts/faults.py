"""Tables with two faults and more: in one line the lowest number, else the earliest line's."""

from itertools import product

from unit486_model.events import INPUT_LIMIT

from .writer import BadLine, TableFile, at_places, refused_file, table_line, text_of, with_lines

# Lines with several faults, and the lowest of their numbers.
IN_ONE_LINE: dict[str, tuple[int, BadLine]] = {
    "34-35-field": (34, lambda block, answer: b"%d\t%d\t0" % (block + 1, answer)),
    "34-35-answer": (34, lambda block, answer: b"%d\t%dh" % (block + 1, answer)),
    "34-36-field": (34, lambda block, _: b"%d\t9\t" % block),
    "34-36-block": (34, lambda block, _: b"+%d\t9" % block),
    "35-36": (35, lambda block, _: table_line(block + 1, 9)),
    "35-36-largest": (35, lambda *_: table_line(4_294_967_295, 4_294_967_295)),
    "34-35-36-field": (34, lambda block, _: b"%d\t9\t0" % (block + 1)),
    "34-35-36-cr": (34, lambda block, _: b"%d\t9\r" % (block + 1)),
}

# A line of each number.
BAD: dict[int, BadLine] = {
    34: lambda block, answer: b"%d %d" % (block, answer),
    35: lambda block, answer: table_line(block + 1, answer),
    36: lambda block, _: table_line(block, 9),
}
# Places of an earlier and a later line.
PAIRS = {"first-two": (0, 1), "ends": (0, 15), "middle": (7, 8), "last-two": (14, 15)}


def one_line_files() -> list[TableFile]:
    return [
        file
        for name, (number, bad_line) in IN_ONE_LINE.items()
        for file in at_places(f"fault-{name}", number, bad_line)
    ]


def two_line_files() -> list[TableFile]:
    """The earlier line's number, also where the later one's is lower."""
    return [
        refused_file(
            f"faults-{earlier}-{later}-{word}",
            text_of(with_lines({first: BAD[earlier](first, 1), second: BAD[later](second, 1)})),
            earlier,
        )
        for (earlier, later), (word, (first, second)) in product(
            product(BAD, repeat=2), PAIRS.items()
        )
    ]


def long_file() -> TableFile:
    """More than an event file may have: the third line's answer is above 7."""
    lines = with_lines({2: table_line(2, 9)})
    rubbish = b"Q\t16\t4294967296 "
    lines += [rubbish * 4] * (INPUT_LIMIT // (4 * len(rubbish)) + 1)
    return refused_file("faults-long", text_of(lines), 36)


def fault_files() -> list[TableFile]:
    return [*one_line_files(), *two_line_files(), long_file()]
