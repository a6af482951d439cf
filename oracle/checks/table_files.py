"""The table files: they fit the program, meet what they are there for, and what it must print
follows from C-16; the samples are what their names say.

Writing a file holds its number and table to C-16.
"""

import re
from collections import Counter
from itertools import product

import table_files
from table_texts import accesses
from table_texts.faults import PAIRS
from table_texts.good import OURS
from table_texts.writer import JUNK, PLACES, TableFile
from unit486_model import block_table
from unit486_model.board import BLOCKS, TABLE
from unit486_model.events import INPUT_LIMIT, NUMBER_LIMIT, lines_of

from .unit_calls import ORACLE, check

SAMPLES = ORACLE.parent / "samples"
DATA_LIMIT = 120_000
PRINTED_LIMIT = 300_000
# The program's room for a table file.
TABLE_ROOM = 131_072
NUMBERS = (34, 35, 36)

# The first word of a name, and how many files have it at least.
SUBJECTS = {
    "good": 15,
    "malformed": 100,
    "block": 15,
    "order": 10,
    "answer": 30,
    "fault": 20,
    "faults": 30,
    "missing": 15,
    "seventeenth": 15,
}

# Lines that are malformed in one way; B is the block that belongs there, A an answer up to 7.
MALFORMED = {
    "no tab": rb"BA",
    "two tabs": rb"B\t\tA",
    "third field": rb"B\tA\t\d",
    "empty third field": rb"B\tA\t",
    "empty block": rb"\tA",
    "empty answer": rb"B\t",
    "blank before": rb" B\tA",
    "blank for the tab": rb"B A",
    "blank after": rb"B\tA ",
    "plus of the block": rb"\+B\tA",
    "plus of the answer": rb"B\t\+A",
    "minus of the block": rb"-B\tA",
    "minus of the answer": rb"B\t-A",
    "letter in the block": rb"0x[0-9a-f]\tA",
    "letter in the answer": rb"B\tA[a-z]",
    "CR": rb"B\tA\r",
    "block of eleven digits": rb"(?=\d{11}\t)0*B\tA",
    "answer of eleven digits": rb"B\t0{10}A",
    "block 4294967296": rb"4294967296\tA",
    "answer 4294967296": rb"B\t4294967296",
    "empty line": rb"",
    "81 bytes": rb"(?=.{81}\Z)B\t0*A",
    "NUL": rb"B\tA\0",
    "byte 255": rb"B\tA\xff",
}
LARGE = (8, 9, 255, 256, NUMBER_LIMIT)
# Several faults in one line.
TOGETHER = ({34, 35}, {34, 36}, {35, 36}, {34, 35, 36})

# A seventeenth line, and whether its newline is there: good-looking, empty, malformed.
SEVENTEENTH = {(b"16\t1", True), (b"16\t1", False), (b"", True), (b"16 1", True), (b"Q", False)}

# Each sample's number, lines, and the place of its earliest bad line.
SAMPLE_TABLES: dict[str, tuple[int, int, int | None]] = {
    "plant.table": (0, 16, None),
    "malformed_line.table": (34, 16, 5),
    "missing_line.table": (34, 15, 15),
    "seventeenth_line.table": (34, 17, 16),
    "wrong_block.table": (35, 16, 9),
    "large_answer.table": (36, 16, 12),
}


def table_file_checks() -> None:
    files = table_files.files()
    _sizes(files)
    output()
    for file in files:
        bad = _bad_lines(file.text)
        check(f"{file.name} number", file.number, min(bad[0][1]) if bad else 0)
    _good_tables(files)
    _bad_tables(files)
    _order(files)
    _samples()


def _sizes(files: tuple[TableFile, ...]) -> None:
    names = [accesses.NAME, *(file.name for file in files)]
    check("files", len(set(names)), len(names))
    check("names are words", all(len(name.split()) == 1 for name in names), True)
    check("texts", len({file.text for file in files}), len(files))
    subjects = Counter(file.name.split("-")[0] for file in files)
    check("subjects", set(subjects), set(SUBJECTS))
    for subject, count in SUBJECTS.items():
        check(f"{subject} files", subjects[subject] >= count, True)
    lengths = [len(file.text) for file in files]
    check("data", sum(lengths) + len(accesses.text()) < DATA_LIMIT, True)
    check("longest", INPUT_LIMIT < max(lengths) <= TABLE_ROOM, True)
    check("printed", len(table_files.printed()) < PRINTED_LIMIT, True)


# --- what must be printed


def _fields(*fields: str | int) -> bytes:
    return "\t".join(map(str, fields)).encode() + b"\n"


def _board_row(table: tuple[int, ...], block: int) -> bytes:
    """The lowest doubleword is the last of its block, the others are in the next one."""
    lowest, others = table[block], table[(block + 1) % BLOCKS]
    return _fields("board", block, lowest, lowest, others, others, others, others)


def output() -> None:
    """Put together from what C-16 says of each file, and document 01 of each answer."""
    table, expected = tuple(OURS), []
    for file in table_files.files():
        table, junk = file.table or table, file.table or JUNK
        expected += [file.name.encode() + b"\n"]
        expected += [_fields("load", file.number, *table), _fields("junk", file.number, *junk)]
        expected += [_board_row(table, block) for block in range(BLOCKS)]
        expected += [accesses.rows(table[0]), accesses.rows(junk[0])]
    check("printed", table_files.printed() == b"".join(expected), True)


def _order(files: tuple[TableFile, ...]) -> None:
    """Each number is met under ours, before any table is loaded, and under each other table."""
    table, met = tuple(OURS), set[tuple[tuple[int, ...], int]]()
    for file in files:
        met.add((table, file.number))
        table = file.table or table
    check("last one good", files[-1].number, 0)
    check("refused first", files[0].number in NUMBERS, True)
    under = {in_force for in_force, _ in met}
    check("tables in force", {in_force[0] for in_force in under}, set(range(8)))
    check("each number under each", met >= set(product(under, NUMBERS)), True)


# --- what the tables meet


def _faults(line: bytes, place: int) -> set[int]:
    """Every number that the line itself would give, were it not for the others."""
    fields = [int(field) if field.isdigit() else None for field in line.split(b"\t")]
    found = set[int]()
    if not re.fullmatch(rb"\d{1,10}\t\d{1,10}", line) or max(map(int, line.split())) > NUMBER_LIMIT:
        found.add(34)
    if fields[0] not in (None, place):
        found.add(35)
    if len(fields) > 1 and (fields[1] or 0) > 7:
        found.add(36)
    return found


def _bad_lines(text: bytes) -> list[tuple[int, set[int]]]:
    """Places and faults in order, a missing line and a seventeenth among them."""
    lines = lines_of(text)
    bad = [(place, _faults(line, place)) for place, line in enumerate(lines[:BLOCKS])]
    if len(lines) != BLOCKS:
        bad.append((min(len(lines), BLOCKS), {34}))
    return [(place, faults) for place, faults in bad if faults]


def _good_tables(files: tuple[TableFile, ...]) -> None:
    good = [file for file in files if file.table is not None]
    tables = [file.table for file in good if file.table]
    check("ours", tuple(OURS) == TABLE and TABLE in tables, True)
    for block in range(BLOCKS):
        check(f"answers of {block}", {table[block] for table in tables}, set(range(8)))
    lines = [line.split(b"\t") for file in good for line in lines_of(file.text)]
    for field in (0, 1):
        digits = {len(fields[field]) for fields in lines}
        check(f"digits of field {field}", digits, set(range(1, 11)))
    endings = {file.text.endswith(b"\n") for file in good}
    check("with and without the last newline", endings, {True, False})
    rows = [accesses.rows(answer) for answer in range(8)]
    same = {(a, b) for a, b in product(range(8), repeat=2) if a < b and rows[a] == rows[b]}
    check("rows that are the same", same, set(accesses.SAME))


def _bad_tables(files: tuple[TableFile, ...]) -> None:
    _single_lines(files)
    _wrong_blocks(files)
    _several_faults(files)
    _line_counts(files)


def _single_lines(files: tuple[TableFile, ...]) -> None:
    """Each refusal in the first line, in a middle one and in the last, no other line being bad."""
    alone = [(lines_of(file.text), bad[0]) for file, bad in _with_bad(files) if len(bad) == 1]
    seen = {(place, lines[place]) for lines, (place, _) in alone if place < len(lines)}
    for place in PLACES.values():
        here = {line for at, line in seen if at == place}
        for what, pattern in MALFORMED.items():
            there = pattern.replace(b"B", b"%d" % place).replace(b"A", b"[0-7]")
            check(f"{what} at {place}", any(re.fullmatch(there, line) for line in here), True)
        for answer in LARGE:
            check(f"answer {answer} at {place}", b"%d\t%d" % (place, answer) in here, True)
        for block in (place + 1, 16, NUMBER_LIMIT):
            check(f"block {block} at {place}", block in _blocks_at(seen, place), True)
    # The first line has none before it.
    for place in (1, 8, BLOCKS - 1):
        check(f"repeated at {place}", place - 1 in _blocks_at(seen, place), True)


def _blocks_at(seen: set[tuple[int, bytes]], place: int) -> set[int]:
    """The blocks of lines there that have no other fault."""
    lines = (line for at, line in seen if at == place)
    return {int(line.split(b"\t")[0]) for line in lines if _faults(line, place) == {35}}


def _with_bad(files: tuple[TableFile, ...]) -> list[tuple[TableFile, list[tuple[int, set[int]]]]]:
    return [(file, _bad_lines(file.text)) for file in files if file.number]


def _wrong_blocks(files: tuple[TableFile, ...]) -> None:
    """Each block once, in another order."""
    orders = set[tuple[bytes, ...]]()
    for file in files:
        orders.add(tuple(line.split(b"\t")[0] for line in lines_of(file.text)))
    blocks = [b"%d" % block for block in range(BLOCKS)]
    check("descending", tuple(blocks[::-1]) in orders, True)
    for place in (0, 8, BLOCKS - 2):
        swapped = [*blocks[:place], blocks[place + 1], blocks[place], *blocks[place + 2 :]]
        check(f"swapped at {place}", tuple(swapped) in orders, True)


def _several_faults(files: tuple[TableFile, ...]) -> None:
    """In one line, and in two: each number before each."""
    bad_lines = [bad for _, bad in _with_bad(files)]
    for place, faults in product(PLACES.values(), TOGETHER):
        check(f"{faults} at {place}", [(place, faults)] in bad_lines, True)
    pairs = {tuple((place, min(faults)) for place, faults in bad) for bad in bad_lines}
    for (first, second), (earlier, later) in product(PAIRS.values(), product(NUMBERS, repeat=2)):
        met = ((first, earlier), (second, later)) in pairs
        check(f"{earlier} at {first}, {later} at {second}", met, True)


def _line_counts(files: tuple[TableFile, ...]) -> None:
    texts = {file.text for file in files}
    check("empty text and one newline", {b"", b"\n"} <= texts, True)
    short, long = set[tuple[int, bool]](), set[tuple[bytes, bool]]()
    after = set[tuple[int, int]]()
    for file, bad in _with_bad(files):
        lines, ended = lines_of(file.text), file.text.endswith(b"\n")
        if len(bad) == 2 and len(lines) != BLOCKS:
            after.add((min(len(lines), BLOCKS + 1), file.number))
        elif len(lines) < BLOCKS:
            short.add((len(lines), ended))
        elif len(lines) == BLOCKS + 1:
            long.add((lines[BLOCKS], ended))
    check("missing", short >= set(product((1, 8, 15), (True, False))), True)
    check("seventeenth", long >= SEVENTEENTH, True)
    check("after a bad line", after >= set(product((1, 8, 15, BLOCKS + 1), (35, 36))), True)


# --- samples


def _samples() -> None:
    check("tables", {path.name for path in SAMPLES.glob("*.table")}, set(SAMPLE_TABLES))
    for name, (number, lines, place) in SAMPLE_TABLES.items():
        text = (SAMPLES / name).read_bytes()
        loaded, bad = block_table.load(JUNK, text), _bad_lines(text)
        check(f"{name} number", loaded.number, number)
        check(f"{name} lines", len(lines_of(text)), lines)
        check(f"{name} bad lines", [at for at, _ in bad], [] if place is None else [place])
    plant = block_table.load(TABLE, (SAMPLES / "plant.table").read_bytes()).table
    check("plant's block 0 is not ours", plant[0] != TABLE[0], True)
