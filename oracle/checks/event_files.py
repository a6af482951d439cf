"""The event files: they fit the program, and meet what they are there for.

Writing a file holds its answers to document 01, line by line.
"""

from collections import Counter
from typing import Any

import event_files
from inputs.writer import EventFile
from unit486_model import events
from unit486_model.bus import LOG_WORDS
from unit486_model.plain import PlainMemory

from .unit_calls import ALL_KEN, check
from .vectors import PROGRAM_OUTPUT

FILES = 200
DATA_LIMIT = 700_000
# What a program may print where it is run without its proofs.
PRINTED_LIMIT = 1_048_576
# The program's room for the output of one file.
OUTPUT_ROOM = 1_048_576
OVER_LIMIT = events.HEADER + b"0\t12\t0\t0\n"

# The first word of a name, and how many files have it at least.
SUBJECTS = {
    "example": 1,
    "mixed": 40,
    "hot": 30,
    "modes": 25,
    "masters": 30,
    "boundary": 25,
    "malformed": 70,
    "ending": 30,
    "size": 7,
}
SIZES = (0, 1, 2, 65_535, 65_536, 65_537)
ANSWERS = {0, 4, 5, 8, 9, 10, 11, 12}
# The answers to well-formed lines, by letter.
LETTERS = {
    "R": {0, 4, 5},
    "W": {0, 4, 5, 8},
    "X": {0, 10},
    "S": {0},
    "F": {0},
    "C": {0, 9},
    "Z": {0},
}
CONDITIONS = (
    "read hits",
    "fills",
    "two fills",
    "writes inside",
    "lines replaced",
    "lines snooped",
    "values above 32 bits",
    "values of twenty digits",
    "writes of three doublewords",
)


def event_file_checks() -> None:
    files = event_files.files()
    _sizes(files)
    for file in files:
        rows = OVER_LIMIT if _over(file) else events.HEADER + b"".join(file.rows)
        check(f"{file.name} rows", file.printed() == rows, True)
        _plain_answers(file)
    check("example", files[0].printed(), PROGRAM_OUTPUT)
    _met(files)


def _over(file: EventFile) -> bool:
    return len(file.text()) > events.INPUT_LIMIT


def _sizes(files: tuple[EventFile, ...]) -> None:
    names = [file.name for file in files]
    check("files", len(set(names)) == len(names) >= FILES, True)
    check("names are words", all(len(name.split()) == 1 for name in names), True)
    subjects = Counter(name.removesuffix(".txt").split("-")[0] for name in names)
    check("subjects", set(subjects), set(SUBJECTS))
    for subject, count in SUBJECTS.items():
        check(f"{subject} files", subjects[subject] >= count, True)
    lengths = [len(file.text()) for file in files]
    check("lengths", set(lengths) >= set(SIZES), True)
    check("data", sum(lengths) < DATA_LIMIT, True)
    check("printed", len(event_files.printed()) < PRINTED_LIMIT, True)
    check("room", max(len(file.printed()) for file in files) <= OUTPUT_ROOM, True)
    check("bytes", {byte for file in files for byte in file.text()}, set(range(256)))
    check("no last newline", any(not file.last_newline for file in files), True)


def _met(files: tuple[EventFile, ...]) -> None:
    """Every answer of the program, by letter, and every condition that the cache has."""
    answers, met = set[int](), Counter[str]()
    for file in files:
        rows = file.printed().splitlines()[1:]
        answers |= {int(row.split(b"\t")[1]) for row in rows}
        met += Counter() if _over(file) else file.met
    check("answers", answers, ANSWERS)
    for letter, numbers in LETTERS.items():
        got = {number for number in range(30) if met[f"{letter} {number}"]}
        check(f"answers of {letter}", got, numbers)
    for condition in CONDITIONS:
        check(f"{condition} met", met[condition] > 20, True)


def _plain_answers(file: EventFile) -> None:
    """Answers and values are the plain memory's, until a line may come to differ from RAM."""
    plain = PlainMemory(bytearray(events.RAM_BYTES))
    for line, row in zip(file.lines, file.rows):
        scanned = events.scan(line)
        if scanned is None:
            continue
        letter, values = scanned
        _, number, value, _ = row.split(b"\t")
        got = (int(number), int(value))
        check(f"{file.name} {line!r}", got, _plain_answer(plain, letter, values))
        if letter == "C" and values[1] and number == b"0":
            return


def _plain_answer(plain: PlainMemory, letter: str, values: list[Any]) -> tuple[int, int]:
    if letter == "R":
        return plain.read(*values, ALL_KEN, LOG_WORDS)
    if letter == "W":
        return plain.write(*values, ALL_KEN, LOG_WORDS), 0
    if letter == "X":
        return plain.external_write(*values), 0
    return plain.control(*values) if letter == "C" else 0, 0
