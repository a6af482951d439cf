"""The call scripts: they fit the program, and meet what they are there for.

Writing a script holds its tables to the printed ones, line by line.
"""

from collections import Counter

import replay
from scripts.script_unit import marks_are_0_or_1

from .unit_calls import check

FILE_LIMIT = 60_000
TOTAL_LIMIT = 1_650_000
# What a program may print where it is run without its proofs.
PRINTED_LIMIT = 1_048_576
RANDOM = (
    "tiny.txt",
    "hot.txt",
    "masters.txt",
    "large.txt",
    "long.txt",
    "refused.txt",
    "planted.txt",
    "carrying.txt",
)
RANDOM_CALLS = 5000

# The numbers of each call, by what it receives.
NUMBERS = {
    "R": (0, 1, 2, 3, 4, 5, 6, 7, 21, 22, 23),
    "Q": (0, 1, 2, 3, 4, 5, 6, 7, 21, 22, 23, 33),
    "W": (0, 1, 2, 3, 4, 5, 6, 7, 8, 21, 22, 23),
    "X": (0, 1, 2, 10, 21, 22, 23),
    "S": (0, 21, 22, 23),
    "F": (0,),
    "C": (0, 9),
    "Z": (0,),
    "V": (0, 1, 3, 5, 21, 22, 23),
    "p": (0, 3, 31, 32),
    "t": (0, 3, 31, 32),
}
# C-17's, which written scripts meet: random units have no ranges.
RANGE_NUMBERS = {letter: (37, 38) for letter in "RQWXV"} | {"O": (0, 1, 37, 38)}
CONDITIONS = (
    "read hits",
    "writes inside",
    "fills kept",
    "fills dropped",
    "lines replaced",
    "lines snooped",
    "LRU numbers flushed",
    "wrong parity",
    "values above 32 bits",
    "2 doublewords on the bus",
    "3 doublewords on the bus",
    "views of held lines",
    "views of RAM",
    "p 0",
    "reads of bytes RAM never held",
    "21 after a tag planted twice",
)
# What carrying reads meet, in a script of their own.
CARRIED_CONDITIONS = (
    "carrying hits",
    "carrying fills kept",
    "carried at a kept fill's first cycle",
    "fills dropped by carried writes",
    "lines that carried writes end",
    "carried into a plain read",
    "carried past the last cycle",
    "carrying, wrong parity",
)
# Above every number of the papers that a call answers.
NUMBER_ROOM = 64
LENGTHS = (15, 16, 17, 24, 32, 2064, 65_536)


def replays() -> None:
    scripts = {script.name: script for script in replay.scripts()}
    total, at_random = Counter[str](), Counter[str]()
    for name, script in scripts.items():
        check(f"{name} fits", len(script.text()) < FILE_LIMIT, True)
        total += script.met
        at_random += script.met if name in RANDOM else Counter()
    size = sum(len(generate()) for _, generate in replay.expectations())
    check("all files", size < TOTAL_LIMIT, True)
    check("printed", len(replay.printed()) < PRINTED_LIMIT, True)
    check("random calls", at_random["calls"] >= RANDOM_CALLS, True)
    for letter, numbers in NUMBERS.items():
        for number in numbers:
            check(f"{letter} {number} met", at_random[f"{letter} {number}"] > 0, True)
    for letter in {**NUMBERS, **RANGE_NUMBERS}:
        met = {number for number in range(NUMBER_ROOM) if total[f"{letter} {number}"]}
        expected = (*NUMBERS.get(letter, ()), *RANGE_NUMBERS.get(letter, ()))
        check(f"numbers of {letter}", met, set(expected))
    for condition in CONDITIONS:
        check(f"{condition} met", at_random[condition] > 20, True)
    for condition in CARRIED_CONDITIONS:
        check(f"{condition} met at random", at_random[condition] > 0, True)
        check(f"{condition} met", total[condition] > 5, True)
    _marks([line for script in scripts.values() for line in script.lines])
    lengths = {int(line.split()[1]) for s in scripts.values() for line in s.lines if line[0] == "N"}
    check("RAM lengths", lengths >= set(LENGTHS), True)


def _marks(lines: list[str]) -> None:
    """Every mark of the scripts is 0 or 1, and a line with another one would be found."""
    check("other marks", [line for line in lines if not marks_are_0_or_1(line)], [])
    sixteen = " 7" * 16
    reads = ("R 0 4 2 1", "Q 0 4 2 1 0", "r 0 4 2")
    for line in ("K 5 2", "M 2 0", "M 0 2", "C 2 0", "C 0 2", *reads):
        check(line, marks_are_0_or_1(line), False)
    for mark in ("0", "1", "2", "01", "256", "4294967295"):
        found = marks_are_0_or_1(f"p 4 1 5 {mark}{sixteen}")
        check(f"p with {mark}", found, mark in ("0", "1"))
