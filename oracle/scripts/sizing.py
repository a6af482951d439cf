"""Tables 3-10/7-1 and 3-11/7-2: which wanted bytes a cycle moves, in reads and in writes."""

from collections.abc import Sequence
from itertools import product

from unit486_model.bus import ANSWER_LIMIT, ANSWERS, BS8, BS16, KEN, WIDTHS, WRITE

from checks.unit_calls import address_flags, answers_of, check, flags
from checks.vectors import FLAG_TABLE

from .source_tables import plain_records
from .writer import Script

# Every set of neighbouring bytes is wanted somewhere among these: the lower doubleword of a
# four-byte access wants 15, 14, 12 and 8, the upper one 1, 3 and 7, and so on. The middle one of
# eight bytes wants 15.
ACCESSES = [(width, offset) for width in WIDTHS for offset in range(4)]

# The base of the accesses, which leaves them in one line.
BASE = 0x120

# The columns of FLAG_TABLE by the answer's sizes.
COLUMNS = {0: 0, BS16: 1, BS8: 2, BS8 + BS16: 2}


def sizing() -> Script:
    script = Script("sizing.txt")
    _constant_answers(script)
    _changing_answers(script)
    _sizes_by_doubleword(script)
    _examples(script)
    return script


def _both(script: Script, offset: int, width: int, answers: Sequence[int]) -> None:
    """A read that is no fill and a write with the same answers, held to the printed tables."""
    address = BASE + offset
    result = script.read(address, width, answers, pcd=True)
    what = f"{width} at {offset} answers {answers}"
    check(f"read {what}", address_flags(result), plain_records(address, width, answers))
    held = int.from_bytes(script.unit.ram[address : address + width], "little")
    check(f"value {what}", result.value, held)
    value = (0x9D6B35C7_5A0F1E2D * (len(script.lines) + 1)) % 256**width
    result = script.write(address, width, value, answers)
    check(f"write {what}", address_flags(result), plain_records(address, width, answers, WRITE))
    written = script.unit.ram[address : address + width]
    check(f"bytes {what}", int.from_bytes(written, "little"), value)


def _constant_answers(script: Script) -> None:
    """Each access under each of the eight answers, KEN# having no part in it."""
    script.new(cd=False)
    for width, offset in ACCESSES:
        for answer in range(ANSWER_LIMIT + 1):
            _both(script, offset, width, [answer] * ANSWERS)
            column = FLAG_TABLE[width, offset][COLUMNS[answer & ~KEN]]
            row = [int(flag) for flag in column.replace("|", ",").split(",")]
            printed = [flag for _, flag in plain_records(offset, width, [answer] * ANSWERS)]
            check(f"{width} at {offset} answer {answer}", printed, row)


def _changing_answers(script: Script) -> None:
    """Sizes are sampled anew for every cycle: each order of three sizes, in any doubleword."""
    script.new(cd=False)
    for sizes in product((0, BS16, BS8), repeat=3):
        group = [*sizes, 0]
        for width, offset in ((4, 1), (4, 2), (8, 0), (8, 3)):
            _both(script, offset, width, answers_of(group, group, group))


def _sizes_by_doubleword(script: Script) -> None:
    """Each doubleword has its own group of answers, wherever the lower one stopped."""
    script.new(cd=False)
    for lower, upper in product((0, BS8, BS16, BS8 + BS16), repeat=2):
        for width, offset in ((2, 3), (4, 1), (4, 2), (4, 3)):
            _both(script, offset, width, answers_of([lower], [upper]))
    for sizes in product((0, BS8, BS16), repeat=3):
        _both(script, 1 + sum(sizes) % 3, 8, answers_of(*([size] for size in sizes)))


def _examples(script: Script) -> None:
    """The examples that source document 002 prints."""
    script.new(cd=False)
    mixed = script.read(BASE, 4, answers_of([BS8, BS8, BS16, 0]))
    check("BS8, BS8, BS16", flags(mixed), [1, 2, 76])
    check("24 bits under BS8", flags(script.read(BASE + 1, 4, answers_of([BS8])))[:3], [2, 4, 72])
    for offset, transfers in ((0, 2), (1, 3), (2, 2), (3, 3)):
        halves = script.read(BASE + offset, 4, [BS16] * ANSWERS)
        check(f"32 bits under BS16 at {offset}", halves.cycles, transfers)
