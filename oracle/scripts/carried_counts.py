"""What carrying reads meet, told from a script's line, its records and the lines held."""

from collections import Counter

from unit486_model.access import Result
from unit486_model.bus import FILL, GROUP, KEN, LAST, WRONG, Record
from unit486_model.carried import CarriedWrite
from unit486_model.directory import line_address

from .script_unit import carried_writes

Lines = list[tuple[bool, int]]


def after_carrying(line: str, result: Result, before: Lines, after: Lines) -> Counter[str]:
    """Counts of what an accepted carrying read met; `before` and `after` have valid marks and
    tags."""
    met: Counter[str] = Counter()
    address, _, _, answers, *fields = line.split(" ")[1:]
    writes = carried_writes([int(field) for field in fields])
    made: list[Record] = []
    for number, record in enumerate(result.records, start=1):
        made.append(record)
        if record.flags & LAST:
            index = (made[0].address - int(address) + int(address) % 4) // 4
            last = int(answers[GROUP * index + len(made) - 1])
            met += _after_doubleword(made, number - len(made), writes, last)
            made = []
    past = [write for write in writes if write.cycle >= result.cycles]
    met["carrying hits"] += bool(writes) and result.cycles == 0
    met["carried past the last cycle"] += bool(past) and result.cycles > 0
    met["carrying, wrong parity"] += any(record.flags & WRONG for record in result.records)
    ended = sum(old[0] and not new[0] for old, new in zip(before, after))
    met["lines that carried writes end"] += ended
    return met


def _after_doubleword(
    made: list[Record], first: int, writes: list[CarriedWrite], last: int
) -> Counter[str]:
    """The cycles of one doubleword, the first with this number, and the last one's answer."""
    line = line_address(made[0].address)
    there = [write.cycle - first for write in writes if line_address(write.address) == line]
    later = any(0 < number < len(made) for number in there)
    if not made[0].flags & FILL:
        return Counter({"carried into a plain read": int(later)})
    kept = bool(last & KEN) and not later
    return Counter(
        {
            "carrying fills kept": int(kept),
            "fills dropped by carried writes": int(bool(last & KEN) and later),
            "carried at a kept fill's first cycle": int(kept and 0 in there),
        }
    )
