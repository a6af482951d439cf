"""An event file under way: each line is run on the model as it is written."""

from collections import Counter
from functools import cache
from typing import Any

from unit486_model import board, events
from unit486_model import directory as steps
from unit486_model.access import Result
from unit486_model.events import MALFORMED, NUMBER_LIMIT, VALUE_DIGITS, program_unit

# The result of an event that is done with no value and no cycle.
DONE = Result(0)


class EventFile:
    """Lines, the rows that they give, and a count of what the events met."""

    def __init__(self, name: str) -> None:
        self.name = f"{name}.txt"
        self.lines: list[bytes] = []
        self.rows: list[bytes] = []
        self.met: Counter[str] = Counter()
        # Whether the last line has its newline.
        self.last_newline = True
        self.unit = program_unit()

    def text(self) -> bytes:
        return b"\n".join(self.lines) + (b"\n" if self.lines and self.last_newline else b"")

    def printed(self) -> bytes:
        return _printed(self.text())

    def held(self, address: int) -> int | None:
        return steps.lookup(self.unit.directory, address)

    def line(self, line: bytes) -> Result:
        """Any bytes but a newline. The result is what the row shows, without records."""
        assert b"\n" not in line
        scanned = events.scan(line)
        result = self._performed(*scanned) if scanned else MALFORMED
        self.lines.append(line)
        self.rows.append(events.row(len(self.lines), result))
        return result

    def _performed(self, letter: str, values: list[Any]) -> Result:
        before = self._lines_held()
        result = self.unit.perform(board.TABLE, letter, values)._replace(records=())
        self._count(letter, result, before, self._lines_held())
        return result

    def event(self, letter: str, *fields: str | int) -> Result:
        return self.line(event_line(letter, *fields))

    def read(self, address: int, width: int, pcd: bool = False) -> Result:
        return self.event("R", address, width, int(pcd))

    def write(self, address: int, width: int, value: int) -> Result:
        return self.event("W", address, width, value)

    def external(self, address: int, written: bytes) -> Result:
        return self.event("X", address, written.hex().upper())

    def snoop(self, address: int) -> Result:
        return self.event("S", address)

    def flush(self) -> Result:
        return self.event("F")

    def control(self, cd: bool, nw: bool) -> Result:
        return self.event("C", int(cd), int(nw))

    def reset(self) -> Result:
        return self.event("Z")

    def _lines_held(self) -> tuple[int, list[int]]:
        """How many are valid, and all tags."""
        return sum(self.unit.directory.valid), list(self.unit.directory.tags)

    def _count(
        self,
        letter: str,
        result: Result,
        before: tuple[int, list[int]],
        after: tuple[int, list[int]],
    ) -> None:
        met, done = self.met, result.number == 0
        met[f"{letter} {result.number}"] += 1
        met["read hits"] += letter == "R" and done and result.cycles == 0
        met["fills"] += letter == "R" and result.cycles == 4
        met["two fills"] += letter == "R" and result.cycles == 8
        met["writes inside"] += letter == "W" and done and result.cycles == 0
        met["lines replaced"] += letter == "R" and before[1] != after[1] and before[0] == after[0]
        met["lines snooped"] += letter in "SX" and after[0] < before[0]
        met["values above 32 bits"] += result.value > NUMBER_LIMIT
        met["values of twenty digits"] += len(str(result.value)) == VALUE_DIGITS
        met["writes of three doublewords"] += letter == "W" and result.cycles == 3


def event_line(letter: str, *fields: str | int) -> bytes:
    """A letter and its fields, parted by tabs."""
    return "\t".join([letter, *(str(field) for field in fields)]).encode()


@cache
def _printed(text: bytes) -> bytes:
    return events.run_program(text)
