"""What calls meet of lines that were planted by test writes."""

from collections import Counter

from unit486_model import directory as steps
from unit486_model.access import Result
from unit486_model.directory import LINE_BYTES, line_index, set_of, state_number
from unit486_model.events import Unit


class PlantedLines:
    """The lines planted in one unit, and RAM as it has been."""

    def __init__(self, ram: bytes = b"") -> None:
        self.rams = [ram]
        # The planted bytes by line index, and the sets that a test write gave a tag twice.
        self.sixteen: dict[int, bytes] = {}
        self.twice: set[int] = set()

    def after_call(self, unit: Unit, line: str, result: Result) -> Counter[str]:
        """Counts of what this call met."""
        letter, *fields = line.split(" ")
        if self.rams[-1] != unit.ram:
            self.rams.append(bytes(unit.ram))
        met: Counter[str] = Counter()
        if letter == "p" and result.number == 0:
            self._plant(unit, [int(field) for field in fields])
        elif letter in "Rr" and result.number == 0 and result.cycles == 0:
            never = self._never_held(unit, int(fields[0]), int(fields[1]), result.value)
            met["reads of bytes RAM never held"] += never
        elif result.number == 21 and fields:
            met["21 after a tag planted twice"] += set_of(int(fields[0])) in self.twice
        return met

    def _plant(self, unit: Unit, fields: list[int]) -> None:
        set_index, way, _, valid, *sixteen = fields
        if valid:
            self.sixteen[line_index(set_index, way)] = bytes(sixteen)
            if state_number(unit.directory, set_index) == 21:
                self.twice.add(set_index)

    def _never_held(self, unit: Unit, address: int, width: int, value: int) -> bool:
        """Whether a hit read a planted line, and bytes that RAM never had there. A hit changes no
        line, so the line is looked up after it."""
        way = steps.lookup(unit.directory, address)
        if way is None:
            return False
        index = line_index(set_of(address), way)
        held = bytes(unit.data[index * LINE_BYTES : (index + 1) * LINE_BYTES])
        had = (int.from_bytes(ram[address : address + width], "little") for ram in self.rams)
        return self.sixteen.get(index) == held and value not in had
