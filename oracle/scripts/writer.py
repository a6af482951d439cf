"""A script under way: each line is run on the model as it is written."""

from collections import Counter
from collections.abc import Sequence

from unit486_model import directory as steps
from unit486_model.access import Result
from unit486_model.bus import FILL, LAST, LOG_WORDS, WRONG
from unit486_model.carried import CARRIED_MOST, CarriedWrite
from unit486_model.diagnostics import TestLine
from unit486_model.directory import LINE_BYTES, Directory, line_index
from unit486_model.events import NUMBER_LIMIT, Unit
from unit486_model.memory import parity_length
from unit486_model.ranges import Range
from unit486_model.refusal import DATA_BYTES

from checks.unit_calls import ALL_KEN, valid_and_tags

from .carried_counts import after_carrying
from .planted_lines import PlantedLines
from .script_unit import (
    DATA_ROOM,
    FIELD_ROOM,
    LOG_ROOM,
    PARITY_ROOM,
    RAM_ROOM,
    WORD_ROOM,
    ScriptUnit,
    new_script_unit,
)

RAM_BYTES = 4096

# Accesses with the board's answers count as those with answers of their own.
COUNTED_AS = {"r": "R", "w": "W"}


class Script:
    """Lines, the rows that they print, and a count of what the calls met."""

    def __init__(self, name: str) -> None:
        self.name = name
        self.lines: list[str] = []
        self.rows: list[str] = []
        self.met: Counter[str] = Counter()
        self._script_unit: ScriptUnit | None = None
        self._planted_lines = PlantedLines()

    @property
    def script_unit(self) -> ScriptUnit:
        assert self._script_unit is not None, "a script begins with a new unit"
        return self._script_unit

    @property
    def unit(self) -> Unit:
        return self.script_unit.unit

    @property
    def directory(self) -> Directory:
        return self.script_unit.unit.directory

    def held(self, address: int) -> int | None:
        return steps.lookup(self.directory, address)

    def text(self) -> str:
        return "".join(line + "\n" for line in self.lines)

    def printed(self) -> str:
        return "".join(self.rows)

    # --- units, and what is stored without a call

    def new(
        self,
        ram: int = RAM_BYTES,
        parity: int | None = None,
        data: int = DATA_BYTES,
        log: int = LOG_WORDS,
        cd: bool | None = None,
        nw: bool = False,
    ) -> None:
        """A new unit, in the modes of a reset unless others are given."""
        parity = parity_length(ram) if parity is None else parity
        rooms = (RAM_ROOM, PARITY_ROOM, DATA_ROOM, LOG_ROOM)
        assert all(length <= room for length, room in zip((ram, parity, data, log), rooms))
        seed = 2 * len(self.lines) + 1
        line = f"N {ram} {parity} {data} {log} {seed} {seed + 1}"
        self._script_unit, row = new_script_unit(line)
        self._planted_lines = PlantedLines(bytes(self.unit.ram))
        self.lines.append(line)
        self.rows.append(row)
        if cd is not None:
            self.mode(cd, nw)

    def store(self, letter: str, index: int, value: int) -> None:
        line = f"{letter} {index} {value}"
        self.script_unit.run_line(line)
        self.lines.append(line)

    def tag(self, set_index: int, way: int, tag: int) -> None:
        self.store("T", line_index(set_index, way), tag)

    def mark(self, set_index: int, way: int, valid: bool) -> None:
        self.store("K", line_index(set_index, way), int(valid))

    def store_line(self, set_index: int, way: int, tag: int) -> None:
        """Make one line valid; its bytes in the data array stay what they are."""
        self.tag(set_index, way, tag)
        self.mark(set_index, way, True)

    def lru(self, set_index: int, number: int) -> None:
        self.store("L", set_index, number)

    def mode(self, cd: bool, nw: bool) -> None:
        """CD and NW, the pair that a control call refuses among them."""
        self.store("M", int(cd), int(nw))

    def flip(self, index: int, mask: int) -> None:
        """Turn bits of a parity byte over: wrong DP bits, or ones in its upper four."""
        self.store("P", index, mask)

    def store_ranges(self, count: int, *words: int) -> None:
        """The directory's count of ranges and their words, which no call tests here."""
        line = _fields("G", count, *words)
        self.script_unit.run_line(line)
        self.lines.append(line)

    # --- calls

    def read(
        self, address: int, width: int, answers: Sequence[int] = ALL_KEN, pcd: bool = False
    ) -> Result:
        return self._call(_fields("R", address, width, int(pcd), _digits(answers)))

    def read_carrying(
        self,
        address: int,
        width: int,
        carried: Sequence[CarriedWrite],
        answers: Sequence[int] = ALL_KEN,
        pcd: bool = False,
    ) -> Result:
        lengths = [len(write.written) for write in carried]
        return self.read_lending(address, width, len(carried), lengths, carried, answers, pcd)

    def read_lending(
        self,
        address: int,
        width: int,
        count: int,
        lengths: Sequence[int],
        carried: Sequence[CarriedWrite],
        answers: Sequence[int] = ALL_KEN,
        pcd: bool = False,
    ) -> Result:
        """A carrying read whose count of writes and whose lengths may be any numbers."""
        assert answers, "the line has a field of answers, which cannot be empty"
        assert len(carried) >= min(count, CARRIED_MOST), "the line has the first four writes"
        fields = [_fields("Q", address, width, int(pcd), _digits(answers), count)]
        for length, write in zip(lengths, carried[:CARRIED_MOST]):
            written = write.written[:LINE_BYTES]
            assert len(written) == min(length, LINE_BYTES), write
            fields += [str(field) for field in (write.cycle, write.address, length, *written)]
        return self._call(" ".join(fields))

    def write(
        self, address: int, width: int, value: int, answers: Sequence[int] = ALL_KEN
    ) -> Result:
        return self._call(_fields("W", address, width, value, _digits(answers)))

    def board_read(self, address: int, width: int, pcd: bool = False) -> Result:
        return self._call(_fields("r", address, width, int(pcd)))

    def board_write(self, address: int, width: int, value: int) -> Result:
        return self._call(_fields("w", address, width, value))

    def external(self, address: int, written: bytes) -> Result:
        assert len(written) <= FIELD_ROOM
        return self._call(_fields("X", address, *written))

    def snoop(self, address: int) -> Result:
        return self._call(_fields("S", address))

    def flush(self) -> Result:
        return self._call("F")

    def control(self, cd: bool, nw: bool) -> Result:
        return self._call(_fields("C", int(cd), int(nw)))

    def reset(self) -> Result:
        return self._call("Z")

    def view(self, address: int) -> tuple[int, bytes]:
        """A line view: its number and the bytes that it shows, as they are printed."""
        held = self.held(address) is not None
        self._call(_fields("V", address))
        _, number, length, shown, *_ = self.rows[-1].split("\t")
        assert int(length) == len(shown) // 2
        self.met["views of held lines" if held else "views of RAM"] += int(number) == 0
        return int(number), bytes.fromhex(shown)

    def test_write(
        self, set_index: int, way: int, tag: int, valid: bool, sixteen: bytes
    ) -> Result:
        return self._call(_fields("p", set_index, way, tag, int(valid), *sixteen))

    def test_read(self, set_index: int, way: int) -> TestLine:
        """A test read: what it answers, as it is printed."""
        self._call(_fields("t", set_index, way))
        _, number, tag, mark, lru, sixteen, *_ = self.rows[-1].split("\t")
        return TestLine(int(number), int(tag), mark == "1", int(lru), bytes.fromhex(sixteen))

    def set_ranges(self, *given: Range) -> Result:
        return self.set_words(*(word for one in given for word in one))

    def set_words(self, *words: int) -> Result:
        """The call that sets ranges, lent these words."""
        assert len(words) <= WORD_ROOM
        return self._call(_fields("O", *words))

    def ranges(self) -> str:
        """Ask for the directory's ranges; the digest that is printed."""
        return self._ask("g")

    def board(self, address: int, width: int) -> str:
        """Ask for the board's answers; the field that is printed."""
        return self._ask(_fields("B", address, width))

    def _ask(self, line: str) -> str:
        """A line that is no call: the one field of its row."""
        _, row = self.script_unit.run_line(line)
        self.lines.append(line)
        self.rows.append(row)
        return row.rstrip("\n").split("\t")[1]

    def _call(self, line: str) -> Result:
        before = valid_and_tags(self.directory)
        self.met["LRU numbers flushed"] += line == "F" and any(self.directory.lru)
        result, row = self.script_unit.run_line(line)
        assert result is not None, line
        self.met += self._planted_lines.after_call(self.unit, line, result)
        self.lines.append(line)
        self.rows.append(row)
        after = valid_and_tags(self.directory)
        self._count(line[0], result, before, after)
        if line[0] == "Q" and result.number == 0:
            self.met += after_carrying(line, result, before, after)
        return result

    def _count(
        self,
        letter: str,
        result: Result,
        before: list[tuple[bool, int]],
        after: list[tuple[bool, int]],
    ) -> None:
        met, flags = self.met, [record.flags for record in result.records]
        met["calls"] += 1
        met[f"{COUNTED_AS.get(letter, letter)} {result.number}"] += 1
        if result.number == 0 and result.cycles == 0 and letter in "RrWw":
            met["read hits" if letter in "Rr" else "writes inside"] += 1
        if letter in "Rr":
            fills = sum(1 for flag in flags if flag & FILL and flag & LAST)
            kept = sum(old != new for old, new in zip(before, after))
            met["fills kept"] += kept
            met["fills dropped"] += fills - kept
        met["lines replaced"] += letter != "p" and sum(
            old != new and old[0] and new[0] for old, new in zip(before, after)
        )
        met["lines snooped"] += letter in "SX" and before != after
        met["wrong parity"] += any(flag & WRONG for flag in flags)
        met["values above 32 bits"] += result.value > NUMBER_LIMIT
        missed = sum(1 for flag in flags if flag & LAST)
        met[f"{missed} doublewords on the bus"] += result.number == 0 and letter in "RrWwQ"


def _fields(letter: str, *fields: str | int) -> str:
    return " ".join([letter, *(str(field) for field in fields if field != "")])


def _digits(answers: Sequence[int]) -> str:
    assert len(answers) <= FIELD_ROOM and all(0 <= answer <= 9 for answer in answers)
    return "".join(str(answer) for answer in answers)
