"""Random calls on random units, a script for each kind of use."""

from collections.abc import Callable, Sequence
from dataclasses import dataclass

from unit486_model.bus import ANSWERS, KEN, LOG_WORDS, WIDTHS
from unit486_model.carried import CARRIED_MOST, CarriedWrite
from unit486_model.directory import LINE_BYTES, LRU_LIMIT, SETS, TAG_LIMIT, WAY_BYTES, WAYS
from unit486_model.memory import parity_length
from unit486_model.refusal import DATA_BYTES

from checks.unit_calls import BAD_WIDTHS

from .random_source import RandomSource
from .writer import Script

PAIRS = ((False, False), (True, False), (True, True))


@dataclass(frozen=True)
class Kind:
    """What the units of a script are like, and which calls they get."""

    name: str
    units: int
    calls: int
    ram: tuple[int, ...]
    # Letters, each as often as it is to be drawn.
    letters: str
    # The share of arguments that are wrong, or anything.
    wrong: float = 0.0
    # The share of parity bytes that are changed at the start.
    faults: float = 0.0
    # Whether lines are stored at the start, and the share of sets whose state they may break.
    stored: bool = False
    ill_formed: float = 0.0
    # The share of units that have wrong lengths.
    wrong_lengths: float = 0.0


KINDS = (
    Kind("tiny", 11, 64, (16, 32), "RRRRRRWWWXSFCMV", wrong=0.06, faults=0.3, stored=True),
    Kind("hot", 10, 80, (12_304, 16_400), "RRRRRRRRRRRRRRWWWWWWXSV", wrong=0.01),
    Kind("masters", 9, 80, (2064, 4128), "RRRRRRRWWWWXXXXSSSFCCMMZVV", faults=0.05),
    Kind("large", 8, 64, (65_536, 20_496), "RRRRRRWWWrrwXXSFCV", wrong=0.04, faults=0.002),
    Kind("long", 2, 420, (2064, 16_400), "RRRRRRRRWWWWrwXXSV", wrong=0.02, stored=True),
    Kind(
        "refused",
        88,
        11,
        (16, 32, 2064),
        "RRRRRWWWWWXXXSSSCFrVVVV",
        wrong=0.08,
        stored=True,
        ill_formed=0.5,
        wrong_lengths=0.4,
    ),
    Kind(
        "planted",
        22,
        36,
        (4128, 8224),
        "ppppppttttRRRRRRrrrWWwXSVVFFZC",
        wrong=0.04,
        wrong_lengths=0.2,
    ),
    Kind(
        "carrying",
        48,
        3,
        (32, 64, 2080),
        "QQQQQQQQr",
        wrong=0.04,
        faults=0.08,
        stored=True,
        ill_formed=0.25,
        wrong_lengths=0.25,
    ),
)


class RandomCalls:
    """One script of a kind."""

    def __init__(self, kind: Kind) -> None:
        self.kind = kind
        self.source = RandomSource(f"replay {kind.name}")
        self.script = Script(f"{kind.name}.txt")
        # The set that most accesses of the unit go to, with its neighbour.
        self.hot = 0
        self.calls: dict[str, Callable[[], object]] = {
            "R": self._read,
            "W": self._write,
            "Q": self._read_carrying,
            "r": self._board_read,
            "w": self._board_write,
            "X": self._external,
            "S": lambda: self.script.snoop(self._address()),
            "F": self.script.flush,
            "C": self._control,
            "M": self._mode,
            "Z": self._reset,
            "V": lambda: self.script.view(self._address()),
            "p": self._test_write,
            "t": lambda: self.script.test_read(*self._place()),
        }

    def made(self) -> Script:
        for _ in range(self.kind.units):
            self._unit()
            for _ in range(self.kind.calls):
                self.calls[self.source.choice(self.kind.letters)]()
        return self.script

    def _wrong(self) -> bool:
        return self.source.chance(self.kind.wrong)

    # --- units

    def _unit(self) -> None:
        ram = self.source.choice(self.kind.ram)
        log = LOG_WORDS + self.source.choice((0, 1, 12))
        lengths = [ram, parity_length(ram), DATA_BYTES, log]
        if self.kind.wrong_lengths and self.source.chance(self.kind.wrong_lengths):
            lengths = self._wrong_lengths(lengths)
        # Mostly in the mode that fills, else in any, that which no control call sets too.
        cd, nw = (False, False)
        if self.source.chance(0.3):
            cd, nw = self.source.chance(0.5), self.source.chance(0.5)
        self.script.new(*lengths, cd=cd, nw=nw)
        self._add_faults()
        self.hot = 0 if ram < WAY_BYTES else self.source.choice((0, 0, SETS - 1, 77))
        if self.kind.stored:
            for set_index in (self.hot, (self.hot + 1) % SETS):
                self._store_lines(set_index)

    def _wrong_lengths(self, lengths: Sequence[int]) -> list[int]:
        ram, parity, data, log = lengths
        wrong = [
            [self.source.choice((0, 4, 8, 15, 17, 24, 40)), parity, data, log],
            [ram, self.source.choice((0, parity - 1, parity + 1, 4 * parity)), data, log],
            [ram, parity, self.source.choice((0, 16, data - 1, data + 1, data + 16)), log],
            [ram, parity, data, self.source.choice((0, 3, 48, LOG_WORDS - 1))],
        ]
        chosen = self.source.choice(wrong)
        # Two wrong lengths at times: the lower number wins.
        if self.source.chance(0.2):
            chosen[2], chosen[3] = data - 1, LOG_WORDS - 1
        return chosen

    def _add_faults(self) -> None:
        """Wrong DP bits, and ones in the upper four."""
        for index in range(len(self.script.unit.parity)):
            if self.source.chance(self.kind.faults):
                self.script.flip(index, self.source.choice((0xF0, 0x10, 1, 2, 4, 8, 0xFF)))

    def _store_lines(self, set_index: int) -> None:
        """Lines that fills did not bring in, and an LRU number; at times a broken state."""
        broken = bool(self.kind.ill_formed) and self.source.chance(self.kind.ill_formed)
        tags = self.source.sample((0, 1, 2, 5, 1000, TAG_LIMIT - 1, TAG_LIMIT), WAYS)
        if broken and self.source.chance(0.6):
            choices = (0, 1, 6, 900, TAG_LIMIT, TAG_LIMIT + 1, 2**31, 2**32 - 1)
            tags = [self.source.choice(choices) for _ in range(WAYS)]
        for way, tag in enumerate(tags):
            if self.source.chance(0.6):
                self.script.store_line(set_index, way, tag)
            elif self.source.chance(0.3):
                self.script.tag(set_index, way, tag)
        if broken and self.source.chance(0.6):
            self.script.lru(set_index, self.source.choice((8, 11, 128, 255)))
        elif self.source.chance(0.5):
            self.script.lru(set_index, self.source.below(LRU_LIMIT + 1))

    # --- arguments

    def _address(self) -> int:
        """Mostly in the hot sets, often at the end of a line, sometimes anywhere."""
        length = max(len(self.script.unit.ram), LINE_BYTES)
        if self._wrong():
            choices = (length - 1, length - 3, length, 4294967295, self.source.below(2**32))
            return self.source.choice(choices)
        if self.source.chance(0.25):
            return self.source.below(length)
        line = WAY_BYTES * self.source.below(8) + LINE_BYTES * self.hot
        return (line + self.source.between(-4, 2 * LINE_BYTES - 1)) % length

    def _place(self) -> tuple[int, int]:
        """Set and way of a test call, mostly in the hot sets."""
        if self._wrong():
            return self.source.choice(((SETS, 0), (0, WAYS), (2**32 - 1, 2**32 - 1)))
        sets = (self.hot, self.hot, (self.hot + 1) % SETS, self.source.below(SETS))
        return self.source.choice(sets), self.source.below(WAYS)

    def _width(self) -> int:
        return self.source.choice(BAD_WIDTHS if self._wrong() else WIDTHS)

    def _answers(self) -> list[int]:
        """Often such that fills are kept, else anything."""
        if self._wrong():
            return self._wrong_answers()
        chance = self.source.below(100)
        if chance < 35:
            return [KEN] * ANSWERS
        if chance < 50:
            return [self.source.choice((1, 1, 1, 5, 3))] * ANSWERS
        ken = KEN if chance < 75 else 0
        return [self.source.below(8) | ken for _ in range(ANSWERS)]

    def _wrong_answers(self) -> list[int]:
        """Too few, too many, or one that is none."""
        count = self.source.choice((0, 1, ANSWERS - 1, ANSWERS, ANSWERS + 1, 64))
        return [self.source.choice((0, 1, 7, 8, 9)) for _ in range(count)]

    def _value(self, width: int) -> int:
        wrong = self._wrong()
        bits = self.source.choice((8, 9, 16, 17, 32, 33, 64)) if wrong else min(8 * width, 64)
        return self.source.bits(bits)

    # --- calls

    def _read(self) -> None:
        pcd = self.source.chance(0.12)
        self.script.read(self._address(), self._width(), self._answers(), pcd)

    def _write(self) -> None:
        width = self._width()
        self.script.write(self._address(), width, self._value(width), self._answers())

    def _board_read(self) -> None:
        self.script.board_read(self._address(), self._width(), self.source.chance(0.12))

    def _board_write(self) -> None:
        width = self._width()
        self.script.board_write(self._address(), width, self._value(width))

    def _external(self) -> None:
        address = self._address()
        room = LINE_BYTES - address % LINE_BYTES
        count = self.source.between(1, self.source.choice((room, min(room, 3))))
        if self._wrong():
            count = self.source.choice((0, room, room + 1, LINE_BYTES, LINE_BYTES + 1, 30))
        self.script.external(address, self.source.bytes_of(count))

    def _read_carrying(self) -> None:
        """Mostly by doublewords, in cycles of which the numbers of the writes often fall."""
        address, width, pcd = self._address(), self._width(), self.source.chance(0.08)
        answers = [self.source.choice((1, 1, 1, 1, 5, 2))] * ANSWERS
        if self._wrong():
            answers = self._wrong_answers() or [0]
        elif self.source.chance(0.2):
            answers = self._answers() or [0]
        count = self.source.between(1, CARRIED_MOST)
        cycles = [self.source.choice((0, 0, 1, 2, 3, 4, 6, 2**32 - 1)) for _ in range(count)]
        cycles = cycles if self._wrong() else sorted(cycles)
        carried = [self._carried_write(cycle, address) for cycle in cycles]
        lengths = [len(write.written) for write in carried]
        if self._wrong() and count == CARRIED_MOST:
            count = self.source.choice((CARRIED_MOST + 1, 2**32 - 1))
        self.script.read_lending(address, width, count, lengths, carried, answers, pcd)

    def _carried_write(self, cycle: int, address: int) -> CarriedWrite:
        """Mostly in the lines that are read, or in others of their sets."""
        length = max(len(self.script.unit.ram), LINE_BYTES)
        near = (address + WAY_BYTES * self.source.below(2) + self.source.below(8)) % length
        place = near if self.source.chance(0.8) else self._address()
        room = LINE_BYTES - place % LINE_BYTES
        count = self.source.between(1, min(room, 2))
        if self._wrong():
            count = self.source.choice((0, room + 1, LINE_BYTES + 1))
        return CarriedWrite(cycle, place, self.source.bytes_of(count))

    def _control(self) -> None:
        """Mostly back to the mode that fills."""
        pair = self.source.choice(PAIRS) if self.source.chance(0.4) else (False, False)
        self.script.control(*((False, True) if self.source.chance(0.15) else pair))

    def _mode(self) -> None:
        """A line filled, then any pair stored and the line used; last a control call, so that
        the mode does not stay for long."""
        address, width = self._address(), self.source.choice(WIDTHS)
        self.script.read(address, width)
        self.script.mode(self.source.chance(0.6), self.source.chance(0.6))
        self.script.write(address, width, self._value(width), self._answers())
        if self.source.chance(0.5):
            self._external()
        else:
            self.script.snoop(address)
        self.script.read(address, width, self._answers())
        self.script.control(False, False)

    def _test_write(self) -> None:
        """Mostly with CD = 1, for which there is a control call. The planted line is then used at
        times, or its tag planted once more in another way."""
        if self.source.chance(0.7):
            self.script.control(True, self.source.chance(0.3))
        set_index, way = self._place()
        tag = self.source.choice((0, 1, 2, 3, TAG_LIMIT))
        if self._wrong():
            tag = self.source.choice((TAG_LIMIT + 1, 2**31, 2**32 - 1))
        self._plant(set_index, way, tag)
        if self.source.chance(0.3):
            self._plant(set_index, way ^ 1, tag)
        address = WAY_BYTES * tag + LINE_BYTES * set_index + self.source.below(LINE_BYTES)
        if address < len(self.script.unit.ram):
            self._use_line(address)

    def _plant(self, set_index: int, way: int, tag: int) -> None:
        sixteen = self.source.bytes_of(LINE_BYTES)
        self.script.test_write(set_index, way, tag, self.source.chance(0.8), sixteen)

    def _use_line(self, address: int) -> None:
        """A read of a line, a write and a read, or another master's call."""
        use = self.source.below(4)
        if use == 0:
            self.script.board_write(address, 1, self._value(1))
        if use < 3:
            width = self.source.choice(WIDTHS)
            self.script.board_read(address - address % width, width)
        else:
            self.script.snoop(address)

    def _reset(self) -> None:
        self.script.reset()
        self._control()


def random_scripts() -> list[Script]:
    return [RandomCalls(kind).made() for kind in KINDS]
