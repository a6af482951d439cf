"""Random events, files of several kinds of use."""

from collections.abc import Callable
from dataclasses import dataclass

from unit486_model.bus import WIDTHS
from unit486_model.directory import LINE_BYTES, SETS, WAY_BYTES
from unit486_model.events import RAM_BYTES

from checks.unit_calls import BAD_WIDTHS
from scripts.random_source import RandomSource

from .writer import EventFile, event_line

FAR = (RAM_BYTES, RAM_BYTES + 1, RAM_BYTES + 2048, 2**31, 4_294_967_294, 4_294_967_295)
# Those of a control call, the mode that fills as often as it is to be drawn.
PAIRS = (*[(False, False)] * 3, (True, False), (True, True), (True, True), (False, True))


@dataclass(frozen=True)
class Kind:
    """What the events of a file are like."""

    name: str
    files: int
    events: int
    # Letters, each as often as it is to be drawn.
    letters: str
    # How many lines of a set are used.
    tags: int = 6
    # The share of arguments that are refused or far off, and that of lines that are changed.
    wrong: float = 0.0
    changed: float = 0.0
    # The share of accesses outside the hot sets.
    elsewhere: float = 0.2
    # The share of lines whose numbers have leading zeros.
    zeros: float = 0.05


KINDS = (
    Kind("mixed", 40, 34, "RRRRRRRRWWWWXXSSFCZ", wrong=0.06, changed=0.08),
    Kind("hot-random", 10, 54, "RRRRRRRRRRRRRWWWS", tags=7, changed=0.02, elsewhere=0.03),
    Kind("modes-random", 10, 46, "RRRRRRRRWWWWWWXSFCCCCZ", tags=2, wrong=0.02, elsewhere=0.1),
    Kind("masters-random", 10, 40, "RRRRRRRXXXXSSSW", tags=3, wrong=0.03),
    Kind("malformed-random", 8, 40, "RRRWWWXXXSSFCCZ", wrong=0.05, changed=0.8),
)


class RandomEvents:
    """Events of one file; the seed is the file's name."""

    def __init__(self, kind: Kind, name: str) -> None:
        self.kind = kind
        self.file = EventFile(name)
        self.source = RandomSource(self.file.name)
        self.hot = self.source.choice((0, 1, 64, SETS - 1, self.source.below(SETS)))
        self.tags = self.source.sample(range(RAM_BYTES // WAY_BYTES), kind.tags)
        self.lines: dict[str, Callable[[], bytes]] = {
            "R": self._read,
            "W": self._write,
            "X": self._external,
            "S": lambda: self._line("S", self._address()),
            "F": lambda: b"F",
            "C": self._control,
            "Z": lambda: b"Z",
        }

    def made(self) -> EventFile:
        if self.source.chance(0.9):
            self.file.control(False, False)
        for _ in range(self.kind.events):
            self.add()
        return self.file

    def add(self) -> None:
        """One more line; after a reset mostly the mode that fills."""
        line = self.lines[self.source.choice(self.kind.letters)]()
        if self.source.chance(self.kind.changed):
            line = self._changed(line)
        self.file.line(line)
        if line == b"Z" and self.source.chance(0.7):
            self.file.control(False, False)

    def _wrong(self) -> bool:
        return self.source.chance(self.kind.wrong)

    # --- fields

    def _line(self, letter: str, *fields: int | str) -> bytes:
        """Numbers may have leading zeros, bytes have none."""
        digits = self.source.between(7, 10) if self.source.chance(self.kind.zeros) else 1
        texts = [f"{field:0{digits}}" if isinstance(field, int) else field for field in fields]
        return "\t".join([letter, *texts]).encode()

    def _value(self, width: int) -> str:
        """Of the width's bits, or of too many; at times with leading zeros, up to twenty digits."""
        wrong = self._wrong()
        bits = self.source.choice((8, 9, 16, 17, 32, 33, 64)) if wrong else 8 * min(width, 8)
        digits = self.source.between(7, 20) if self.source.chance(self.kind.zeros) else 1
        return f"{self.source.bits(bits):0{digits}}"

    def _address(self) -> int:
        """Mostly in a few lines of one set and the next, often at the end of a line."""
        if self._wrong():
            return self.source.choice((*FAR, RAM_BYTES - 1, RAM_BYTES - 3))
        if self.source.chance(self.kind.elsewhere):
            return self.source.below(RAM_BYTES)
        line = self.source.choice(self.tags) * WAY_BYTES + self.hot * LINE_BYTES
        return (line + self.source.between(-4, LINE_BYTES + 1)) % RAM_BYTES

    def _width(self) -> int:
        return self.source.choice(BAD_WIDTHS if self._wrong() else WIDTHS)

    # --- lines

    def _read(self) -> bytes:
        pcd = "1" if self.source.chance(0.1) else "0"
        return self._line("R", self._address(), self._width(), pcd)

    def _write(self) -> bytes:
        width = self._width()
        return self._line("W", self._address(), width, self._value(width))

    def _external(self) -> bytes:
        address = self._address()
        room = LINE_BYTES - address % LINE_BYTES
        count = self.source.between(1, self.source.choice((room, min(room, 3))))
        if self._wrong():
            count = self.source.choice((0, room + 1, LINE_BYTES, LINE_BYTES + 1, 32))
        return self._line("X", address, self.source.bytes_of(count).hex().upper())

    def _control(self) -> bytes:
        cd, nw = self.source.choice(PAIRS)
        return event_line("C", int(cd), int(nw))

    def _changed(self, line: bytes) -> bytes:
        """A line that is malformed, or by chance another event."""
        at = self.source.below(len(line))
        byte = bytes([self.source.below(256)]).replace(b"\n", b"\r")
        ways: tuple[Callable[[], bytes], ...] = (
            lambda: line[:at] + line[at + 1 :],
            lambda: line[:at] + byte + line[at:],
            lambda: line[:at] + byte + line[at + 1 :],
            lambda: line[:at] + line[at : at + 1] + line[at:],
            lambda: line[:at],
            lambda: line[at:],
            lambda: line + self.source.choice((b"\r", b"\t", b" ", b"\t0", b"0")),
            lambda: line.lower(),
            lambda: line.replace(b"\t", b" ", 1),
            lambda: line + line,
            lambda: line.ljust(self.source.between(79, 90), byte),
        )
        return self.source.choice(ways)()


def random_files() -> list[EventFile]:
    return [
        RandomEvents(kind, f"{kind.name}-{index:02}").made()
        for kind in KINDS
        for index in range(1, kind.files + 1)
    ]
