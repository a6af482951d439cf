"""Files of the longest input that is read, of a byte less and of a byte more."""

from unit486_model.events import HEADER, INPUT_LIMIT

from checks.unit_calls import check

from .endings import file_of
from .random_events import Kind, RandomEvents
from .writer import EventFile

TOO_LONG = HEADER + b"0\t12\t0\t0\n"

# Leading zeros and many writes make for fewer rows.
MIXED = Kind("size", 1, 0, "RRRRRRRRWWWWWWWWWWWWWWWWWWWWXXXXSFCZ", wrong=0.02, zeros=0.95)
# More than a line takes, or a reset and the control call after it.
MARGIN = 100


def good_lines(name: str, length: int) -> bytes:
    """Well-formed lines of so many bytes, the last newline among them."""
    events = RandomEvents(MIXED, name)
    events.file.control(False, False)
    left = length - _size(events.file.lines)
    while left > MARGIN:
        count = len(events.file.lines)
        events.add()
        left -= _size(events.file.lines[count:])
    # Snoops of five bytes and flushes of two make up any number that is left.
    snoops = left % 2
    return events.file.text() + b"S\t10\n" * snoops + b"F\n" * ((left - 5 * snoops) // 2)


def _size(lines: list[bytes]) -> int:
    return sum(len(line) + 1 for line in lines)


def long_lines(length: int) -> bytes:
    """External writes of 80 bytes, which get 10, longer ones, which are malformed, and reads; the
    last line ends without a newline."""
    longest = b"X\t0\t" + b"AB" * 38
    lines = (longest, longest.replace(b"0", b"00"), 4 * longest, b"R\t0\t4\t0", b"")
    part = b"\n".join(lines)
    return (part * (length // len(part) + 1))[: length - 1] + b"Z"


def size_file(name: str, text: bytes, length: int) -> EventFile:
    file = file_of(f"size-{name}", text)
    check(f"{name} bytes", len(file.text()), length)
    check(f"{name} too long", file.printed() == TOO_LONG, length > INPUT_LIMIT)
    return file


def size_files() -> list[EventFile]:
    less, most, more = INPUT_LIMIT - 1, INPUT_LIMIT, INPUT_LIMIT + 1
    line = b"X\t0\t" + b"AB" * ((most - 4) // 2)
    return [
        size_file("65535-long-lines", long_lines(less), less),
        size_file("65536-mixed", good_lines("size-mixed", most), most),
        size_file("65536-newlines", b"\n" * most, most),
        size_file("65536-line", line, most),
        # The newline that could be left out is the byte too many.
        size_file("65537-mixed", good_lines("size-mixed-more", more), more),
        size_file("65537-newlines", b"\n" * more, more),
        size_file("65537-line", line + b"\n", more),
    ]
