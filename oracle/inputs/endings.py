"""How a file ends: with and without its last newline, one byte, nothing, and line ends with CR."""

from collections.abc import Iterator

from unit486_model.events import HEADER, lines_of

from checks.unit_calls import check
from checks.vectors import PROGRAM_INPUT, PROGRAM_OUTPUT

from .malformed import GOOD
from .writer import EventFile, event_line


def file_of(name: str, text: bytes) -> EventFile:
    """A file of these bytes."""
    file = EventFile(name)
    file.last_newline = text.endswith(b"\n")
    for line in lines_of(text):
        file.line(line)
    check("bytes", file.text(), text)
    return file


def ending_file(name: str, text: bytes, *answers: int) -> EventFile:
    """The answers are those that document 01 gives."""
    file = file_of(f"ending-{name}", text)
    rows = file.printed().removeprefix(HEADER).splitlines()
    check(f"answers of {name}", [int(row.split(b"\t")[1]) for row in rows], list(answers))
    return file


def example_file() -> EventFile:
    file = file_of("example", PROGRAM_INPUT + b"\n")
    check("example", file.printed(), PROGRAM_OUTPUT)
    return file


def last_line_files() -> Iterator[EventFile]:
    """A last line without its newline is a line like any other."""
    start = b"C\t0\t0\nR\t0\t4\t0\n"
    for letter, good in GOOD.items():
        yield ending_file(f"good-{letter}", start + good, 0, 0, 0)
    for name, last in (
        ("letter", b"Q"),
        ("field", b"R\t0\t4"),
        ("tab", b"F\t"),
        ("cr", b"F\r"),
        ("blank", b" "),
        ("long", b"Z" * 300),
    ):
        yield ending_file(f"malformed-{name}", start + last, 0, 0, 11)
    longest = event_line("X", 0, "AB" * 38)
    yield ending_file("80-bytes", start + longest, 0, 0, 10)
    yield ending_file("81-bytes", start + longest + b"A", 0, 0, 11)
    yield ending_file("empty-bytes", start + b"X\t0\t", 0, 0, 10)


def one_byte_files() -> Iterator[EventFile]:
    for code in (0, 9, 13, 32, 48, 82, 102, 128, 255):
        yield ending_file(f"one-byte-{code:03}", bytes([code]), 11)
    for code in (70, 90):
        yield ending_file(f"one-byte-{code:03}", bytes([code]), 0)


def newline_files() -> Iterator[EventFile]:
    yield ending_file("nothing", b"")
    yield ending_file("newline", b"\n", 11)
    yield ending_file("newlines", b"\n\n\n", 11, 11, 11)
    yield ending_file("newline-first", b"\nZ", 11, 0)
    yield ending_file("newline-last", b"Z\n", 0)
    yield ending_file("empty-line-last", b"Z\n\n", 0, 11)


def return_files() -> Iterator[EventFile]:
    """CR before the newline, after it, and in its place, all malformed."""
    text = PROGRAM_INPUT + b"\n"
    yield ending_file("cr-newline", text.replace(b"\n", b"\r\n"), *[11] * 7)
    yield ending_file("newline-cr", text.replace(b"\n", b"\n\r"), 0, *[11] * 7)
    yield ending_file("cr-alone", text.replace(b"\n", b"\r"), 11)
    yield ending_file("cr-last", b"C\t0\t0\nF\n\r", 0, 0, 11)
    yield ending_file("cr-once", b"C\t0\t0\nF\r\nF\n", 0, 11, 0)


def ending_files() -> list[EventFile]:
    return [*last_line_files(), *one_byte_files(), *newline_files(), *return_files()]
