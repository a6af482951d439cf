"""External writes and snoops between reads that would otherwise hit stale lines."""

from collections.abc import Iterator

from unit486_model.access import Result
from unit486_model.directory import LINE_BYTES, WAY_BYTES
from unit486_model.events import RAM_BYTES

from checks.unit_calls import check

from .writer import DONE, EventFile

REFUSED = Result(10)
LINE = 0x1230


def master_file(name: str) -> EventFile:
    file = EventFile(f"masters-{name}")
    file.control(False, False)
    return file


def pattern(start: int, count: int) -> bytes:
    """Bytes that differ from line to line and from byte to byte."""
    return bytes((37 * (start + index) + 11) % 256 for index in range(count))


def check_line(file: EventFile, line: int, expected: bytes, held: bool) -> None:
    """The sixteen bytes of a line by reads, of which the first fills it where it is not held."""
    for at in range(0, LINE_BYTES, 4):
        value = int.from_bytes(expected[at : at + 4], "little")
        cycles = 0 if held or at else 4
        check("seen", file.read(line + at, 4), Result(0, value, cycles))


def count_files() -> Iterator[EventFile]:
    """1 to 16 bytes at every byte of a held line, and one byte further: across lines."""
    for count in range(1, LINE_BYTES + 1):
        file = master_file(f"bytes-{count:02}")
        held = bytearray(LINE_BYTES)
        check_line(file, LINE, held, held=False)
        for byte in range(LINE_BYTES - count + 1):
            written = pattern(byte, count)
            check("external", file.external(LINE + byte, written), DONE)
            held[byte : byte + count] = written
            word = byte // 4 * 4
            value = int.from_bytes(held[word : word + 4], "little")
            check("no stale hit", file.read(LINE + word, 4), Result(0, value, 4))
        across = LINE_BYTES - count + 1
        if count > 1:
            check("across", file.external(LINE + across, bytes(count)), REFUSED)
        check_line(file, LINE, held, held=True)
        check_line(file, LINE + LINE_BYTES, bytes(LINE_BYTES), held=False)
        yield file


def pair_value_file() -> EventFile:
    """Every pair of digits, sixteen to a line."""
    file = master_file("every-pair")
    for upper in range(16):
        written = bytes(range(16 * upper, 16 * upper + 16))
        check("external", file.external(LINE, written), DONE)
        check_line(file, LINE, written, held=False)
    return file


def refused_files() -> Iterator[EventFile]:
    """Empty fields, more than sixteen bytes, bytes beyond RAM: the held line stays."""
    file = master_file("empty")
    _hold(file)
    for address in (LINE, LINE + 15, 0, RAM_BYTES - 1, RAM_BYTES, 4_294_967_295):
        check("empty", file.event("X", address, ""), REFUSED)
        check_line(file, LINE, pattern(0, LINE_BYTES), held=True)
    yield file
    file = master_file("many")
    _hold(file)
    for count in range(15, 37):
        number = 0 if count <= LINE_BYTES else 10
        check(f"{count} bytes", file.external(LINE + 0x100, bytes(count)).number, number)
        check(f"{count} at the line", file.external(LINE, b"\xee" * max(count, 17)), REFUSED)
    check_line(file, LINE, pattern(0, LINE_BYTES), held=True)
    yield file
    yield _across_file()
    yield _beyond_file()


def _hold(file: EventFile) -> None:
    check("external", file.external(LINE, pattern(0, LINE_BYTES)), DONE)
    check_line(file, LINE, pattern(0, LINE_BYTES), held=False)


def _across_file() -> EventFile:
    """Every first byte and count that leave the line."""
    file = master_file("across")
    _hold(file)
    for byte in range(1, LINE_BYTES):
        for count in (LINE_BYTES - byte + 1, LINE_BYTES):
            check("across", file.external(LINE + byte, b"\xee" * count), REFUSED)
    check_line(file, LINE, pattern(0, LINE_BYTES), held=True)
    check_line(file, LINE + LINE_BYTES, bytes(LINE_BYTES), held=False)
    return file


def _beyond_file() -> EventFile:
    """The end of RAM, and addresses whose lower sixteen bits are a held line's."""
    file = master_file("beyond")
    _hold(file)
    last = RAM_BYTES - LINE_BYTES
    check_line(file, last, bytes(LINE_BYTES), held=False)
    beyond = [RAM_BYTES, RAM_BYTES + LINE, 0x8000_0000 + LINE, 0xFFFF_0000 + LINE, 0xFFFF_FFFF]
    for address in beyond:
        check("beyond", file.external(address, b"\xee"), REFUSED)
    check_line(file, LINE, pattern(0, LINE_BYTES), held=True)
    for count in range(1, LINE_BYTES + 1):
        check("past the end", file.external(RAM_BYTES - count + 1, bytes(count)), REFUSED)
        check("up to the end", file.external(RAM_BYTES - count, pattern(9, count)), DONE)
        value = int.from_bytes(pattern(9, count)[-1:], "little")
        check("last byte", file.read(RAM_BYTES - 1, 1), Result(0, value, 4))
    return file


def snoop_files() -> Iterator[EventFile]:
    """A snoop drops the line of its address, that line alone, and no bytes."""
    file = master_file("snoop-bytes")
    _hold(file)
    for byte in range(LINE_BYTES):
        check("snoop", file.snoop(LINE + byte), DONE)
        check("dropped", file.held(LINE), None)
        check_line(file, LINE, pattern(0, LINE_BYTES), held=False)
    yield file
    file = master_file("snoop-others")
    _hold(file)
    others = [LINE - 1, LINE + LINE_BYTES, LINE + WAY_BYTES, LINE - WAY_BYTES, RAM_BYTES + LINE]
    others += [0x8000_0000 + LINE, 0xFFFF_0000 + LINE, 0, RAM_BYTES - 1, RAM_BYTES, 0xFFFF_FFFF]
    for address in others:
        check("snoop", file.snoop(address), DONE)
        check_line(file, LINE, pattern(0, LINE_BYTES), held=True)
    yield file
    yield _one_of_four()


def _one_of_four() -> EventFile:
    """In a full set only the line with the address's tag goes, by a snoop or a write."""
    file = master_file("full-set")
    lines = [LINE % WAY_BYTES + WAY_BYTES * tag for tag in (0, 3, 17, 31)]
    for line in lines:
        file.external(line, pattern(line // WAY_BYTES, LINE_BYTES))
        check_line(file, line, pattern(line // WAY_BYTES, LINE_BYTES), held=False)
    for turn, line in enumerate(lines):
        check("master", file.snoop(line) if turn % 2 else file.external(line + 5, b"\x77"), DONE)
        for other in lines:
            held = other != line
            check("held", file.held(other) is not None, held)
            check("read", file.read(other, 1).cycles, 0 if held else 4)
    return file


def written_line_file() -> EventFile:
    """Reads, writes and external writes of one line in turn: the last writer is seen."""
    file = master_file("in-turn")
    held = bytearray(LINE_BYTES)
    for turn in range(24):
        byte = 5 * turn % LINE_BYTES
        if turn % 3 == 2:
            check("snoop", file.snoop(LINE + byte), DONE)
        elif turn % 2:
            held[byte : byte + 1] = b"%c" % (200 + turn)
            check("write", file.write(LINE + byte, 1, 200 + turn), Result(0, 0, 1))
        else:
            held[byte : byte + 1] = b"%c" % (100 + turn)
            check("external", file.external(LINE + byte, b"%c" % (100 + turn)), DONE)
        check_line(file, LINE, bytes(held), held=file.held(LINE) is not None)
    return file


def crossing_file() -> EventFile:
    """Reads over two held lines, of which another master changes one, the other or both."""
    file = master_file("two-lines")
    upper = LINE + LINE_BYTES
    check("fills", file.read(upper - 2, 4), Result(0, 0, 8))
    check("hits", file.read(upper - 2, 4), DONE)
    file.external(upper - 1, b"\x11")
    check("lower", file.read(upper - 2, 4), Result(0, 0x1100, 4))
    file.external(upper, b"\x22")
    check("upper", file.read(upper - 2, 4), Result(0, 0x22_1100, 4))
    file.external(upper - 2, b"\x33")
    file.external(upper + 1, b"\x44")
    check("both", file.read(upper - 2, 4), Result(0, 0x4422_1133, 8))
    file.snoop(upper - 1)
    file.snoop(upper)
    check("snooped", file.read(upper - 2, 4), Result(0, 0x4422_1133, 8))
    check("hits", file.read(upper - 2, 4), Result(0, 0x4422_1133, 0))
    return file


def master_files() -> list[EventFile]:
    singles = [pair_value_file(), written_line_file(), crossing_file()]
    return [*singles, *count_files(), *refused_files(), *snoop_files()]
