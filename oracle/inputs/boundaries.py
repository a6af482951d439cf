"""Either side of each limit: addresses, widths, values, digits; doublewords, lines and sets."""

from collections.abc import Iterator
from itertools import product

from unit486_model.access import Result
from unit486_model.bus import WIDTHS
from unit486_model.directory import LINE_BYTES, WAY_BYTES
from unit486_model.events import NUMBER_LIMIT, RAM_BYTES, VALUE_LIMIT

from checks.unit_calls import check

from .malformed import NUMBERS, with_field
from .writer import DONE, EventFile


def boundary_file(name: str) -> EventFile:
    file = EventFile(f"boundary-{name}")
    file.control(False, False)
    return file


# --- the end of RAM


def end_files() -> Iterator[EventFile]:
    far = [RAM_BYTES + 4, 131_072, 2**31 - 1, 2**31, 2**32 - 65_536]
    far += [NUMBER_LIMIT - 3, NUMBER_LIMIT - 1, NUMBER_LIMIT]
    for width in WIDTHS:
        file = boundary_file(f"end-{width}")
        for address in (*range(RAM_BYTES - 9, RAM_BYTES + 3), *far):
            number = 0 if address + width <= RAM_BYTES else 5
            check("write", file.write(address, width, 200).number, number)
            check("read", file.read(address, width).number, number)
            check("with PCD", file.read(address, width, pcd=True).number, number)
        for address in far:
            check("snoop", file.snoop(address), DONE)
            check("external", file.external(address, b"\x01"), Result(10))
        yield file


def last_line_file() -> EventFile:
    """The last line of RAM fills from each doubleword and is seen at its last byte."""
    file = boundary_file("last-line")
    for address in range(RAM_BYTES - LINE_BYTES, RAM_BYTES, 4):
        check("fill", file.read(address, 4), Result(0, 0, 4))
        check("last byte", file.read(RAM_BYTES - 1, 1), DONE)
        check("snoop", file.snoop(RAM_BYTES - 1), DONE)
    check("write", file.write(RAM_BYTES - 1, 1, 255), Result(0, 0, 1))
    check("read", file.read(RAM_BYTES - 4, 4), Result(0, 0xFF00_0000, 4))
    check("external", file.external(RAM_BYTES - 1, b"\x7f"), DONE)
    check("read", file.read(RAM_BYTES - 2, 2), Result(0, 0x7F00, 4))
    check("first line", file.read(0, 4), Result(0, 0, 4))
    return file


# --- widths and values


def width_files() -> Iterator[EventFile]:
    widths = [*range(13), 15, 16, 17, 64, 255, 256, 257, 260, 264]
    widths += [65_535, 65_536, 65_540, 65_544, 2**31, NUMBER_LIMIT]
    for letter, last in (("R", 0), ("W", 9)):
        file = boundary_file(f"width-{letter}")
        for width in widths:
            number = 0 if width in WIDTHS else 4
            check(f"width {width}", file.event(letter, 32, width, last).number, number)
            # 4 comes before 5, and before 8.
            number = 5 if width in WIDTHS else 4
            check("beyond RAM", file.event(letter, NUMBER_LIMIT, width, last), Result(number))
        for text, number in (("04", 0), ("0000000004", 0), ("00000000004", 11), ("03", 4)):
            check(f"width {text}", file.event(letter, 32, text, last).number, number)
        for text, number in (("08", 0), ("0000000008", 0), ("00000000008", 11), ("80", 4)):
            check(f"width {text}", file.event(letter, 32, text, last).number, number)
        check("held", file.read(32, 1).number, 0)
        yield file


def value_files() -> Iterator[EventFile]:
    values = [0, 1, 127, 128, 255, 256, 257, 32_768]
    values += [65_535, 65_536, 65_537, 2**24, 2**31, NUMBER_LIMIT, 2**32, 2**32 + 1]
    values += [2**40 + 9, 10**10, 2**63 - 1, 2**63, 10**19, VALUE_LIMIT - 1, VALUE_LIMIT]
    for width in (*WIDTHS, 3):
        file = boundary_file(f"value-{width}")
        written = 0
        for value in values:
            number = 4 if width == 3 else 8 if value >= 256**width else 0
            check(f"value {value}", file.write(32, width, value).number, number)
            written = written if number else value
            check("as written", file.read(32, 8).value, written)
            number = 4 if width == 3 else 5
            check("5 before 8", file.write(RAM_BYTES, width, value), Result(number))
        for text in (str(VALUE_LIMIT + 1), "9" * 20, "0" * 21, str(10**20), ""):
            check("malformed", file.event("W", 32, width, text), Result(11))
        yield file


# --- digits of a number

# A field, and the number that it is, or None.
TEXTS: tuple[tuple[str, int | None], ...] = (
    *(("0" * count, 0) for count in range(1, 11)),
    *(("0" * count + "4", 4) for count in range(10)),
    *(("0" * count + "16", 16) for count in range(9)),
    *(("1" * count, int("1" * count)) for count in range(1, 11)),
    *((str(10**count), 10**count) for count in range(10)),
    *((str(10**count - 1), 10**count - 1) for count in range(1, 10)),
    *((str(value), value) for value in (65_535, 65_536, 2**31 - 1, 2**31)),
    *((str(value), value) for value in (4_294_967_290, NUMBER_LIMIT - 1)),
    (str(NUMBER_LIMIT), NUMBER_LIMIT),
    (str(NUMBER_LIMIT + 1), None),
    (str(NUMBER_LIMIT + 5), None),
    *((text, None) for text in ("4294967300", "4294968000", "4300000000", "5000000000")),
    *(("9" * count, None) for count in range(10, 13)),
    *(("0" * count, None) for count in (11, 12, 20)),
    *((text, None) for text in ("00000000004", "04294967295", "10000000000")),
    (str(2**64 + 4), None),
)


# The same of W's value.
VALUE_TEXTS: tuple[tuple[str, int | None], ...] = (
    *(("0" * count, 0) for count in range(1, 21)),
    *(("0" * count + "4", 4) for count in range(20)),
    *(("1" * count, int("1" * count)) for count in range(1, 21)),
    *((str(10**count), 10**count) for count in range(1, 20)),
    *((str(10**count - 1), 10**count - 1) for count in range(1, 20)),
    *((str(2**bits + more), 2**bits + more) for bits in (31, 32, 33, 63) for more in (-1, 0, 1)),
    ("18446744073709551609", 2**64 - 7),
    ("18446744073709551615", VALUE_LIMIT),
    *((f"1844674407370955161{digit}", None) for digit in "6789"),
    *((text, None) for text in ("18446744073709551620", "18446744073709560000")),
    *((text, None) for text in ("18446744080000000000", "2" + "0" * 19, "9" * 20)),
    *(("0" * count, None) for count in (21, 22, 30, 40)),
    *((text, None) for text in ("0" * 20 + "4", "018446744073709551615", "1" * 21, "9" * 21)),
    *((str(value), None) for value in (10**20, 2**64 + 2**32, 2**65, 2**96 + 4)),
)


def value_digits_file() -> EventFile:
    """Of eight bytes, each digit of a good value shows in the read after it."""
    file = boundary_file("digits-W-value")
    for text, value in VALUE_TEXTS:
        expected = 11 if value is None else 0
        check(f"value {text}", file.event("W", 0, 8, text).number, expected)
        if value is not None:
            check("its value", file.read(0, 8).value, value)
    return file


def number_length_files() -> Iterator[EventFile]:
    for name, (letter, place) in NUMBERS.items():
        if name == "W-value":
            yield value_digits_file()
            continue
        file = boundary_file(f"digits-{name}")
        for text, value in TEXTS:
            expected = 11 if value is None else _number_of(name, value)
            check(f"{name} {text}", file.line(with_field(letter, place, text)).number, expected)
        yield file


def _number_of(name: str, value: int) -> int:
    """The answer to the event of `FIELDS` with this number in the field named."""
    if name.endswith("width"):
        return 0 if value in WIDTHS else 4
    if name in ("R-address", "W-address"):
        return 0 if value + 4 <= RAM_BYTES else 5
    if name == "X-address":
        return 0 if value < RAM_BYTES else 10
    return 0


# --- accesses of one to three doublewords, lines, sets


def doubleword_files() -> Iterator[EventFile]:
    """Each width at each byte of a line, on a line of its own, missed and then held."""
    for kind in ("read", "PCD", "write"):
        file = boundary_file(f"doubleword-{kind}")
        starts = product(WIDTHS, range(LINE_BYTES))
        inside = [(width, byte) for width, byte in starts if byte + width <= LINE_BYTES]
        for index, (width, byte) in enumerate(inside):
            address = LINE_BYTES * (3 * index + 1) + byte
            _missed_and_held(file, kind, address, width, len(_touched(address, width)))
        yield file


def _touched(address: int, width: int) -> range:
    """The doublewords of an access, by their addresses."""
    return range(address - address % 4, address + width, 4)


def _missed_and_held(file: EventFile, kind: str, address: int, width: int, touched: int) -> None:
    value = 0xE1A9_4C3B_9586_7768 % 256**width
    if kind == "write":
        check("miss", file.write(address, width, value), Result(0, 0, touched))
        check("fill", file.read(address, width), Result(0, value, 4))
        check("hit", file.write(address, width, value // 3), Result(0, 0, touched))
        check("held", file.read(address, width), Result(0, value // 3, 0))
        return
    file.write(address, width, value)
    pcd = kind == "PCD"
    check("miss", file.read(address, width, pcd), Result(0, value, touched if pcd else 4))
    check("again", file.read(address, width, pcd), Result(0, value, touched if pcd else 0))


# The first bytes of accesses that leave a line, by width.
CROSSING = ((2, -1), (4, -1), (4, -2), (4, -3), *((8, -back) for back in range(1, 8)))


def crossing_files() -> Iterator[EventFile]:
    """Over the end of a line and of the last set, neither line held, one, or both."""
    for name, lower, upper in (("none", 0, 0), ("lower", 1, 0), ("upper", 0, 1), ("both", 1, 1)):
        for where, first in (("line", LINE_BYTES), ("set", WAY_BYTES)):
            file = boundary_file(f"{where}-{name}")
            for index, (width, back) in enumerate(CROSSING):
                end = first + WAY_BYTES * (2 * index + 1)
                _over(file, end, end + back, width, (lower, upper))
            yield file


def _over(file: EventFile, end: int, address: int, width: int, held: tuple[int, int]) -> None:
    value = 0xB8A7_96F5_C3D2_E1F4 % 256**width
    touched = _touched(address, width)
    check("write", file.write(address, width, value), Result(0, 0, len(touched)))
    for line, is_held in zip((end - LINE_BYTES, end), held):
        if is_held:
            check("fill", file.read(line, 1).cycles, 4)
    missed = sum(not held[doubleword >= end] for doubleword in touched)
    check("PCD", file.read(address, width, pcd=True), Result(0, value, missed))
    check("read", file.read(address, width), Result(0, value, 8 - 4 * sum(held)))
    check("hits", file.read(address, width), Result(0, value, 0))
    check("write hits", file.write(address, width, value // 7), Result(0, 0, len(touched)))
    check("read back", file.read(address, width), Result(0, value // 7, 0))


def eight_byte_files() -> Iterator[EventFile]:
    """Eight bytes from each byte of a line on, in the line before RAM's last: the value whole, and
    its bytes by operands of every width; with fills and without."""
    for name, pcd in (("fill", False), ("PCD", True)):
        file = boundary_file(f"eight-bytes-{name}")
        for start in range(LINE_BYTES):
            address = RAM_BYTES - 2 * LINE_BYTES + start
            value = VALUE_LIMIT - 0x0102_0304_0506_0708 * start
            count = len(_touched(address, 8))
            check("write", file.write(address, 8, value), Result(0, 0, count))
            lines = 1 if start <= LINE_BYTES - 8 else 2
            cycles = count if pcd else 4 * lines
            check("read", file.read(address, 8, pcd), Result(0, value, cycles))
            for width in WIDTHS[:3]:
                upper = address + 8 - width
                expected = value >> 8 * (8 - width)
                check("its end", file.read(upper, width, pcd).value, expected)
            check("flush", file.flush(), DONE)
        for address in (RAM_BYTES - 8, RAM_BYTES - 7, RAM_BYTES - 4, RAM_BYTES - 1):
            number = 0 if address + 8 <= RAM_BYTES else 5
            check("RAM's end", file.write(address, 8, VALUE_LIMIT).number, number)
            check("RAM's end", file.read(address, 8, pcd).number, number)
        yield file


def table_file() -> EventFile:
    """Addresses in each block of the board table, all beyond RAM but the first."""
    file = boundary_file("blocks")
    for block in range(17):
        for address in (block * 1_048_576, (block + 1) * 1_048_576 - 2):
            number = 0 if address == 0 else 5
            check("read", file.read(address, 8).number, number)
            check("write", file.write(address, 4, 1).number, number)
            check("snoop", file.snoop(address), DONE)
    return file


def boundary_files() -> list[EventFile]:
    groups = (
        end_files(),
        [last_line_file(), table_file()],
        width_files(),
        value_files(),
        number_length_files(),
        doubleword_files(),
        crossing_files(),
        eight_byte_files(),
    )
    return [file for group in groups for file in group]
