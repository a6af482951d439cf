"""Lines that break one rule of the line format each, and lines that just keep it."""

from collections.abc import Iterator, Sequence
from itertools import product

from unit486_model.access import Result
from unit486_model.events import MALFORMED

from checks.unit_calls import check

from .writer import EventFile, event_line

# Events of each letter. Any of them would show in the reads of a probed file.
FIELDS: dict[str, tuple[str, ...]] = {
    "R": ("4096", "4", "0"),
    "W": ("0", "4", "7"),
    "X": ("0", "AB"),
    "S": ("0",),
    "F": (),
    "C": ("1", "1"),
    "Z": (),
}
GOOD = {letter: event_line(letter, *fields) for letter, fields in FIELDS.items()}
# The fields that are numbers, and those that are one digit, by letter and place.
NUMBERS = {
    "R-address": ("R", 0),
    "R-width": ("R", 1),
    "W-address": ("W", 0),
    "W-width": ("W", 1),
    "W-value": ("W", 2),
    "X-address": ("X", 0),
    "S-address": ("S", 0),
}
DIGITS = {"R-PCD": ("R", 2), "C-CD": ("C", 0), "C-NW": ("C", 1)}

HELD = 0x5A3C
PROBE = Result(0, HELD, 0)


def probed(name: str, lines: Sequence[bytes]) -> EventFile:
    """Malformed lines between hits, with misses and a snoop at the end that show the mode."""
    file = EventFile(f"malformed-{name}")
    file.control(False, False)
    file.write(0, 4, HELD)
    check("fill", file.read(0, 4), Result(0, HELD, 4))
    for line in lines:
        check(f"{name} {line!r}", file.line(line), MALFORMED)
        check("hit after it", file.read(0, 4), PROBE)
    check("not held", file.read(4096, 4), Result(0, 0, 4))
    file.snoop(4096)
    check("snooped", file.read(4096, 4), Result(0, 0, 4))
    return file


def with_field(letter: str, place: int, text: str) -> bytes:
    fields = list(FIELDS[letter])
    fields[place] = text
    return event_line(letter, *fields)


# --- letters


def letter_files() -> Iterator[EventFile]:
    unknown = [chr(code) for code in range(ord("A"), ord("Z") + 1) if chr(code) not in FIELDS]
    lines = [event_line(letter) for letter in [*unknown, "@", "[", "0", "1"]]
    lines += [event_line(letter, *FIELDS["R"]) for letter in unknown]
    yield probed("letters-unknown", lines)
    yield probed("letters-lower", [good[:1].lower() + good[1:] for good in GOOD.values()])
    lines = [good[:1] + good for good in GOOD.values()]
    lines += [b"FZ", b"ZF", b"RW\t0\t4\t0", b"INVD", b"FLUSH", b"Z0", b"0Z", b"F0", b"S0"]
    yield probed("letters-more", lines)
    yield probed("letters-none", [good[1:] for good in GOOD.values()])
    # Bit 7 set: the lower seven bits are the letter's.
    yield probed("letters-high", [bytes([good[0] + 128]) + good[1:] for good in GOOD.values()])


# --- fields and what parts them


def field_files() -> Iterator[EventFile]:
    for letter, fields in FIELDS.items():
        missing = [event_line(letter, *fields[:count]) for count in range(len(fields))]
        missing += [event_line(letter, *fields[1:])] if len(fields) > 1 else []
        surplus = [event_line(letter, *fields, more) for more in ("0", "1", "AB", "0\t0")]
        yield probed(f"fields-{letter}", missing + surplus)


def empty_field_files() -> Iterator[EventFile]:
    for letter, fields in FIELDS.items():
        lines = [with_field(letter, place, "") for place in range(len(fields))]
        lines.append(event_line(letter, *[""] * len(fields)))
        # An external write's empty bytes are well formed.
        kept = [line for line in lines if line != b"X\t0\t"]
        if fields:
            yield probed(f"empty-{letter}", kept)


def tab_files() -> Iterator[EventFile]:
    for letter, good in GOOD.items():
        lines = [b"\t" + good, good + b"\t", b"\t" + good + b"\t", good + b"\t\t"]
        lines += [good[:at] + b"\t" + good[at:] for at in _tabs(good)]
        yield probed(f"tabs-{letter}", lines)
    lines = [b"\t" * count for count in (1, 2, 3, 4, 5, 6, 79, 80, 81)]
    yield probed("tabs-many", [*lines, *(good.ljust(80, b"\t") for good in GOOD.values())])


def blank_files() -> Iterator[EventFile]:
    for letter, good in GOOD.items():
        lines = [b" " + good, good + b" ", b" " + good + b" "]
        for at in _tabs(good):
            around = (b" ", b" \t", b"\t ")
            lines += [good[:at] + blank + good[at + 1 :] for blank in around]
        lines += [good.replace(b"\t", b" ")] if len(_tabs(good)) > 1 else []
        yield probed(f"blanks-{letter}", lines)


def separator_file() -> EventFile:
    others = (b",", b";", b":", b"|", b"\\t", b"\v", b"\f", b"\r", b"\0", b"  ", b"\xc2\xa0")
    goods = (GOOD["S"], GOOD["C"], GOOD["R"])
    lines = [good.replace(b"\t", other) for other in others for good in goods]
    return probed("separators", lines)


def _tabs(line: bytes) -> list[int]:
    return [at for at, byte in enumerate(line) if byte == 9]


def inserted_files() -> Iterator[EventFile]:
    """Bytes that no line may have, before and after each of its bytes."""
    for letter, good in GOOD.items():
        places = product((b"\0", b"\r", b"\x80", b"\xff"), range(len(good) + 1))
        yield probed(f"inserted-{letter}", [good[:at] + byte + good[at:] for byte, at in places])


# --- numbers, digits, hex pairs

NO_NUMBERS = (
    *("+1", "-1", "-0", "1-", " 1", "1 ", "1 2", "/", ":", "1/", "/1", "1:", ":1", "0/", ":0"),
    *("A", "a", "F", "0x1", "1h", "1e1", "1.", ".1", "1,000", "1_0", "#1", "'1'", '"1"'),
    *("1\0", "\x001", "1\r", "²", "٣", "１"),
)
BAD_NUMBERS = (
    *NO_NUMBERS,
    *("4294967296", "4294967299", "4294967306", "9999999999"),
    *("10000000000", "00000000001", "00000000000", "04294967295", "000000000000000000004"),
    "18446744073709551615",
)
# W's value has up to twenty digits, and is a 64-bit number.
BAD_VALUES = (
    *NO_NUMBERS,
    *("18446744073709551616", "18446744073709551623", "18446744078004518912", "9" * 20),
    *("1" + "0" * 20, "0" * 20 + "1", "0" * 21, "018446744073709551615", "0" * 40 + "4"),
)
BAD_DIGITS = (
    *("2", "3", "8", "9", "00", "01", "10", "11", "000", "/", ":", "0/", "1:", " 0", "0 ", " 1"),
    *("1 ", "+0", "+1", "-0", "-1", "O", "I", "l", "A", "F", "x", "true", "no", "\0", "\x01"),
    *("0\r", "0\0", "0.", "²", "1,"),
)
BAD_PAIRS = {
    "odd": [*("A" * count for count in (1, 3, 5, 15, 17, 29, 31, 33, 35, 63, 75)), "0", "0AB"],
    "outside": [pair for byte in "/:@G`g?[" for pair in (byte + "0", "0" + byte, f"AB{byte}F")],
    "lower": [
        *("aa", "aA", "Aa", "ab", "AbCD", "ABcD", "ABCd", "ff", "0f", "f0", "00ff", "FFfF"),
        *(pair for digit in "abcdef" for pair in (digit + "0", "0" + digit)),
    ],
    "blanks": [
        *(" AB", "AB ", "A B", "AB CD", "AB,CD", "AB-CD", "AB:CD", "AB\tCD", "AB\t", " ", "  "),
        *("0xAB", "xAB0", "ABh0", "AB\0\0", "\0\0", "AB\r", "AB\r\r", "+A", "-1", "²²", "Ａ"),
    ],
}


def number_files() -> Iterator[EventFile]:
    for name, (letter, place) in NUMBERS.items():
        wrong = BAD_VALUES if name == "W-value" else BAD_NUMBERS
        yield probed(f"number-{name}", [with_field(letter, place, bad) for bad in wrong])


def digit_files() -> Iterator[EventFile]:
    for name, (letter, place) in DIGITS.items():
        yield probed(f"digit-{name}", [with_field(letter, place, bad) for bad in BAD_DIGITS])


def pair_files() -> Iterator[EventFile]:
    for name, bad_pairs in BAD_PAIRS.items():
        yield probed(f"pairs-{name}", [with_field("X", 1, bad) for bad in bad_pairs])


# --- every byte in one place

DECIMAL = b"0123456789"
# Where one reader takes several fields, these have every byte in one of them, and in the others
# those of seven bits and the good ones with bit 7 set.
EVERY_BYTE = ("letter", "after-letter", "separator", "number-last", "PCD", "pair-first")
# What a line has before the byte and after it, and which bytes make it well formed.
SWEEPS: dict[str, tuple[bytes, bytes, bytes]] = {
    "letter": (b"", b"", b"FZ"),
    "letter-of-address": (b"", b"\t64", b"S"),
    "after-letter": (b"F", b"", b""),
    "separator": (b"S", b"64", b"\t"),
    "number-first": (b"S\t", b"4", DECIMAL),
    "number-last": (b"S\t6", b"", DECIMAL),
    "PCD": (b"R\t64\t4\t", b"", b"01"),
    "CD": (b"C\t", b"\t0", b"01"),
    "NW": (b"C\t0\t", b"", b"0"),
    "pair-first": (b"X\t64\t", b"0", DECIMAL + b"ABCDEF"),
    "pair-last": (b"X\t64\t0", b"", DECIMAL + b"ABCDEF"),
}


def sweep_files() -> Iterator[EventFile]:
    for name, (before, after, good) in SWEEPS.items():
        file = EventFile(f"malformed-byte-{name}")
        file.control(False, False)
        high = range(128, 256) if name in EVERY_BYTE else [*(byte + 128 for byte in good), 255]
        for code in (*(code for code in range(128) if code != 10), *high):
            result = file.line(before + bytes([code]) + after)
            # "C 0 1" is well formed and refused.
            refused = 9 if (name, code) == ("NW", ord("1")) else 11
            check(f"{name} {code}", result.number, 0 if code in good else refused)
        file.read(64, 4)
        yield file


# --- lengths


def length_files() -> Iterator[EventFile]:
    yield _longest_lines()
    long = [b"F" + b" " * (length - 1) for length in (79, 80, 81, 82, 160, 161, 162)]
    long += [b"0" * length for length in (80, 81, 255, 256, 257, 511, 512, 513)]
    yield probed("length-any", long)
    # Who parts a line after 80 bytes finds an event in its rest.
    lines = [b"Q" * count + good for count in (80, 81, 160) for good in GOOD.values()]
    yield probed("length-rest", lines)
    # Who drops what follows 80 bytes, or goes by the last ones, finds an external write.
    longest = event_line("X", 0, "AB" * 38)
    lines = [longest + more for more in (b"A", b"AB", b"\t", b"\r", b" ", b"\0", b"AB" * 100)]
    yield probed("length-start", [*lines, b"AB" + longest, b"Z\t" + longest, longest + longest])
    # Leading zeros make a good line too long, or no longer a number.
    lines = [event_line("X", "0" * count + "0", "AB" * 38) for count in (1, 2, 9, 10, 70)]
    yield probed("length-zeros", [*lines, event_line("S", "0" * 78), event_line("S", "0" * 79)])


def _longest_lines() -> EventFile:
    """Lines of 80 bytes that are well formed, and the same with a byte or two more."""
    file = EventFile("malformed-length-80")
    file.control(False, False)
    for zeros in range(9):
        address = "0" * zeros + "0"
        for count in range(30, 42):
            line = event_line("X", address, "AB" * count)
            answer = 10 if len(line) <= 80 else 11
            check(f"{len(line)} bytes", file.line(line).number, answer)
    check("RAM as it was", file.read(0, 4), Result(0, 0, 4))
    return file


def empty_line_files() -> Iterator[EventFile]:
    yield probed("empty-lines", [b""] * 12)
    file = EventFile("malformed-empty-lines-around")
    for line in [*[b""] * 9, b"C\t0\t0", *[b""] * 30, b"F", b"", b"", b"Z", *[b""] * 120]:
        check("empty", file.line(line).number, 0 if line else 11)
    yield file
    white = (b" ", b"\t", b"\r", b"\v", b"\f", b"\0", b"  ", b"\t\t", b" \t", b"\r\r")
    yield probed("white", white)


def malformed_files() -> list[EventFile]:
    groups = (
        letter_files(),
        field_files(),
        empty_field_files(),
        tab_files(),
        blank_files(),
        [separator_file()],
        inserted_files(),
        number_files(),
        digit_files(),
        pair_files(),
        sweep_files(),
        length_files(),
        empty_line_files(),
    )
    return [file for group in groups for file in group]
