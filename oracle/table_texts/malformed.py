"""Tables with one malformed line, each rule of the line format broken one way at a time: 34."""

from .writer import (
    REFUSED,
    BadLine,
    TableFile,
    at_places,
    refused_file,
    table_lines,
    text_of,
)

TABS: dict[str, BadLine] = {
    "no-tab": lambda block, answer: b"%d%d" % (block, answer),
    "block-alone": lambda block, _: b"%d" % block,
    "two-tabs": lambda block, answer: b"%d\t\t%d" % (block, answer),
    "tab-first": lambda block, answer: b"\t%d\t%d" % (block, answer),
    "tab-last": lambda block, answer: b"%d\t%d\t" % (block, answer),
    "third-field": lambda block, answer: b"%d\t%d\t0" % (block, answer),
    "letter-field": lambda block, answer: b"B\t%d\t%d" % (block, answer),
    "empty-block": lambda _, answer: b"\t%d" % answer,
    "empty-answer": lambda block, _: b"%d\t" % block,
    "empty-fields": lambda *_: b"\t",
    "empty-line": lambda *_: b"",
}
BYTES: dict[str, BadLine] = {
    "blank-first": lambda block, answer: b" %d\t%d" % (block, answer),
    "blank-before-answer": lambda block, answer: b"%d\t %d" % (block, answer),
    "blank-for-tab": lambda block, answer: b"%d %d" % (block, answer),
    "blank-last": lambda block, answer: b"%d\t%d " % (block, answer),
    "plus-block": lambda block, answer: b"+%d\t%d" % (block, answer),
    "plus-answer": lambda block, answer: b"%d\t+%d" % (block, answer),
    "minus-block": lambda block, answer: b"-%d\t%d" % (block, answer),
    "minus-answer": lambda block, answer: b"%d\t-%d" % (block, answer),
    "letter-block": lambda block, answer: b"0x%x\t%d" % (block, answer),
    "letter-answer": lambda block, answer: b"%d\t%dh" % (block, answer),
    # The bytes on either side of the digits.
    "slash": lambda block, _: b"%d\t/" % block,
    "colon": lambda block, _: b"%d\t:" % block,
    "cr-first": lambda block, answer: b"\r%d\t%d" % (block, answer),
    "cr-for-tab": lambda block, answer: b"%d\r%d" % (block, answer),
    "cr-last": lambda block, answer: b"%d\t%d\r" % (block, answer),
    "nul-for-tab": lambda block, answer: b"%d\0%d" % (block, answer),
    "nul-last": lambda block, answer: b"%d\t%d\0" % (block, answer),
    "byte-255-first": lambda block, answer: b"\xff%d\t%d" % (block, answer),
    "byte-255-last": lambda block, answer: b"%d\t%d\xff" % (block, answer),
    # The lower seven bits are a good line's.
    "high-answer": lambda block, answer: b"%d\t%c" % (block, 128 + ord("0") + answer),
}
NUMBERS: dict[str, BadLine] = {
    "eleven-digits-block": lambda block, answer: b"%011d\t%d" % (block, answer),
    "eleven-digits-answer": lambda block, answer: b"%d\t%011d" % (block, answer),
    "4294967296-block": lambda _, answer: b"4294967296\t%d" % answer,
    "4294967296-answer": lambda block, _: b"%d\t4294967296" % block,
    # In 32 bits this is the good answer.
    "above-32-bits-answer": lambda block, answer: b"%d\t%d" % (block, 4_294_967_296 + answer),
    "81-bytes": lambda block, answer: (b"%d\t" % block).ljust(80, b"0") + b"%d" % answer,
    "long": lambda block, answer: (b"%d\t%d" % (block, answer)).ljust(300),
}


def malformed_files() -> list[TableFile]:
    return [
        file
        for bad_lines in (TABS, BYTES, NUMBERS)
        for name, bad_line in bad_lines.items()
        for file in at_places(f"malformed-{name}", 34, bad_line)
    ]


def whole_files() -> list[TableFile]:
    """Every line malformed alike: by a CR before its newline, after it or in its place, by a blank
    for its tab, without its block; and one line of them all."""
    text = text_of(table_lines(REFUSED))
    return [
        refused_file("malformed-cr-newlines", text.replace(b"\n", b"\r\n"), 34),
        refused_file("malformed-newline-crs", text.replace(b"\n", b"\n\r"), 34),
        refused_file("malformed-crs", text.replace(b"\n", b"\r"), 34),
        refused_file("malformed-blanks-for-tabs", text.replace(b"\t", b" "), 34),
        refused_file("malformed-answers-alone", text_of(b"%d" % answer for answer in REFUSED), 34),
        refused_file("malformed-one-line", b"\t".join(table_lines(REFUSED)), 34),
    ]
