"""Refused calls: the numbers of the input, then those of the state.

Each function gives the lowest number met, or 0. A call joins those for the things it
receives with `or`, which keeps "Lowest number first, this list before the next".
"""

from collections.abc import Sequence

from .bus import ANSWER_LIMIT, ANSWERS, LOG_WORDS, WIDTHS
from .carried import CARRIED_MOST, CarriedWrite
from .directory import LINE_BYTES, LINES, SETS, TAG_LIMIT, WAYS, Directory, state_number
from .memory import RAM_LEAST, RAM_MOST, RAM_STEP, parity_length
from .ranges import RANGES_MOST, Range, Ranges, kept

DATA_BYTES = LINES * LINE_BYTES


def ram_number(ram: int) -> int:
    """Rule: "1. RAM length": "16 to 16,777,216 bytes, a multiple of 16"."""
    return 0 if RAM_LEAST <= ram <= RAM_MOST and ram % RAM_STEP == 0 else 1


def parity_number(ram: int, parity: int) -> int:
    """Rule: "2. Parity length is not RAM / 4"."""
    return 0 if parity == parity_length(ram) else 2


def data_number(data: int) -> int:
    """Rule: "3. Data array is not 8,192 bytes"."""
    return 0 if data == DATA_BYTES else 3


def argument_number(
    ram: int,
    address: int,
    width: int,
    answers: Sequence[int],
    log: int,
    value: int | None = None,
) -> int:
    """Numbers 4 to 7 of a read, 4 to 8 of a write, which brings a value. C-15: "Numbers 4, 6, 7 and
    8 read with these sizes, for all widths"."""
    if width not in WIDTHS:
        return 4  # "Width not 1, 2, 4", nor C-15's 8.
    if address + width > ram:
        return 5  # "Address + width beyond RAM"; the sum does not wrap.
    if len(answers) != ANSWERS or max(answers) > ANSWER_LIMIT:
        return 6  # Not 48 answers (C-15), "or one above 7", the unused ones too.
    if log < LOG_WORDS:
        return 7  # A log below 144 words (C-15), also where no cycle will be made.
    if value is not None and value >= 256**width:
        return 8  # "Value too large for its width": with width 8 no 64-bit value is.
    return 0


def view_address_number(ram: int, address: int) -> int:
    """Rule: "5. ... (view: address not in RAM)"."""
    return 0 if address < ram else 5


def control_number(cd: bool, nw: bool) -> int:
    """Rule: "9. A control call with CD = 0 and NW = 1"."""
    return 9 if nw and not cd else 0


def external_number(ram: int, address: int, count: int) -> int:
    """Rule: "10. External write empty, over 16 bytes, across lines or beyond RAM"."""
    if count == 0 or count > LINE_BYTES:
        return 10
    if address % LINE_BYTES + count > LINE_BYTES:
        return 10
    return 10 if address + count > ram else 0


def carried_number(ram: int, carried: Sequence[CarriedWrite]) -> int:
    """Rule (C-12): "33 where there are more than four writes, they aren't in cycle order or one
    would be refused by 10, after 10". Equal numbers are in cycle order."""
    cycles = [write.cycle for write in carried]
    if len(carried) > CARRIED_MOST or cycles != sorted(cycles):
        return 33
    refused = (external_number(ram, write.address, len(write.written)) for write in carried)
    return 33 if any(refused) else 0


def range_number(ram: int, given: Range) -> int:
    """Rule (C-17): "37 where a range is empty, not whole lines or beyond RAM"; the sum does not
    wrap."""
    start, length = given
    if length == 0 or start % LINE_BYTES or length % LINE_BYTES:
        return 37
    return 37 if start + length > ram else 0


def ranges_number(ram: int, given: Sequence[Range]) -> int:
    """Rule (C-17): "38 for more than eight, after 37": after 37 of all that are given."""
    if any(range_number(ram, one) for one in given):
        return 37
    return 38 if len(given) > RANGES_MOST else 0


def kept_ranges_number(ram: int, ranges: Ranges) -> int:
    """Rule (C-17): "every other call given directory and RAM tests them by 37 and 38 too", against
    the RAM that it is given. "37 ... after 10", and so after C-12's 33."""
    return ranges_number(ram, kept(ranges)) or (38 if ranges.count > RANGES_MOST else 0)


def cd_number(cd: bool) -> int:
    """Rule (C-11): "Both work only with CD = 1 ... 31 where CD = 0, after 3", whatever NW is."""
    return 0 if cd else 31


def test_place_number(set_index: int, way: int, tag: int = 0) -> int:
    """Rule (C-11): "32 where the set is above 127, the way above 3 or the tag above 2,097,151,
    after 31". A test read is given no tag."""
    return 32 if set_index >= SETS or way >= WAYS or tag > TAG_LIMIT else 0


def test_number(data: int, cd: bool, set_index: int, way: int, tag: int = 0) -> int:
    """The numbers of both test calls, in C-11's order: 3, 31, 32."""
    return data_number(data) or cd_number(cd) or test_place_number(set_index, way, tag)


def states_number(directory: Directory, sets: list[int]) -> int:
    """Rule: "Checked in every touched set, the lower address's set first ... All of one set comes
    before the next set"."""
    for set_index in sets:
        number = state_number(directory, set_index)
        if number:
            return number
    return 0
