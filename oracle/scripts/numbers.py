"""1 to 10: the input on either side of each limit, and the order of the numbers."""

from itertools import combinations, product

from unit486_model.access import Result
from unit486_model.bus import KEN
from unit486_model.events import NUMBER_LIMIT
from unit486_model.refusal import DATA_BYTES

from checks.unit_calls import ALL_KEN, check

from .states import FAULTS
from .writer import Script


def numbers() -> Script:
    script = Script("numbers.txt")
    _lengths(script)
    _arguments(script)
    _answers_and_logs(script)
    _external_writes(script)
    _order_of_accesses(script)
    _order_of_external_writes(script)
    return script


def _lengths(script: Script) -> None:
    for length in (0, 8, 12, 15, 16, 17, 20, 24, 31, 32, 48, 2056, 2064, 65_520, 65_528, 65_536):
        script.new(ram=length, cd=False)
        number = 0 if length >= 16 and length % 16 == 0 else 1
        check(f"RAM {length}", script.read(0, 4).number, number)
        check(f"RAM {length}", script.external(0, b"\x5a").number, number)
    for length in (0, 4, 7, 8, 9, 32):
        script.new(ram=32, parity=length, cd=False)
        number = 0 if length == 8 else 2
        check(f"parity {length}", script.read(0, 4).number, number)
        check(f"parity {length}", script.write(0, 4, 1).number, number)
        check(f"parity {length}", script.external(0, b"\x5a").number, number)
    for length in (0, 16, 8191, DATA_BYTES, 8193, 8208):
        script.new(ram=32, data=length, cd=False)
        number = 0 if length == DATA_BYTES else 3
        check(f"data {length}", script.read(0, 4).number, number)
        check(f"data {length}", script.write(0, 4, 1).number, number)
        check("an external write has no data array", script.external(0, b"\x5a").number, 0)


def _arguments(script: Script) -> None:
    """Width, address and value; the sum of address and width does not wrap."""
    script.new(ram=32, cd=False)
    for width in (*range(10), 12, 16, 256, NUMBER_LIMIT):
        number = 0 if width in (1, 2, 4, 8) else 4
        check(f"width {width}", script.read(0, width).number, number)
        check(f"width {width}", script.write(0, width, 0).number, number)
    far = (31, 32, NUMBER_LIMIT - 7, NUMBER_LIMIT - 3, NUMBER_LIMIT)
    for width in (1, 2, 4, 8):
        for address in (31 - width, 32 - width, 33 - width, *far):
            number = 0 if address + width <= 32 else 5
            check(f"{width} at {address}", script.read(address, width).number, number)
            check(f"{width} at {address}", script.write(address, width, 1).number, number)
    for width, bits in product((1, 2, 4, 8), (8, 16, 32, 64)):
        for value in (2**bits - 1, 2**bits) if bits < 64 else (2**63, 2**64 - 1):
            number = 0 if width == 8 or value < 256**width else 8
            check(f"value {value}", script.write(3, width, value).number, number)
    check("the last value", script.read(3, 8, ALL_KEN).value, 2**64 - 1)


def _answers_and_logs(script: Script) -> None:
    """All 48 answers are looked at, the unused ones too, and the log also where no word goes,
    whatever the width."""
    wrong = [[1] * count for count in (0, 1, 16, 32, 47, 49, 64)]
    wrong += [[1] * 47 + [8], [8] + [1] * 47, [9] * 48]
    script.new(cd=False)
    script.read(0, 4)
    for address, width in ((0, 1), (0x100, 1), (0x105, 8)):
        for answers in wrong:
            check("answers", script.read(address, width, answers), Result(6))
            check("answers", script.write(address, width, 1, answers), Result(6))
    for answer, before in product(range(10), (20, 36)):
        one_given = [KEN] * before + [answer] + [KEN] * (47 - before)
        check("answer", script.read(0, 1, one_given).number, 0 if answer < 8 else 6)
    for length in (0, 3, 95, 96, 143, 144, 145, 192):
        script.new(log=length, cd=False)
        script.store_line(0, 2, 0)
        number = 0 if length >= 144 else 7
        check("read hit", script.read(0, 4).number, number)
        check("write hit", script.write(0, 4, 1).number, number)
        script.mode(True, True)
        check("write inside", script.write(4, 4, 1).number, number)
        check("read miss", script.read(0x33, 4).number, number)
        check("eight bytes", script.read(0x43, 8).number, number)


def _external_writes(script: Script) -> None:
    """Empty, over 16 bytes, across lines or beyond RAM, whatever the address is."""
    for ram in (16, 48):
        script.new(ram=ram, cd=False)
        for address in (0, 1, 15, 16, 31, 32, 40, 47, 48, NUMBER_LIMIT - 15, NUMBER_LIMIT):
            for count in (0, 1, 2, 8, 15, 16, 17, 40):
                good = 1 <= count <= 16 and address % 16 + count <= 16 and address + count <= ram
                written = bytes((7 * count + index) % 256 for index in range(count))
                number = script.external(address, written).number
                check(f"{count} bytes at {address}", number, 0 if good else 10)


def _faulty_unit(script: Script, present: tuple[int, ...]) -> int:
    """A unit with these of 1, 2, 3, 7 and 21 to 23 wrong, in the sets of its two lines."""
    ram = 24 if 1 in present else 32
    script.new(
        ram=ram,
        parity=ram // 4 + (2 in present),
        data=DATA_BYTES - (3 in present),
        log=144 - (7 in present),
        cd=False,
    )
    for number in FAULTS:
        for set_index in (0, 1):
            if number in present:
                FAULTS[number](script, set_index)
    return ram


def _order_of_accesses(script: Script) -> None:
    """Each pair of numbers: the lower one is answered, and nothing changes."""
    for present in combinations((1, 2, 3, 4, 5, 6, 7, 8, 21, 22, 23), 2):
        ram = _faulty_unit(script, present)
        address = ram - 1 if 5 in present else 0
        # No value is too large for eight bytes.
        width = 3 if 4 in present else 4 if 8 in present else 8
        answers = ALL_KEN[1:] if 6 in present else ALL_KEN
        value = 2**32 if 8 in present else 2**64 - 1
        check(f"write {present}", script.write(address, width, value, answers), Result(present[0]))
        for_read = [number for number in present if number != 8]
        check(f"read {present}", script.read(address, width, answers), Result(for_read[0]))


def _order_of_external_writes(script: Script) -> None:
    for present in combinations((1, 2, 10, 21, 22, 23), 2):
        _faulty_unit(script, present)
        written = b"" if 10 in present else b"\x01\x02"
        check(f"external {present}", script.external(4, written), Result(present[0]))
