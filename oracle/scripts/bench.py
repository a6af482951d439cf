"""Every row of document 01's bench table."""

from unit486_model.access import Result
from unit486_model.bus import ANSWERS, BS16

from checks.unit_calls import ALL_KEN, NO_KEN, address_flags, answers_of, check, flags

from .writer import Script


def bench() -> Script:
    script = Script("bench.txt")
    _records(script)
    _ways(script)
    _held(script)
    _numbers(script)
    return script


def _records(script: Script) -> None:
    script.new(cd=False)
    written = script.write(0, 4, 0x11223344, NO_KEN)
    check("32-bit write at 0", flags(written), [95])
    script.new(cd=False)
    filled = script.read(4, 4)
    check("fill from 4", address_flags(filled), [(4, 47), (0, 47), (12, 47), (8, 111)])
    script.new(cd=False)
    check("two bytes at 3", flags(script.read(3, 2, NO_KEN)), [72, 65])
    check("two at 1, BS16#", flags(script.read(1, 2, [BS16] * ANSWERS)), [2, 68])
    check("two at 0, answer 6", flags(script.read(0, 2, [6] * ANSWERS)), [1, 66])
    check("fill under BS8#", script.read(0, 4, [3] * ANSWERS).cycles, 16)


def _ways(script: Script) -> None:
    """The six fills of one set, by a control call as a program would make it."""
    script.new(ram=0x2810)
    check("control", script.control(False, False), Result(0))
    ways = []
    for address in (0, 0x800, 0x1000, 0x1800, 0x2000, 0x2800):
        script.read(address, 4)
        ways.append(script.held(address))
    check("ways", ways, [0, 1, 2, 3, 0, 2])


def _held(script: Script) -> None:
    script.new(cd=False)
    check("KEN# first only", script.read(0, 4, answers_of([1, 0])).cycles, 4)
    check("nothing held", any(script.directory.valid), False)


def _numbers(script: Script) -> None:
    """Width 3, and the lengths of RAM and log on either side of the limit."""
    script.new(cd=False)
    check("width 3", script.read(0, 3), Result(4))
    check("width 3 written", script.write(0, 3, 1), Result(4))
    for length, number in ((16, 0), (15, 1)):
        script.new(ram=length, cd=False)
        check(f"RAM {length}", script.read(0, 4).number, number)
        check(f"RAM {length} written", script.write(0, 4, 7).number, number)
        check(f"RAM {length} external", script.external(0, b"\x07").number, number)
    # C-15: "the bench table's log cases become 144 and 143".
    for length, number in ((144, 0), (143, 7)):
        script.new(log=length, cd=False)
        check(f"log {length}", script.read(0, 4, ALL_KEN).number, number)
        check(f"log {length} written", script.write(0, 4, 7, ALL_KEN).number, number)
