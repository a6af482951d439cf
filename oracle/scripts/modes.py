"""CD and NW: reads, writes, snoops, external writes, flushes and control calls in each mode."""

from itertools import product

from unit486_model.access import Result
from unit486_model.bus import ANSWERS, BS8, BS16

from checks.unit_calls import ALL_KEN, NO_KEN, answers_of, check, flags
from checks.vectors import MODES

from .writer import Script

HELD, OTHER, MISSED = 0x40, 0x840, 0x1040


def modes() -> Script:
    script = Script("modes.txt")
    for cd, nw in MODES:
        _calls_of_a_mode(script, bool(cd), bool(nw))
        _masters_of_a_mode(script, bool(cd), bool(nw))
        _doublewords_of_a_mode(script, bool(cd), bool(nw))
    _control_calls(script)
    _stale_lines(script)
    return script


def _two_lines(script: Script, cd: bool, nw: bool) -> None:
    """Two lines of one set are held, then the mode is stored."""
    script.new(ram=0x1810, cd=False)
    script.read(HELD, 4)
    script.read(OTHER, 4)
    script.mode(cd, nw)


def _calls_of_a_mode(script: Script, cd: bool, nw: bool) -> None:
    fills, through, _, _ = MODES[int(cd), int(nw)]
    _two_lines(script, cd, nw)
    for pcd in (False, True):
        check("read hit", script.read(HELD + 5, 2, ALL_KEN, pcd).cycles, 0)
    before = bytes(script.unit.ram)
    hit = script.write(HELD, 4, 0x55AA33CC, NO_KEN)
    check("write hit", flags(hit), [95] if through else [])
    check("write hit in RAM", bytes(script.unit.ram) != before, through)
    check("read back", script.read(HELD, 4).value, 0x55AA33CC)
    check("write miss", flags(script.write(MISSED, 2, 0x1234, [BS8] * ANSWERS)), [17, 82])
    check("not filled", script.held(MISSED), None)
    missed = script.read(MISSED, 4)
    check("read miss", missed.cycles, 4 if fills else 1)
    check("kept", script.held(MISSED) is not None, fills)
    script.write(MISSED, 1, 0x99, NO_KEN)
    check("its byte", script.read(MISSED, 1).value, 0x99)


def _masters_of_a_mode(script: Script, cd: bool, nw: bool) -> None:
    drops = MODES[int(cd), int(nw)][2]
    _two_lines(script, cd, nw)
    check("snoop of no line", script.snoop(MISSED + 3), Result(0))
    check("snoop", script.snoop(OTHER + 15), Result(0))
    check("snoop drops", script.held(OTHER) is None, drops)
    check("external", script.external(HELD + 6, b"\x01\x02\x03"), Result(0))
    check("external drops", script.held(HELD) is None, drops)
    held = int.from_bytes(script.unit.ram[HELD + 4 : HELD + 8], "little")
    seen = script.read(HELD + 4, 4, NO_KEN)
    check("a kept line is stale", seen.value == held, drops)
    check("external elsewhere", script.external(MISSED, bytes(range(16))), Result(0))
    check("flush", script.flush(), Result(0))
    check("nothing held", any(script.directory.valid), False)
    check("after it", script.read(HELD + 4, 4, NO_KEN).value, held)
    check("reset", script.reset(), Result(0))
    check("modes of a reset", (script.directory.cd, script.directory.nw), (True, True))


def _doublewords_of_a_mode(script: Script, cd: bool, nw: bool) -> None:
    """A write of which one doubleword hits and the other misses, either way round."""
    through = MODES[int(cd), int(nw)][1]
    answers = answers_of([BS8], [BS16])
    _two_lines(script, cd, nw)
    below = flags(script.write(HELD + 14, 4, 0xDDCCBBAA, answers))
    check("hit below, miss above", below, [20, 88, 83] if through else [83])
    _two_lines(script, cd, nw)
    above = flags(script.write(HELD - 3, 4, 0xDDCCBBAA, answers))
    check("miss below, hit above", above, [18, 20, 88, 81] if through else [18, 20, 88])
    inside = flags(script.write(HELD + 3, 4, 0xDDCCBBAA, answers))
    check("both hit", inside, [88, 19, 84] if through else [])


def _control_calls(script: Script) -> None:
    """Each pair after each pair, the one that is refused too."""
    for given, asked in product(MODES, MODES):
        script.new(ram=16, cd=bool(given[0]), nw=bool(given[1]))
        number = MODES[asked][3]
        check("control", script.control(bool(asked[0]), bool(asked[1])), Result(number))
        pair = given if number else asked
        check("pair", (script.directory.cd, script.directory.nw), pair)


def _stale_lines(script: Script) -> None:
    """A line written inside and then snooped: what was written to it is gone."""
    script.new(ram=0x1810)
    script.control(False, False)
    script.read(HELD, 4)
    before = int.from_bytes(script.unit.ram[HELD : HELD + 4], "little")
    script.control(True, True)
    script.write(HELD, 4, 0x01020304)
    check("inside", script.read(HELD, 4, NO_KEN).value, 0x01020304)
    script.snoop(HELD)
    check("still inside", script.read(HELD, 4, NO_KEN).value, 0x01020304)
    script.control(True, False)
    script.snoop(HELD)
    check("RAM's again", script.read(HELD, 4, NO_KEN).value, before)
