"""37 and 38: by each condition and in order, of the call that sets ranges and of those that test
the ranges that a directory keeps."""

from collections.abc import Callable

from unit486_model.access import Result
from unit486_model.carried import CarriedWrite
from unit486_model.events import NUMBER_LIMIT
from unit486_model.ranges import Range
from unit486_model.refusal import DATA_BYTES

from checks.unit_calls import ALL_KEN, check, snapshot

from .states import FAULTS
from .writer import Script

RAM_BYTES = 144
LINE = Range(64, 16)

# Empty, also beyond RAM; not whole lines; beyond RAM, also where 32 bits have no room for the sum.
WRONG = (
    Range(32, 0),
    Range(RAM_BYTES, 0),
    Range(24, 16),
    Range(16, 24),
    Range(1, 16),
    Range(RAM_BYTES - 16, 32),
    Range(RAM_BYTES, 16),
    Range(NUMBER_LIMIT - 15, 16),
    Range(16, NUMBER_LIMIT - 15),
    Range(NUMBER_LIMIT - 15, 32),
)


def read_only_numbers(script: Script) -> None:
    _given_ranges(script)
    _lengths(script)
    _kept_ranges(script)
    _order(script)
    _not_tested(script)


def _refused(script: Script, number: int, call: Callable[[], Result]) -> None:
    """A call that answers this number and changes nothing."""
    before = snapshot(script.unit)
    check("number", call(), Result(number))
    check("nothing changed", snapshot(script.unit), before)


def _words(*ranges: Range) -> list[int]:
    return [word for one in ranges for word in one]


def _calls(script: Script) -> dict[str, Callable[[], Result]]:
    """The calls that test kept ranges, in the set of line 4."""
    carried = [CarriedWrite(0, 64, b"\x01")]
    return {
        "read": lambda: script.read(64, 4),
        "carrying read": lambda: script.read_carrying(64, 4, carried),
        "write": lambda: script.write(64, 4, 1),
        "external write": lambda: script.external(64, b"\x01"),
        "view": lambda: Result(script.view(64)[0]),
    }


def _given_ranges(script: Script) -> None:
    """37 for each wrong range, alone and at each place of the list; 38 for nine. Nine with a wrong
    one: 37. What the directory keeps does not matter."""
    script.new(ram=RAM_BYTES, cd=False)
    script.store_ranges(NUMBER_LIMIT, 5, 0, 7)
    for wrong in WRONG:
        _refused(script, 37, lambda: script.set_ranges(wrong))
    for place in (0, 3, 7, 8):
        given = [LINE] * 9
        given[place] = WRONG[place]
        _refused(script, 37, lambda: script.set_ranges(*given[: max(place + 1, 8)]))
    for count in (9, 16):
        _refused(script, 38, lambda: script.set_ranges(*[LINE] * count))
    for words in ([64], [*_words(LINE), 64], [*_words(*[LINE] * 8), 64]):
        _refused(script, 37, lambda: script.set_words(*words))
    script.ranges()
    last = Range(RAM_BYTES - 16, 16)
    check("eight", script.set_ranges(*[LINE] * 7, last), Result(0))
    _refused(script, 38, lambda: script.set_ranges(*[LINE] * 9))
    script.ranges()
    check("none", script.set_ranges(), Result(0))


def _lengths(script: Script) -> None:
    """1 comes before 37 and 38. The call that sets ranges receives neither parity nor data array;
    a view has no parity, an external write no data array."""
    lengths = {1: {"ram": 24, "parity": 6}, 2: {"ram": RAM_BYTES, "parity": 35}}
    lengths |= {3: {"ram": RAM_BYTES, "data": DATA_BYTES - 1}, 7: {"ram": RAM_BYTES, "log": 143}}
    exempt = {1: (), 2: ("view",), 3: ("external write",), 7: ("view", "external write")}
    for number, wrong in lengths.items():
        script.new(**wrong, cd=False)
        script.store_ranges(9, 1, 1)
        for name, call in _calls(script).items():
            _refused(script, 37 if name in exempt[number] else number, call)
        if number == 1:
            for given in ([Range(1, 1)], [LINE] * 9, []):
                _refused(script, 1, lambda: script.set_ranges(*given))
        else:
            check("set", script.set_ranges(LINE), Result(0))


def _kept_ranges(script: Script) -> None:
    """The first ranges, as many as the count says up to eight, against this RAM; then the count.
    What stands in places that are not in use does not matter."""
    script.new(ram=RAM_BYTES, cd=True)
    eight, wrong = [Range(16 * index, 16) for index in range(8)], Range(RAM_BYTES - 16, 32)
    last_wrong = [*eight[:7], wrong]
    for count, ranges, number in ((8, last_wrong, 37), (9, eight, 38)):
        script.store_ranges(count, *_words(*ranges))
        for call in _calls(script).values():
            _refused(script, number, call)
    refused = ((NUMBER_LIMIT, eight, 38), (9, last_wrong, 37), (2**31, [wrong, *eight[1:]], 37))
    for count, ranges, number in (*refused, (3, [*eight[:2], Range(0, 0)], 37)):
        script.store_ranges(count, *_words(*ranges))
        _refused(script, number, _calls(script)["external write"])
    for one in WRONG:
        script.store_ranges(1, *one)
        _refused(script, 37, _calls(script)["view"])
    unused = [eight[4], *WRONG[:7]]
    accepted = ((8, eight, True), (7, last_wrong, True), (1, unused, True), (0, unused, False))
    for count, ranges, ignored in accepted:
        script.store_ranges(count, *_words(*ranges))
        old = script.unit.ram[79]
        check("accepted", script.external(79, bytes([old ^ 255])), Result(0))
        check("ignored", script.unit.ram[79] == old, ignored)


def _order(script: Script) -> None:
    """4 to 8, 10 and 33 come before 37, 37 before 38, 38 before 21."""
    script.new(ram=RAM_BYTES, cd=False)
    script.store_ranges(9, 16, 0)
    falling = [CarriedWrite(1, 64, b"\x01"), CarriedWrite(0, 64, b"\x02")]
    before: tuple[tuple[int, Callable[[], Result]], ...] = (
        (4, lambda: script.read(64, 3)),
        (5, lambda: script.read(RAM_BYTES - 1, 2)),
        (5, lambda: Result(script.view(RAM_BYTES)[0])),
        (6, lambda: script.read(64, 4, ALL_KEN[1:])),
        (4, lambda: script.write(64, 0, 1)),
        (8, lambda: script.write(64, 1, 256)),
        (10, lambda: script.external(64, b"")),
        (10, lambda: script.external(79, b"\x01\x02")),
        (33, lambda: script.read_carrying(64, 4, falling)),
    )
    for number, call in before:
        _refused(script, number, call)
    FAULTS[21](script, 4)
    good = _words(*[LINE] * 8)
    for number, count, words in ((37, 9, [*good[:15], 0]), (38, 9, good), (21, 8, good)):
        script.store_ranges(count, *words)
        for call in _calls(script).values():
            _refused(script, number, call)


def _not_tested(script: Script) -> None:
    """Snoop, flush, control, reset and the test calls look at no ranges, and keep what they are."""
    script.new(ram=RAM_BYTES, cd=True)
    script.store_ranges(NUMBER_LIMIT, 1, 2, 3, 4, 5, 6, 7, 8, 9, 10, 11, 12, 13, 14, 15, 16)
    before = script.ranges()
    check("test write", script.test_write(4, 1, 0, True, bytes(16)), Result(0))
    check("test read", script.test_read(4, 1).number, 0)
    for call in (lambda: script.snoop(64), lambda: script.control(False, False), script.flush):
        check("accepted", call(), Result(0))
    check("reset", script.reset(), Result(0))
    check("kept", script.ranges(), before)
    _refused(script, 37, lambda: script.read(64, 4))
    check("set", script.set_ranges(LINE), Result(0))
    check("read", script.read(64, 4).number, 0)
