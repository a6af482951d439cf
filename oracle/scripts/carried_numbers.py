"""33 by each of its conditions, its place among the other numbers, and the state numbers of a read
that carries writes."""

from collections.abc import Sequence
from itertools import product

from unit486_model.access import Result
from unit486_model.carried import CARRIED_MOST, CarriedWrite
from unit486_model.events import NUMBER_LIMIT
from unit486_model.refusal import DATA_BYTES

from checks.unit_calls import ALL_KEN, check, snapshot

from .expected_reads import Ends, Fill, Hit, carries
from .source_tables import fill_records
from .states import FAULTS
from .writer import Script

RAM_BYTES = 0x410
LINE = 0x40
FILL = fill_records(LINE, ALL_KEN)


def carried_numbers(script: Script) -> None:
    _counts(script)
    _cycle_order(script)
    _external_writes(script)
    _order(script)
    _states(script)


def _writes(*numbers: int) -> list[CarriedWrite]:
    return [CarriedWrite(number, LINE + 8, b"\x5a") for number in numbers]


def _refused(
    script: Script,
    number: int,
    carried: Sequence[CarriedWrite],
    count: int | None = None,
    lengths: Sequence[int] = (),
    address: int = LINE,
    width: int = 4,
    answers: Sequence[int] = ALL_KEN,
) -> None:
    """A carrying read that answers this number and changes nothing."""
    before = snapshot(script.unit)
    count = len(carried) if count is None else count
    lengths = lengths or [len(write.written) for write in carried]
    result = script.read_lending(address, width, count, lengths, carried, answers)
    check(f"{count} writes {carried}", result, Result(number))
    check("nothing changed", snapshot(script.unit), before)


def _counts(script: Script) -> None:
    """More than four, however many, for a miss and for a hit; four and none are taken."""
    script.new(ram=RAM_BYTES, cd=False)
    script.store_line(9, 2, 0)
    for count, address in product((CARRIED_MOST + 1, 255, 2**31, NUMBER_LIMIT), (LINE, 0x90)):
        _refused(script, 33, _writes(0, 0, 0, 0), count, address=address)
    carries(script, 0x90, 4, [], [Hit(2)])
    carries(script, LINE, 4, _writes(0, 0, 0, 0), [Fill(FILL, 0)])


def _cycle_order(script: Script) -> None:
    """A number below the one before it; equal ones are in order."""
    script.new(ram=RAM_BYTES, cd=False)
    falling = ((1, 0), (0, 2, 1), (3, 3, 2, 3), (0, 1, 2, 1), (NUMBER_LIMIT, 0))
    for numbers in (*falling, (NUMBER_LIMIT, NUMBER_LIMIT, NUMBER_LIMIT - 1)):
        _refused(script, 33, _writes(*numbers))
    top = (0, 0, NUMBER_LIMIT - 1, NUMBER_LIMIT)
    carries(script, LINE, 4, _writes(*top), [Fill(FILL, 0), Ends(LINE, 0)])
    carries(script, LINE, 4, _writes(*[NUMBER_LIMIT] * 4), [Fill(FILL, 0), Ends(LINE, 0)])


def _external_writes(script: Script) -> None:
    """One that 10 would refuse for this RAM: empty, over sixteen bytes, across lines, beyond RAM;
    at some place of the list, and last, where it would land after the value."""
    script.new(ram=RAM_BYTES, cd=False)
    wrong = (
        (LINE, 0),
        (NUMBER_LIMIT, 0),
        (LINE, 17),
        (LINE, NUMBER_LIMIT),
        (LINE + 15, 2),
        (LINE + 1, 16),
        (RAM_BYTES, 1),
        (RAM_BYTES - 1, 2),
        (NUMBER_LIMIT, 1),
        (NUMBER_LIMIT - 15, 16),
    )
    for index, (address, length) in enumerate(wrong):
        for place in (index % CARRIED_MOST, CARRIED_MOST - 1):
            carried, lengths = _writes(0, 1, 2, NUMBER_LIMIT), [1] * CARRIED_MOST
            written = bytes(min(length, 16))
            carried[place] = carried[place]._replace(address=address, written=written)
            lengths[place] = length
            _refused(script, 33, carried, lengths=lengths)
    sixteen = CarriedWrite(0, LINE, bytes(range(200, 216)))
    last = CarriedWrite(4, RAM_BYTES - 1, b"\xc3")
    carries(script, LINE, 4, [sixteen, last], [Fill(FILL, 0)])


def _order(script: Script) -> None:
    """After each of 1 to 7, and before each of 21 to 23 in the sets of the read and of a write."""
    bad = _writes(1, 0)
    lengths = {1: {"ram": 40, "parity": 10}, 2: {"ram": 32, "parity": 9}}
    lengths |= {3: {"ram": 32, "data": DATA_BYTES - 1}, 7: {"ram": 32, "log": 143}}
    for number, wrong in lengths.items():
        script.new(**wrong, cd=False)
        _refused(script, number, bad, address=0)
        _refused(script, number, _writes(0, 0, 0, 0), CARRIED_MOST + 1, address=0)
    script.new(ram=RAM_BYTES, cd=False)
    _refused(script, 4, bad, width=3)
    _refused(script, 5, bad, address=RAM_BYTES - 2)
    _refused(script, 6, bad, answers=ALL_KEN[1:])
    _refused(script, 6, bad, answers=[1] * 47 + [8])
    for number in FAULTS:
        FAULTS[number](script, 0x10 + number)
        address = 16 * (0x10 + number)
        _refused(script, 33, bad, address=address)
        _refused(script, number, _writes(0, 1), address=address)
        at_fault = [CarriedWrite(1, address, b"\x01"), CarriedWrite(0, address, b"\x02")]
        _refused(script, 33, at_fault)
        _refused(script, number, at_fault[:1])


# Two sets with each fault; the set below each has none.
FAULTY = {21: (8, 10), 22: (12, 14), 23: (16, 18)}


def _states(script: Script) -> None:
    """The read's sets first, then each write's in list order, all of one set before the next; also
    where a write lands last."""
    script.new(ram=RAM_BYTES, cd=False)
    for number, set_index in ((number, place) for number in FAULTS for place in FAULTY[number]):
        FAULTS[number](script, set_index)
    for first, second in product(FAULTS, repeat=2):
        cycle = 0 if first < second else NUMBER_LIMIT
        one = CarriedWrite(cycle, 16 * FAULTY[first][0], b"\x01")
        other = CarriedWrite(cycle, 16 * FAULTY[second][1], b"\x02")
        _refused(script, first, [one, other])
        if first > second:
            _refused(script, first, [*_writes(0), one, *_writes(cycle), other])
            _refused(script, first, [other], address=one.address)
            _refused(script, first, [other], address=one.address - 2)
    for cd, nw in ((False, True), (True, False), (True, True)):
        script.mode(cd, nw)
        _refused(script, 23, [CarriedWrite(NUMBER_LIMIT, 16 * FAULTY[23][0], b"\x01")])
