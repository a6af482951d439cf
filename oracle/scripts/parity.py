"""Parity: faults in moved and unmoved lanes, the upper four bits, and what writes do to them."""

from itertools import product

from unit486_model import memory
from unit486_model.bus import ANSWERS, BS8, BS16, KEN, WIDTHS, WRONG

from checks.unit_calls import NO_KEN, address_flags, check, flags

from .source_tables import AddressFlags, fill_records, plain_records
from .writer import Script

# The doubleword with the faults, and the index of its parity byte.
BASE = 0x124
PARITY_INDEX = BASE // 4

# Width and start of accesses that want bytes of that doubleword: as the lower one or the upper, and
# as the lowest, the middle and the highest of eight bytes.
ACCESSES = (*product((1, 2, 4), range(4)), (8, 1), (8, -2), (8, -5))

UPPER = 0xF0


def parity() -> Script:
    script = Script("parity.txt")
    _faults_by_lane(script)
    _upper_bits_ignored(script)
    _faults_in_fills(script)
    _writes(script)
    _external_writes(script)
    _writes_inside(script)
    return script


def _with_wrong(records: AddressFlags, wrong: dict[int, int]) -> AddressFlags:
    """Flags with 128 where a moved lane is wrong; `wrong` has lanes by doubleword."""
    return [
        (address, flags + (WRONG if flags & wrong.get(address, 0) else 0))
        for address, flags in records
    ]


def _faults_by_lane(script: Script) -> None:
    """Each set of wrong lanes, read in each width and size: only moved lanes count."""
    script.new(cd=False)
    for faults in (1, 2, 4, 8, 5, 10, 15):
        script.flip(PARITY_INDEX, faults)
        for (width, start), size in product(ACCESSES, (0, BS16, BS8)):
            result = script.read(BASE + start, width, [size] * ANSWERS)
            right = plain_records(BASE + start, width, [size] * ANSWERS)
            check("wrong lanes", address_flags(result), _with_wrong(right, {BASE: faults}))
        script.flip(PARITY_INDEX, faults)
    check("mended", memory.parity_agrees(script.unit.ram, script.unit.parity), True)


def _upper_bits_ignored(script: Script) -> None:
    script.new(cd=False)
    script.flip(PARITY_INDEX, UPPER)
    check("no fault", flags(script.read(BASE, 4, NO_KEN)), [79])
    script.flip(PARITY_INDEX, 4)
    check("a fault below them", flags(script.read(BASE, 4, NO_KEN)), [79 + WRONG])
    check("in another lane", flags(script.read(BASE, 2, NO_KEN)), [67])


def _faults_in_fills(script: Script) -> None:
    """A fill is kept all the same; a later hit says nothing of parity."""
    for start, size in product((0, 4, 8, 12), (0, BS16, BS8)):
        script.new(ram=64, cd=False)
        wrong = {16: 8, 24: 1, 28: 6}
        for doubleword, lanes in wrong.items():
            script.flip(doubleword // 4, lanes)
        result = script.read(16 + start, 1, [size + KEN] * ANSWERS)
        printed = fill_records(16 + start, [size + KEN] * ANSWERS)
        check("faults in a fill", address_flags(result), _with_wrong(printed, wrong))
        check("kept", script.held(16), 0)
        check("hit", script.read(16, 4).records, ())
        dropped = script.read(32 + start, 4, [size + KEN] + [size] * (ANSWERS - 1))
        check("no fault in the next line", any(f & WRONG for f in flags(dropped)), False)


def _writes(script: Script) -> None:
    """A moved lane gets its bit and the upper four become 0; other lanes' bits stay."""
    for width, offset, size in product(WIDTHS, range(4), (0, BS8)):
        script.new(ram=32, cd=False)
        for index in (1, 2, 3):
            script.flip(index, 0xFF)
        before = bytes(script.unit.parity)
        value = 0x7FC1_0E9B_80C0_F1E2 % 256**width
        script.write(4 + offset, width, value, [size] * ANSWERS)
        good = memory.parity_for(script.unit.ram)
        lanes = ((1 << width) - 1) << offset
        for index, moved in ((1, lanes & 15), (2, lanes >> 4 & 15), (3, lanes >> 8)):
            kept = before[index] & 15 & ~moved if moved else before[index]
            bits = script.unit.parity[index]
            check("parity byte", bits, good[index] & moved | kept)
    script.new(ram=16, cd=False)
    script.flip(0, 0xFF ^ script.unit.parity[0])
    script.write(0, 1, 0)
    check("FFh, a zero byte at lane 0", script.unit.parity[0], 0x0E)


def _external_writes(script: Script) -> None:
    script.new(ram=32, cd=False)
    for index in range(8):
        script.flip(index, 0xFF)
    before = bytes(script.unit.parity)
    script.external(22, bytes((1, 2, 3, 7, 15)))
    good = memory.parity_for(script.unit.ram)
    check("first byte", script.unit.parity[5], good[5] & 12 | before[5] & 3)
    check("second byte", script.unit.parity[6], good[6] & 7 | before[6] & 8)
    others = [index for index in range(8) if index not in (5, 6)]
    check("others", all(script.unit.parity[p] == before[p] for p in others), True)


def _writes_inside(script: Script) -> None:
    """A hit with CD = NW = 1 leaves RAM's parity byte whole, its upper four bits too."""
    script.new(ram=32, cd=False)
    script.read(0, 4)
    script.control(True, True)
    for index in (3, 4):
        script.flip(index, 0xF5)
    before = bytes(script.unit.parity)
    check("inside", script.write(12, 4, 0xFFFF_FFFE).cycles, 0)
    check("untouched", bytes(script.unit.parity), before)
    check("half inside", flags(script.write(14, 4, 0x0102_0304, NO_KEN)), [83])
    check("lower untouched", script.unit.parity[3], before[3])
    check("upper written", script.unit.parity[4] & UPPER, 0)
