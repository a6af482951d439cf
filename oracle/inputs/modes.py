"""CD and NW as control calls set them, resets and flushes."""

from collections.abc import Iterator

from unit486_model.access import Result
from unit486_model.directory import SETS

from checks.unit_calls import check
from checks.vectors import MODES

from .writer import DONE, EventFile

HELD, OTHER, MISSED = 0x40, 0x840, 0x1040
VALUE = 0x55AA_33CC

Pair = tuple[int, int]


def control(file: EventFile, pair: Pair) -> Pair | None:
    """The pair that is then set, or None where the call is refused."""
    number = MODES[pair][3]
    check("control", file.control(bool(pair[0]), bool(pair[1])), Result(number))
    return None if number else pair


def two_lines(file: EventFile) -> None:
    """Two lines of one set are held."""
    file.control(False, False)
    for address in (HELD, OTHER):
        file.write(address, 4, address)
        check("fill", file.read(address, 4), Result(0, address, 4))


def control_pair_files() -> Iterator[EventFile]:
    """Each pair asked for after each that a call can set."""
    for given in ((0, 0), (1, 0), (1, 1)):
        for asked in MODES:
            file = EventFile(f"modes-{given[0]}{given[1]}-{asked[0]}{asked[1]}")
            two_lines(file)
            control(file, given)
            pair = control(file, asked) or given
            _accesses(file, pair)
            _masters(file, pair)
            yield file


def _accesses(file: EventFile, pair: Pair) -> None:
    fills, through, _, _ = MODES[pair]
    for pcd in (False, True):
        check("read hit", file.read(HELD, 4, pcd), Result(0, HELD, 0))
    check("write hit", file.write(HELD, 4, VALUE).cycles, 1 if through else 0)
    check("read back", file.read(HELD, 4), Result(0, VALUE, 0))
    check("write miss", file.write(MISSED, 2, 0x1234), Result(0, 0, 1))
    check("with PCD", file.read(MISSED, 4, pcd=True), Result(0, 0x1234, 1))
    check("read miss", file.read(MISSED, 4), Result(0, 0x1234, 4 if fills else 1))
    check("again", file.read(MISSED, 4), Result(0, 0x1234, 0 if fills else 1))
    # One doubleword hits and the other does not, either way round.
    check("hit, miss", file.write(HELD + 14, 4, 0x4433_2211).cycles, 2 if through else 1)
    check("miss, hit", file.write(HELD - 2, 4, 0x8877_6655).cycles, 2 if through else 1)
    check("the line", file.read(HELD, 2).value, 0x8877)
    check("its end", file.read(HELD + 14, 2).value, 0x2211)


def _masters(file: EventFile, pair: Pair) -> None:
    fills, through, drops, _ = MODES[pair]
    check("external", file.external(OTHER + 1, b"\xab"), DONE)
    seen = file.read(OTHER, 4)
    held = OTHER if not drops else OTHER & 0xFFFF_00FF | 0xAB00
    check("seen", seen.value, held)
    check("cycles", seen.cycles, 0 if not drops else 4 if fills else 1)
    check("snoop", file.snoop(HELD + 15), DONE)
    check("held", file.held(HELD) is not None, not drops)
    file.read(HELD, 4)
    check("flush", file.flush(), DONE)
    check("nothing held", any(file.unit.directory.valid), False)
    after = 0x8877 | VALUE & 0xFFFF_0000 if through else HELD
    check("RAM's", file.read(HELD, 4, pcd=True), Result(0, after, 1))
    check("reset", file.reset(), DONE)
    check("no fill after it", file.read(MISSED, 4), Result(0, 0x1234, 1))
    check("nor a second time", file.read(MISSED, 4), Result(0, 0x1234, 1))


def first_event_file() -> EventFile:
    """The unit starts as a reset leaves it: reads fill nothing until a control call."""
    file = EventFile("modes-start")
    for _ in range(2):
        check("no fill", file.read(HELD, 4), Result(0, 0, 1))
    check("write miss", file.write(HELD, 4, VALUE), Result(0, 0, 1))
    check("refused", file.control(False, True), Result(9))
    check("no fill", file.read(HELD, 4), Result(0, VALUE, 1))
    check("no fill with CD", control(file, (1, 0)), (1, 0))
    check("no fill", file.read(HELD, 4), Result(0, VALUE, 1))
    check("fills", control(file, (0, 0)), (0, 0))
    check("fill", file.read(HELD, 4), Result(0, VALUE, 4))
    check("hit", file.read(HELD, 4), Result(0, VALUE, 0))
    return file


def stale_file() -> EventFile:
    """A line written inside: snoops leave it until NW = 0, then RAM's bytes are back."""
    file = EventFile("modes-stale")
    two_lines(file)
    control(file, (1, 1))
    check("inside", file.write(HELD, 4, VALUE), DONE)
    check("external", file.external(HELD, b"\x01\x02"), DONE)
    check("snoop", file.snoop(HELD), DONE)
    check("still inside", file.read(HELD, 4), Result(0, VALUE, 0))
    control(file, (1, 0))
    check("as before", file.read(HELD, 4), Result(0, VALUE, 0))
    check("snoop", file.snoop(HELD), DONE)
    check("RAM's", file.read(HELD, 4), Result(0, 0x0201, 1))
    control(file, (0, 0))
    check("RAM's in the line", file.read(HELD, 4), Result(0, 0x0201, 4))
    return file


def inside_file() -> EventFile:
    """With CD = NW = 1 writes of a held line make no cycle, and RAM keeps its bytes."""
    file = EventFile("modes-inside")
    two_lines(file)
    control(file, (1, 1))
    held = bytearray(file.unit.ram[HELD : HELD + 16])
    for byte in range(16):
        width = (1, 2, 4)[byte % 3]
        if byte + width > 16:
            continue
        value = (0x0101_0101 * (byte + 1)) % 256**width
        held[byte : byte + width] = value.to_bytes(width, "little")
        check("inside", file.write(HELD + byte, width, value), DONE)
        check("seen", file.read(HELD + byte, width), Result(0, value, 0))
    for byte in range(0, 16, 4):
        value = int.from_bytes(held[byte : byte + 4], "little")
        check("the line", file.read(HELD + byte, 4), Result(0, value, 0))
    control(file, (1, 0))
    check("write through", file.write(HELD + 12, 4, 0), Result(0, 0, 1))
    check("snoop", file.snoop(HELD), DONE)
    for byte in range(0, 16, 4):
        check("RAM's", file.read(HELD + byte, 4), Result(0, 0 if byte else HELD, 1))
    return file


def reset_file() -> EventFile:
    """A reset drops lines and what was written inside, and leaves RAM."""
    file = EventFile("modes-reset")
    for turn in range(3):
        two_lines(file)
        control(file, (1, 1))
        check("inside", file.write(HELD, 4, VALUE + turn), DONE)
        check("reset", file.reset(), DONE)
        check("RAM's", file.read(HELD, 4), Result(0, HELD, 1))
        check("snoop", file.snoop(HELD), DONE)
        check("write through", file.write(HELD, 1, 0x40), Result(0, 0, 1))
    # LRU numbers are 0 again, as a flush leaves them too.
    file.control(False, False)
    for tag in range(3):
        file.read(HELD + 2048 * tag, 4)
    check("number", file.unit.directory.lru[HELD // 16], 4)
    file.reset()
    check("number", file.unit.directory.lru[HELD // 16], 0)
    return file


def flush_file() -> EventFile:
    """A flush drops every line and zeroes the LRU numbers, in each mode, and keeps the mode."""
    file = EventFile("modes-flush")
    for pair in ((0, 0), (1, 0), (1, 1)):
        file.control(False, False)
        for address in range(0, 65_536, 2064):
            check("fill", file.read(address, 4).cycles, 4)
        control(file, pair)
        for address in range(0, 65_536, 2064):
            check("hit", file.read(address, 4), DONE)
        check("numbers of sets in use", file.unit.directory.lru[:32], [3] * 32)
        check("flush", file.flush(), DONE)
        check("all numbers", file.unit.directory.lru, [0] * SETS)
        for address in range(0, 65_536, 4128):
            check("miss", file.read(address, 4).cycles, 4 if MODES[pair][0] else 1)
        file.flush()
        file.flush()
    return file


def mode_files() -> list[EventFile]:
    singles = [first_event_file(), inside_file(), stale_file(), reset_file(), flush_file()]
    return [*singles, *control_pair_files()]
