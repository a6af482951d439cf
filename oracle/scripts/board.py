"""The board table, and reads and writes that the board serves."""

from unit486_model.access import Result
from unit486_model.bus import GROUP

from checks.unit_calls import check, flags

from .writer import Script

# "The answer by 1 MiB block 0 to 15 is 1 1 1 1 1 1 1 1 5 5 5 5 4 4 2 3"
PRINTED = "1111111155554423"

MEBIBYTE = 1 << 20


def board() -> Script:
    script = Script("board.txt")
    script.new(ram=65_536)
    _blocks(script)
    _crossings(script)
    _accesses(script)
    return script


def _asked(script: Script, address: int, width: int, *given: str) -> None:
    """The answers of the groups, the lowest's for those that are not given."""
    answers = script.board(address, width)
    expected = [*given, *given[:1] * (3 - len(given))]
    check(f"board at {address:x} width {width}", answers, "".join(a * GROUP for a in expected))


def _blocks(script: Script) -> None:
    """The first and last doublewords of each block, and the table over again."""
    for block in range(16):
        for width in (1, 4, 8):
            _asked(script, block * MEBIBYTE, width, PRINTED[block])
            _asked(script, (block + 1) * MEBIBYTE - max(width, 4), width, PRINTED[block])
    for block in (16, 24, 30, 31, 2048 + 14, 4095):
        _asked(script, block * MEBIBYTE + 0x12344, 4, PRINTED[block % 16])


def _crossings(script: Script) -> None:
    """One doubleword or two in the next block; an absent one takes the lowest's, also where the
    middle one is in another block."""
    for block in (3, *range(7, 16), 4095):
        lower, upper = PRINTED[block % 16], PRINTED[(block + 1) % 16]
        end = (block + 1) * MEBIBYTE
        for before, width in ((3, 4), (1, 2), (4, 8)):
            _asked(script, end - before, width, lower, upper)
        for before, width in ((3, 8), (1, 8)):
            _asked(script, end - before, width, lower, upper, upper)
        for before, width in ((7, 8), (5, 8)):
            _asked(script, end - before, width, lower, lower, upper)
        for before, width in ((4, 4), (2, 2), (8, 8)):
            _asked(script, end - before, width, lower)
    for before, width, given in ((2, 4, "151"), (1, 4, "151"), (2, 8, "155"), (6, 8, "115")):
        _asked(script, 8 * MEBIBYTE - before, width, *given)
    for width in (0, 3, 5, 7, 9, 12, 16, 4294967295):
        _asked(script, 8 * MEBIBYTE - 2, width, "1")


def _accesses(script: Script) -> None:
    """RAM of the program lies in block 0, where fills of whole doublewords are kept."""
    script.control(False, False)
    check("fill", flags(script.board_read(0x104, 4)), [47, 47, 47, 111])
    check("hit", script.board_read(0x10A, 4), script.read(0x10A, 4))
    check("no fill", flags(script.board_read(0x200, 2, pcd=True)), [67])
    check("write hit", flags(script.board_write(0x108, 4, 0xCAFEF00D)), [95])
    check("write miss", flags(script.board_write(0x303, 2, 0xBEEF)), [88, 81])
    check("read back", script.board_read(0x303, 2).value, 0xBEEF)
    check("two lines", script.board_read(0x40E, 4).cycles, 8)
    check("eight bytes", flags(script.board_write(0x50B, 8, 2**64 - 3)), [88, 95, 87])
    check("eight bytes back", script.board_read(0x50B, 8)[:3], (0, 2**64 - 3, 8))
    for address in (65_536, 8 * MEBIBYTE, 15 * MEBIBYTE - 1, 4294967295):
        check("beyond RAM", script.board_read(address, 4), Result(5))
        check("beyond RAM", script.board_write(address, 1, 1), Result(5))
    check("width", script.board_read(0, 3), Result(4))
    check("value", script.board_write(0, 2, 65_536), Result(8))
    check("value", script.board_write(0, 4, 2**32), Result(8))
