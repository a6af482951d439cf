"""The directory: tags, valid marks and LRU numbers, with CD and NW, and the read-only ranges.

The steps here change the directory they are given and check nothing; the calls that
answer with numbers stand in `access`.
"""

from dataclasses import dataclass, field

from .ranges import Ranges

WAYS = 4
SETS = 128
LINES = SETS * WAYS
LINE_BYTES = 16
# The bytes that the sets of one way hold: lines so far apart are of one set.
WAY_BYTES = SETS * LINE_BYTES
TAG_LIMIT = 2_097_151
LRU_LIMIT = 7


@dataclass
class Directory:
    """Rule: "The directory holds 512 tags, 512 valid marks and 128 LRU numbers, with CD and NW."
    C-17: "the directory keeps" the read-only ranges, "none at first".

    Tags and valid marks stand at set x 4 + way, as the lines stand in the data array.
    """

    tags: list[int]
    valid: list[bool]
    lru: list[int]
    cd: bool
    nw: bool
    ranges: Ranges = field(default_factory=Ranges)


def tag_of(address: int) -> int:
    """Rule: "tag = address / 2048"."""
    return address // WAY_BYTES


def set_of(address: int) -> int:
    """Rule: "set = (address / 16) mod 128"."""
    return address // LINE_BYTES % SETS


def line_address(address: int) -> int:
    """The address of a line's byte 0, where "byte = address mod 16"."""
    return address - address % LINE_BYTES


def sets_of(address: int, count: int) -> list[int]:
    """The sets that `count` bytes from `address` touch, the lower address's set first."""
    return [set_of(line) for line in range(line_address(address), address + count, LINE_BYTES)]


def line_index(set_index: int, way: int) -> int:
    """Rule: "A line is named by set and way 0 to 3": its index among tags and valid marks."""
    return set_index * WAYS + way


def data_offset(set_index: int, way: int) -> int:
    """Rule: "Its bytes stand in the lent data array from (set x 4 + way) x 16 (H)"."""
    return line_index(set_index, way) * LINE_BYTES


def lookup(directory: Directory, address: int) -> int | None:
    """The way that holds the address's line, the lowest if several do; None for a miss."""
    tag = tag_of(address)
    for way in range(WAYS):
        index = line_index(set_of(address), way)
        if directory.valid[index] and directory.tags[index] == tag:
            return way
    return None


def lru_bits(lru: int) -> tuple[int, int, int]:
    """Rule: "An LRU number is B0 + 2.B1 + 4.B2." A number above 7 has these three bits too."""
    return lru % 2, lru // 2 % 2, lru // 4 % 2


def lru_after(lru: int, way: int) -> int:
    """Rule: "Use of way 0 sets B0 and B1; way 1 sets B0, clears B1; way 2 clears B0, sets B2;
    way 3 clears B0 and B2. The other bit is kept"."""
    b0, b1, b2 = lru_bits(lru)
    if way == 0:
        b0, b1 = 1, 1
    elif way == 1:
        b0, b1 = 1, 0
    elif way == 2:
        b0, b2 = 0, 1
    else:
        b0, b2 = 0, 0
    return b0 + 2 * b1 + 4 * b2


def use(directory: Directory, set_index: int, way: int) -> None:
    """Rule: "Read hits, write hits and kept fills are uses; views are not (H)"."""
    directory.lru[set_index] = lru_after(directory.lru[set_index], way)


def victim(directory: Directory, set_index: int) -> int:
    """Rule: "The victim is the lowest invalid way (H). If all are valid: B0 = 0 takes way B1;
    B0 = 1 takes way 2 + B2"."""
    for way in range(WAYS):
        if not directory.valid[line_index(set_index, way)]:
            return way
    b0, b1, b2 = lru_bits(directory.lru[set_index])
    return b1 if b0 == 0 else 2 + b2


def fill(directory: Directory, address: int) -> int:
    """Rule: "A kept fill writes the victim's bytes, tag and valid mark", and is a use.

    The way is handed back; its bytes are the access's part.
    """
    set_index = set_of(address)
    way = victim(directory, set_index)
    directory.tags[line_index(set_index, way)] = tag_of(address)
    directory.valid[line_index(set_index, way)] = True
    use(directory, set_index, way)
    return way


def first() -> Directory:
    """The directory of the first reset, which has no ranges."""
    return Directory([0] * LINES, [False] * LINES, [0] * SETS, True, True)


def reset(directory: Directory) -> None:
    """Rule: "After reset all 512 lines are invalid, tags and LRU numbers are 0, and CD = NW
    = 1". C-17, of the ranges: "A later reset keeps them"."""
    directory.tags[:] = [0] * LINES
    directory.valid[:] = [False] * LINES
    directory.lru[:] = [0] * SETS
    directory.cd = directory.nw = True


def control(directory: Directory, cd: bool, nw: bool) -> None:
    """Rule: "An accepted control call sets CD and NW to the two it is given and changes nothing
    else"."""
    directory.cd, directory.nw = cd, nw


def flush(directory: Directory) -> None:
    """Rule: "A flush (FLUSH#, INVD and WBINVD alike) clears valid marks". C-14: "The data sheet
    zeroes the 128 LRU numbers on a flush as on reset. This replaces our flush rule in the
    directory section"; tags, CD and NW stay."""
    directory.valid[:] = [False] * LINES
    directory.lru[:] = [0] * SETS


def invalidate(directory: Directory, address: int) -> None:
    """Rule: "A snoop invalidates the line holding its address. With NW = 1 it changes nothing"."""
    way = lookup(directory, address)
    if way is not None and not directory.nw:
        directory.valid[line_index(set_of(address), way)] = False


def state_number(directory: Directory, set_index: int) -> int:
    """Rule: "21. Two valid lines with one tag. 22. A valid tag above 2,097,151. 23. LRU number
    above 7." 0 for a set with nothing wrong."""
    indexes = [line_index(set_index, way) for way in range(WAYS)]
    tags = [directory.tags[index] for index in indexes if directory.valid[index]]
    if len(set(tags)) < len(tags):
        return 21
    if any(tag > TAG_LIMIT for tag in tags):
        return 22
    if directory.lru[set_index] > LRU_LIMIT:
        return 23
    return 0
