"""Test calls, for diagnostic disks: "The old disks load cache lines by hand and read them back."

Quoted sentences are those of document 02's request C-11. Both calls receive directory and data
array and no RAM. Document 01 does not list them where the state of a set is checked, so that they
plant and show what other calls refuse.
"""

from typing import NamedTuple

from . import refusal
from . import directory as steps
from .access import Result
from .directory import LINE_BYTES, Directory, line_index


class TestLine(NamedTuple):
    """What a test read answers. Rule: "A refused test read gives zeros and an invalid mark"."""

    number: int
    tag: int = 0
    valid: bool = False
    lru: int = 0
    sixteen: bytes = bytes(LINE_BYTES)


def test_write(
    directory: Directory,
    data: bytearray,
    set_index: int,
    way: int,
    tag: int,
    valid: bool,
    sixteen: bytes,
) -> Result:
    """Rule: "a test write, which puts a tag, a valid mark and sixteen bytes in a given set and
    way ... Neither changes the LRU number, RAM or parity". With an invalid mark too it puts all
    three."""
    assert len(sixteen) == LINE_BYTES, "the bytes are sixteen, whatever is called"
    number = refusal.test_number(len(data), directory.cd, set_index, way, tag)
    if number:
        return Result(number)
    directory.tags[line_index(set_index, way)] = tag
    directory.valid[line_index(set_index, way)] = valid
    start = steps.data_offset(set_index, way)
    data[start : start + LINE_BYTES] = sixteen
    return Result(0)


def test_read(directory: Directory, data: bytearray, set_index: int, way: int) -> TestLine:
    """Rule: "and a test read, which returns them with the set's LRU number". All of it is shown as
    it is stored, numbers above document 01's limits too."""
    number = refusal.test_number(len(data), directory.cd, set_index, way)
    if number:
        return TestLine(number)
    index, start = line_index(set_index, way), steps.data_offset(set_index, way)
    return TestLine(
        0,
        directory.tags[index],
        directory.valid[index],
        directory.lru[set_index],
        bytes(data[start : start + LINE_BYTES]),
    )
