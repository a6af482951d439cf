"""Addresses and flags of an access's records, worked out from the source documents' tables.

Nothing of the model has a part in it but the numbers of the flags, so that a script's rows are
held to the printed tables and not to the model's rule of the same name.
"""

from collections.abc import Iterator, Sequence

from unit486_model.bus import BS8, BS16, FILL, GROUP, LAST

from checks.vectors import BURST_TABLE, SIZING

AddressFlags = list[tuple[int, int]]

BURST_ORDERS = {
    order[0]: order
    for order in ([int(offset, 16) for offset in line.split()] for line in BURST_TABLE)
}


def moved_lanes(wanted: int, answers: Iterator[int]) -> list[int]:
    """The lanes that each cycle moves, by tables 3-10/7-1 (BS16#) and 3-11/7-2 (BS8#)."""
    made = []
    while wanted:
        answer = next(answers)
        column = 2 if answer & BS8 else 1 if answer & BS16 else 0
        moved, wanted = SIZING[f"{15 - wanted:04b}"][column]
        made.append(moved)
    return made


def plain_records(address: int, width: int, answers: Sequence[int], kind: int = 0) -> AddressFlags:
    """Address and flags of each record of an access that is no fill."""
    made: AddressFlags = []
    lane, start = address % 4, address - address % 4
    wanted = (2**width - 1) << lane
    for index, lanes in enumerate((wanted & 15, wanted >> 4 & 15, wanted >> 8)):
        flags = [moved + kind for moved in moved_lanes(lanes, iter(answers[GROUP * index :]))]
        made += with_last([(start + 4 * index, flag) for flag in flags])
    return made


def fill_records(address: int, group: Sequence[int]) -> AddressFlags:
    """Address and flags of each record of a fill, by tables 3-9, 3-10/7-1 and 3-11/7-2."""
    line, answers = address - address % 16, iter(group)
    start = address % 16 - address % 4
    return with_last(
        [
            (line + offset, moved + FILL)
            for offset in BURST_ORDERS[start]
            for moved in moved_lanes(15, answers)
        ]
    )


def with_last(records: AddressFlags) -> AddressFlags:
    """The last of them with 64."""
    return [
        (address, flags + (LAST if index == len(records) - 1 else 0))
        for index, (address, flags) in enumerate(records)
    ]
