"""Memory and parity: RAM, its parity array, and the even parity between them."""

from .ranges import Ranges, read_only

RAM_LEAST = 16
RAM_MOST = 16_777_216
RAM_STEP = 16
DOUBLEWORD_BYTES = 4
DP_BITS = 15

# The bits of a 32-bit word that a mask of lanes names.
LANE_BITS = [sum(255 << 8 * lane for lane in range(4) if lanes >> lane & 1) for lanes in range(16)]


def parity_length(ram_length: int) -> int:
    """Rule: "The parity array has one byte for each four RAM bytes"."""
    return ram_length // DOUBLEWORD_BYTES


def dp_bit(byte: int) -> int:
    """Rule: "Even parity: a byte and its DP bit together have an even number of ones"."""
    return byte.bit_count() % 2


def parity_wrong(ram: bytearray, parity: bytearray, address: int) -> bool:
    """Whether the byte at the address and its DP bit have an odd number of ones."""
    dp = parity[address // DOUBLEWORD_BYTES] >> address % DOUBLEWORD_BYTES & 1
    return dp != dp_bit(ram[address])


def parity_agrees(ram: bytearray, parity: bytearray) -> bool:
    """Rule: "Parity agrees when this holds for all of RAM"."""
    return not any(parity_wrong(ram, parity, address) for address in range(len(ram)))


def parity_for(ram: bytearray) -> bytearray:
    """The parity array that agrees with RAM, its upper four bits 0."""
    parity = bytearray(parity_length(len(ram)))
    for address, byte in enumerate(ram):
        parity[address // DOUBLEWORD_BYTES] |= dp_bit(byte) << address % DOUBLEWORD_BYTES
    return parity


def store_byte(
    ram: bytearray, parity: bytearray, ranges: Ranges, address: int, byte: int
) -> None:
    """Put one byte into RAM with its DP bit; the other lanes' DP bits stay as they are.

    "bits 0 to 3 are DP0 to DP3, the upper four are ignored and become 0 when that byte is
    written." C-17: "RAM and parity there ignore CPU writes and external writes", so that a parity
    byte there stays whole.
    """
    if read_only(ranges, address):
        return
    index, lane = divmod(address, DOUBLEWORD_BYTES)
    ram[address] = byte
    parity[index] = parity[index] & DP_BITS & ~(1 << lane) | dp_bit(byte) << lane


def store_bytes(
    ram: bytearray, parity: bytearray, ranges: Ranges, address: int, written: bytes
) -> None:
    """Put bytes into RAM from the address on and set their parity."""
    for offset, byte in enumerate(written):
        store_byte(ram, parity, ranges, address + offset, byte)


def store_lanes(
    ram: bytearray, parity: bytearray, ranges: Ranges, doubleword: int, lanes: int, word: int
) -> None:
    """Rule: "Write: to RAM and the moved lanes' parity"."""
    for lane in range(DOUBLEWORD_BYTES):
        if lanes >> lane & 1:
            store_byte(ram, parity, ranges, doubleword + lane, word >> 8 * lane & 255)


def read_lanes(source: bytearray, doubleword: int, lanes: int) -> int:
    """The moved lanes of a doubleword as a 32-bit word, "unmoved lanes 0"."""
    word = int.from_bytes(source[doubleword : doubleword + DOUBLEWORD_BYTES], "little")
    return word & LANE_BITS[lanes]


def lanes_wrong(ram: bytearray, parity: bytearray, doubleword: int, lanes: int) -> bool:
    """Rule: "wrong parity in a moved byte"."""
    return any(
        lanes >> lane & 1 and parity_wrong(ram, parity, doubleword + lane)
        for lane in range(DOUBLEWORD_BYTES)
    )
