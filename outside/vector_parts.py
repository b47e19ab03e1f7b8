"""What the test lines are put together from: dice, headers, packets, frames and lines."""

import random
import sys

from telegrams import (
    FIRST_PACKET_PLACE, FIXED_PART_BITS, PACKET_44, PACKET_255, TBL1_BITS,
    Header, bits_of_bytes, bytes_of_bits, field_bits, header_bits, tbl1_bits,
)

SHORT_END, LONG_END = 210, 830
CLOSING = {SHORT_END: "000000", LONG_END: "00"}
ENDS_HERE = field_bits(PACKET_255, 8)
USUAL_HEADER = Header(1, 16, 0, 0, 1, 0, 255, 1, 5, 0)
OTHER_USERS = (0, 1, 12, 14, 269, 511)


class Dice:
    """A seeded source of choices. Only random() is used, whose row is the same in every Python."""

    def __init__(self, seed: int):
        self._random = random.Random(seed).random

    def below(self, count: int) -> int:
        """One of 0 to count - 1."""
        return int(self._random() * count)

    def between(self, low: int, high: int) -> int:
        """One of low to high, both included."""
        return low + self.below(high - low + 1)

    def one_of(self, choices):
        """One of a row of things."""
        return choices[self.below(len(choices))]

    def bits(self, count: int) -> str:
        """So many bits."""
        return "".join("01"[self.below(2)] for _ in range(count))

    def row(self, count: int) -> bytes:
        """So many bytes."""
        return bytes(self.below(256) for _ in range(count))


def random_header(dice: Dice, **fixed: int) -> Header:
    """A header that no question concerns under plug value 127."""
    total = dice.between(1, 7)
    header = Header(1, dice.below(128), 0, dice.between(0, total), total, dice.below(4),
                    dice.below(256), dice.below(1024), dice.below(16384), dice.below(2))
    return header._replace(**fixed)


def packet(number: int, direction: int, length: int, behind: str = "") -> str:
    """A fixed part that names this length, and whatever bits stand behind it."""
    return field_bits(number, 8) + field_bits(direction, 2) + field_bits(length, 13) + behind


def packet_44(direction: int, length: int, user: int, behind: str = "") -> str:
    """A packet 44 of a user. Its bits are cut to its length, where that leaves a fixed part."""
    bits = packet(PACKET_44, direction, length, field_bits(user, 9) + behind)
    return bits[:max(length, FIXED_PART_BITS)]


def random_tbl1(dice: Dice) -> str:
    """A TBL1+ packet with any direction and code."""
    return tbl1_bits(dice.below(3), dice.below(11), dice.below(11))


def other_number(dice: Dice) -> int:
    """An NID_PACKET that is neither 44 nor 255."""
    return dice.one_of([0, 5, 43, 45, 254] + [n for n in range(255) if n != PACKET_44])


def passed_over(dice: Dice, length: int) -> str:
    """A packet of this length that is passed over."""
    behind = length - FIXED_PART_BITS
    if length >= 32 and dice.below(3) == 0:
        return packet_44(dice.below(3), length, dice.one_of(OTHER_USERS), dice.bits(length - 32))
    return packet(other_number(dice), dice.below(4), length, dice.bits(behind))


def lead(dice: Dice, place: int) -> str:
    """Packets without fault from bit 50 up to this place, which is 50 or at least 73."""
    bits, left = "", place - FIRST_PACKET_PLACE
    while left:
        if (left == TBL1_BITS or left >= TBL1_BITS + FIXED_PART_BITS) and dice.below(2):
            bits += random_tbl1(dice)
        elif left >= 2 * FIXED_PART_BITS and dice.below(3):
            bits += passed_over(dice, dice.between(FIXED_PART_BITS, left - FIXED_PART_BITS))
        else:
            bits += passed_over(dice, left)
        left = place - FIRST_PACKET_PLACE - len(bits)
    return bits


def random_place(dice: Dice, end: int) -> int:
    """A place at which a packet may begin."""
    return dice.between(FIRST_PACKET_PLACE + FIXED_PART_BITS, end)


def filling(dice: Dice, count: int) -> str:
    """What stands behind the packets: ones, zeros, or anything."""
    kind = dice.below(3)
    return dice.bits(count) if kind == 2 else "10"[kind] * count


def frame(bits: str, end: int, fill: str) -> bytes:
    """The bytes of a telegram with these bits, cut at its end or filled up to it."""
    return bytes_of_bits((bits + fill)[:end].ljust(end, "1") + CLOSING[end])


def telegram(dice: Dice, header: Header, packets: str, end: int = SHORT_END) -> bytes:
    """A telegram of a header and packets. The 255 at its end stands in the packets, if at all."""
    return frame(header_bits(header) + packets, end, filling(dice, end))


def flip(row: bytes, bit: int) -> bytes:
    """The row with one bit turned over."""
    bits = bits_of_bytes(row)
    return bytes_of_bits(bits[:bit] + "10"[int(bits[bit])] + bits[bit + 1:])


def read_line(row: bytes, plug: int = 127, crc: int = 1) -> bytes:
    """An R line."""
    return f"R,{plug},{crc},{row.hex().upper()}".encode("ascii")


def hear_line(row: bytes, plug: int = 127, crc: int = 1) -> bytes:
    """A G line."""
    return f"G,{plug},{crc},{row.hex().upper()}".encode("ascii")


def write_line(values) -> bytes:
    """A W line of eleven numbers."""
    return ("W," + ",".join(str(value) for value in values)).encode("ascii")


def write_vectors(made: bytes, counts: dict[str, int]) -> int:
    """Write the lines to the path that the program is given, and print how many of each kind."""
    if len(sys.argv) != 2:
        print(f"usage: python3 {sys.argv[0]} path", file=sys.stderr)
        return 2
    with open(sys.argv[1], "wb") as file:
        file.write(made)
    for kind, count in counts.items():
        print(f"{count:6} {kind}")
    print(f"{sum(counts.values()):6} lines, {len(made)} bytes")
    return 0
