"""Test lines for packets: refusals 10 and 11 at many places, and what is close to them."""

from telegrams import PACKET_44, TBL1_XUSER, field_bits, tbl1_bits
from vector_parts import (
    ENDS_HERE, LONG_END, OTHER_USERS, SHORT_END, USUAL_HEADER, Dice, filling, lead, other_number,
    packet, packet_44, passed_over, random_header, random_place, random_tbl1, read_line, telegram,
)

ENDS = (SHORT_END, LONG_END)
TBL1_NUMBERS = (PACKET_44, 0, 254)


# Ways to a fault. Each is given the dice and the number of bits left before the end.

def length_below_23(dice: Dice, _left: int) -> str:
    """L_PACKET 0 to 22."""
    return packet(dice.one_of(TBL1_NUMBERS), dice.below(4), dice.one_of([0, 1, 21, 22]),
                  dice.bits(40))


def just_past_the_end(dice: Dice, left: int) -> str:
    """L_PACKET one bit more than is left."""
    return packet(dice.one_of(TBL1_NUMBERS), dice.below(4), left + 1, dice.bits(40))


def far_past_the_end(dice: Dice, left: int) -> str:
    """L_PACKET far more than is left, up to the most it can hold."""
    return packet(dice.one_of(TBL1_NUMBERS), dice.below(4),
                  dice.one_of([8191, 4096, left + 8, left + 23, left + 48]), dice.bits(40))


def used_up(dice: Dice, left: int) -> str:
    """A packet that leaves 0 to 7 bits, so that there is no 255."""
    return passed_over(dice, max(23, left - dice.below(8)))


def no_room_for_fixed_part(dice: Dice, left: int) -> str:
    """A packet that leaves 8 to 22 bits, and another number than 255 in them."""
    return (passed_over(dice, max(23, left - dice.between(8, 22)))
            + field_bits(dice.one_of(TBL1_NUMBERS), 8))


def short_packet_44(dice: Dice, _left: int) -> str:
    """Packet 44 of 23 to 31 bits."""
    return (packet_44(dice.below(4), dice.one_of([23, 24, 30, 31]), TBL1_XUSER) + ENDS_HERE)


def direction_3(dice: Dice, _left: int) -> str:
    """Packet 44 with Q_DIR 3, TBL1+ or not."""
    user = dice.one_of((TBL1_XUSER,) + OTHER_USERS)
    return packet_44(3, dice.one_of([32, 40, 48]), user, dice.bits(16)) + ENDS_HERE


def not_48_bits(dice: Dice, _left: int) -> str:
    """A TBL1+ packet with another length than 48."""
    length = dice.one_of([32, 33, 40, 47, 49, 50, 56])
    return packet_44(dice.below(3), length, TBL1_XUSER, "0" * 24) + ENDS_HERE


def digit_above_10(dice: Dice, _left: int) -> str:
    """A TBL1+ packet with one or two digits above 10."""
    high, good = dice.one_of([11, 12, 15, 16, 128, 138, 255]), dice.below(11)
    first, second = dice.one_of([(high, good), (good, high), (high, high)])
    return tbl1_bits(dice.below(3), first, second) + ENDS_HERE


FAULTS = (length_below_23, just_past_the_end, far_past_the_end, used_up, no_room_for_fixed_part,
          short_packet_44, direction_3, not_48_bits, digit_above_10)


def fault_lines(dice: Dice) -> list[bytes]:
    """Each way to 10 and 11 at many places in both lengths."""
    lines = []
    for end, count in ((SHORT_END, 20), (LONG_END, 11)):
        for fault in FAULTS:
            for turn in range(count):
                place = 50 if turn < 2 else random_place(dice, end - 24)
                bits = lead(dice, place) + fault(dice, end - place)
                lines.append(read_line(telegram(dice, random_header(dice), bits, end)))
    return lines


def near_the_end_lines(dice: Dice) -> list[bytes]:
    """A packet at each of the last places of a telegram, with and without room."""
    lines = []
    for end in ENDS:
        for place in range(end - 57, end + 1):
            left = end - place
            tries = [random_tbl1(dice) + ENDS_HERE, dice.one_of(FAULTS)(dice, left)]
            tries.append(ENDS_HERE if left < 30 else passed_over(dice, left))
            for bits in tries:
                row = telegram(dice, USUAL_HEADER, lead(dice, place) + bits, end)
                lines.append(read_line(row))
    return lines


def exact_room_lines(dice: Dice) -> list[bytes]:
    """Packet 44 that just fits, or fits not, where exactly so many bits are left."""
    lines = []
    for end in ENDS:
        for room in (23, 31, 32, 47, 48, 49):
            for length in (room - 1, room, room + 1):
                for direction, user in ((1, TBL1_XUSER), (0, 14), (3, TBL1_XUSER)):
                    bits = packet_44(direction, length, user, field_bits(0x0A03, 16) + "00")
                    bits = lead(dice, end - room) + bits
                    lines.append(read_line(telegram(dice, USUAL_HEADER, bits, end)))
    return lines


def packet_44_lines(dice: Dice) -> list[bytes]:
    """Packet 44 with all directions, users and lengths about the limits; and other packets so."""
    lines = []
    for end in ENDS:
        for direction in range(4):
            for length in (22, 23, 31, 32, 47, 48, 49):
                for user in (12, TBL1_XUSER, 269):
                    place = 50 if end == SHORT_END else random_place(dice, end - 60)
                    bits = packet_44(direction, length, user, field_bits(0x0307, 16) + "0")
                    bits = lead(dice, place) + bits + ENDS_HERE
                    lines.append(read_line(telegram(dice, USUAL_HEADER, bits, end)))
                bits = packet(other_number(dice), direction, length, dice.bits(max(length - 23, 0)))
                bits += random_tbl1(dice) + ENDS_HERE
                lines.append(read_line(telegram(dice, USUAL_HEADER, bits, end)))
    return lines


def row_of_packets(dice: Dice, length: int, count: int) -> str:
    """So many packets of 23 bits, or TBL1+ packets of 48."""
    if length == 48:
        return "".join(random_tbl1(dice) for _ in range(count))
    return "".join(passed_over(dice, length) for _ in range(count))


def many_packet_lines(dice: Dice) -> list[bytes]:
    """As many packets as there is room for, one fewer and one more, with and without 255."""
    lines = []
    for end in ENDS:
        for length in (23, 48):
            most = (end - 50 - 8) // length
            for count in (most - 1, most, most + 1):
                for behind in (ENDS_HERE, field_bits(254, 8), ENDS_HERE[:7] + "0"):
                    bits = row_of_packets(dice, length, count) + behind
                    lines.append(read_line(telegram(dice, USUAL_HEADER, bits, end)))
    return lines


def first_fault_lines(dice: Dice) -> list[bytes]:
    """Two faulty packets in one telegram: the first of them is the answer."""
    lines = []
    for end, count in ((SHORT_END, 40), (LONG_END, 15)):
        for _ in range(count):
            place = dice.one_of([50, 73, 98])
            early = dice.one_of([short_packet_44, direction_3, not_48_bits, digit_above_10])
            bits = lead(dice, place) + early(dice, end - place)[:-8]
            bits += dice.one_of(FAULTS)(dice, max(23, end - 50 - len(bits)))
            lines.append(read_line(telegram(dice, random_header(dice), bits, end)))
    return lines


def packet_lines(dice: Dice) -> list[bytes]:
    """All test lines for packets, and packets directly behind the header that end the telegram."""
    lines = fault_lines(dice) + near_the_end_lines(dice) + exact_room_lines(dice)
    lines += packet_44_lines(dice) + many_packet_lines(dice) + first_fault_lines(dice)
    for end in ENDS:
        for fill in ("", filling(dice, end)):
            lines.append(read_line(telegram(dice, USUAL_HEADER, ENDS_HERE + fill, end)))
    return lines
