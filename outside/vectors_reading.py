"""Test lines for reading telegrams: frame, header, codes, flipped bits and random telegrams."""

from telegrams import SHORT_BYTES, Written, bytes_of_bits, header_bits, tbl1_bits, write_telegram
from vector_parts import (
    CLOSING, ENDS_HERE, LONG_END, SHORT_END, USUAL_HEADER, Dice, flip, frame, hear_line, lead,
    packet, packet_44, passed_over, random_header, random_place, random_tbl1, read_line, telegram,
    write_line,
)


def written(values: Written) -> bytes:
    """The telegram that the bench writer writes."""
    buffer = bytearray(SHORT_BYTES)
    write_telegram(buffer, values)
    return bytes(buffer)


WORKED = Written(16, 0, 1, 0, 255, 1, 5, 0, 1, 2, 2)


def good_telegram(dice: Dice, end: int, **fixed: int) -> bytes:
    """A telegram that is accepted under plug value 127."""
    packets = lead(dice, random_place(dice, end - 8)) + ENDS_HERE
    return telegram(dice, random_header(dice, **fixed), packets, end)


def frame_lines(dice: Dice) -> list[bytes]:
    """Refusals 5 and 6, and their order: every length, every pattern of closing bits."""
    lines = []
    for count in range(105):
        lines.append(read_line(dice.row(count), dice.below(128), dice.below(2)))
        if count % 3 == 0:
            lines.append(read_line(good_telegram(dice, LONG_END)[:count]))
    for end in (SHORT_END, LONG_END):
        closing = len(CLOSING[end])
        for pattern in range(2 ** closing):
            row = bytearray(good_telegram(dice, end))
            row[-1] |= pattern
            lines.append(read_line(bytes(row), 127, dice.below(2)))
        for _ in range(8):
            lines.append(read_line(good_telegram(dice, end), 127, 0))
            lines.append(read_line(good_telegram(dice, end, updown=0, total=0), 0, 0))
    return lines


def header_fault_lines(dice: Dice, end: int) -> list[bytes]:
    """All eight ways in which the three fields of refusal 7 are right or wrong, each with 8 too."""
    lines = []
    for way in range(8):
        header = random_header(dice, updown=way & 1, media=way >> 1 & 1, version=64)
        plug = 64 if way >> 2 else 63
        for changes in ({}, {"total": 0}, {"position": 5, "total": 4}):
            row = telegram(dice, header._replace(**changes), random_tbl1(dice) + ENDS_HERE, end)
            lines.append(read_line(row, plug))
            lines.append(hear_line(row, plug))
    return lines


def header_lines(dice: Dice) -> list[bytes]:
    """Refusals 7 and 8: plug values about the version, all positions with all totals."""
    lines = header_fault_lines(dice, SHORT_END) + header_fault_lines(dice, LONG_END)
    for version in (0, 1, 2, 15, 16, 17, 31, 32, 63, 64, 100, 126, 127):
        row = good_telegram(dice, SHORT_END, version=version)
        for plug in sorted({0, max(version - 1, 0), version, min(version + 1, 127), 127}):
            lines.append(read_line(row, plug))
    for total in range(8):
        for position in range(8):
            row = good_telegram(dice, SHORT_END, position=position, total=total)
            lines.append(read_line(row))
    for header in (USUAL_HEADER._replace(duplicate=3, counter=0, country=0, group=0, link=0),
                   USUAL_HEADER._replace(duplicate=2, country=1023, group=16383, link=1),
                   USUAL_HEADER._replace(version=127, position=7, total=7, duplicate=1)):
        for end in (SHORT_END, LONG_END):
            lines.append(read_line(telegram(dice, header, ENDS_HERE, end)))
    return lines


def code_lines(dice: Dice) -> list[bytes]:
    """All 121 codes written and read back."""
    lines = []
    for first in range(11):
        for second in range(11):
            header = random_header(dice)
            values = Written(header.version, *header[3:], dice.below(3), first, second)
            lines.append(write_line(values))
            lines.append(read_line(written(values), dice.between(header.version, 127)))
    return lines


def flipped_telegrams(dice: Dice) -> list[tuple[bytes, int]]:
    """The telegrams of which every bit is flipped, each with a plug value."""
    three = (packet(45, 3, 23) + tbl1_bits(2, 10, 0) + tbl1_bits(0, 7, 10) + ENDS_HERE)
    to_the_end = packet_44(1, 104, 14, dice.bits(72)) + tbl1_bits(1, 0, 3) + ENDS_HERE
    long_header = random_header(dice, version=33, position=1, total=6)
    long_packets = (random_tbl1(dice) + passed_over(dice, 23) + random_tbl1(dice)
                    + packet_44(2, 32, 12) + random_tbl1(dice) + passed_over(dice, 301)
                    + random_tbl1(dice) + passed_over(dice, 40) + tbl1_bits(1, 10, 10) + ENDS_HERE)
    return [
        (written(WORKED), 16),
        (frame(header_bits(USUAL_HEADER) + three, SHORT_END, "0" * SHORT_END), 127),
        (frame(header_bits(random_header(dice, version=21)) + to_the_end, SHORT_END, ""), 21),
        (telegram(dice, long_header, long_packets, LONG_END), 33),
    ]


def flip_lines(dice: Dice) -> list[bytes]:
    """Every bit of three short telegrams and a long one turned over, one at a time."""
    lines = []
    for row, plug in flipped_telegrams(dice):
        lines.append(read_line(row, plug))
        lines += [read_line(flip(row, bit), plug) for bit in range(8 * len(row))]
    return lines


def random_lines(dice: Dice) -> list[bytes]:
    """Random telegrams: without fault, of random bits behind a header, and of random bytes."""
    lines = []
    for end, count in ((SHORT_END, 95), (LONG_END, 75)):
        for _ in range(count):
            lines.append(read_line(good_telegram(dice, end), dice.one_of([100, 126, 127])))
        for _ in range(count // 3):
            bits = header_bits(random_header(dice)) + dice.bits(end - 50)
            lines.append(read_line(frame(bits, end, "")))
        for _ in range(count // 10):
            lines.append(read_line(bytes_of_bits("1" + dice.bits(end - 1) + CLOSING[end])))
            lines.append(read_line(dice.row(27 if end == SHORT_END else 104)))
    return lines
