"""Test lines for the balise group memory: runs of G and F lines, with other lines in between."""

from telegrams import BOTH, NOMINAL, REVERSE, Header, tbl1_bits
from vector_parts import (
    ENDS_HERE, LONG_END, SHORT_END, USUAL_HEADER, Dice, flip, hear_line, packet, packet_44,
    passed_over, random_tbl1, read_line, telegram,
)

FORGET = b"F"
GROUPS = ((1, 5), (1, 6), (2, 5))
FAULTY_PACKETS = (
    packet(7, 0, 22), packet(7, 0, 8191), packet_44(1, 31, 13), packet_44(3, 32, 14),
    packet_44(1, 47, 13, "0" * 15), tbl1_bits(1, 11, 0), tbl1_bits(2, 3, 3) + tbl1_bits(0, 0, 99),
)


def balise(dice: Dice, position: int, total: int, packets: str = "", **changes: int) -> bytes:
    """The G line of a balise of a group, in a short or a long telegram."""
    header = USUAL_HEADER._replace(position=position, total=total, **changes)
    end = LONG_END if len(packets) > 150 or dice.below(12) == 0 else SHORT_END
    return hear_line(telegram(dice, header, packets + ENDS_HERE, end))


def some_packets(dice: Dice) -> str:
    """No packet, one, or several, TBL1+ or passed over."""
    bits = ""
    for _ in range(dice.one_of([0, 1, 1, 1, 2, 2, 3, 5])):
        bits += random_tbl1(dice) if dice.below(4) else passed_over(dice, dice.between(23, 60))
    return bits


def passing(dice: Dice, positions, total: int, group: int) -> list[bytes]:
    """Balises of a group passed in this order, with any codes."""
    return [balise(dice, position, total, some_packets(dice), group=group)
            for position in positions]


def whole_group_lines(dice: Dice) -> list[bytes]:
    """Groups of 2 to 8 balises passed in both directions, passed over after closing, and again."""
    lines = []
    for total in range(1, 8):
        upward, downward = list(range(total + 1)), list(range(total, -1, -1))
        for order in (upward, downward):
            lines += passing(dice, order, total, 100 + total)
            lines += passing(dice, [order[0], order[-1]], total, 100 + total)
            lines.append(FORGET)
        order = dice.one_of([upward, downward])
        lines += passing(dice, order, total, 200 + total)
    return lines


def missing_balise_lines(dice: Dice) -> list[bytes]:
    """Groups of 2 to 5 balises with each one missing, and orders in which balises repeat."""
    lines = []
    for total in range(1, 5):
        for missing in range(total + 1):
            kept = [position for position in range(total + 1) if position != missing]
            for order in (kept, kept[::-1]):
                lines += passing(dice, order, total, 300 + missing) + [FORGET]
    for order in ([0, 0, 0, 1, 1], [1, 1, 0, 0], [2, 2, 2, 0, 1], [1, 2, 0, 0, 3, 3], [1, 0, 3],
                  [3, 3, 3], [0, 0, 0], [2, 1, 3, 2, 0], [0, 1, 0, 0, 1, 2, 3], [3, 2, 3, 3, 0]):
        lines += passing(dice, order, max(order), 400) + [FORGET]
    return lines


def direction_lines(dice: Dice) -> list[bytes]:
    """Q_DIR 0, 1, 2 in the first and the last balise of two, in both directions of travel."""
    lines = []
    choices = ("", REVERSE, NOMINAL, BOTH)
    for first in choices:
        for last in choices:
            for order in ((0, 1), (1, 0)):
                for position, chosen in zip(order, (first, last)):
                    bits = "" if chosen == "" else tbl1_bits(chosen, dice.below(11), dice.below(11))
                    lines.append(balise(dice, position, 1, bits))
                lines.append(FORGET)
    several = tbl1_bits(2, 1, 1) + tbl1_bits(1, 2, 2) + tbl1_bits(0, 3, 3)
    for bits in (several, several + tbl1_bits(2, 10, 10), several + tbl1_bits(1, 0, 10)):
        for order in ((0, 2, 1), (1, 0)):
            lines += [balise(dice, position, 2, bits) for position in order] + [FORGET]
    return lines


def question_9_lines(dice: Dice) -> list[bytes]:
    """Refusal 9 in open groups, its order with 8, 10 and 11, and none of it in closed groups."""
    lines = []
    bad = FAULTY_PACKETS[5]
    for total in (1, 3, 6):
        lines.append(balise(dice, 0, total, tbl1_bits(1, total, 0)))
        for other in range(8):
            line = balise(dice, min(other, 1), other, some_packets(dice))
            lines += [line, b"R" + line[1:]]
            lines.append(balise(dice, min(other, 2) + 1, other, bad))
        lines.append(balise(dice, total, total + 1, bad))
        lines.append(balise(dice, total, total))
        lines.append(balise(dice, 0, total % 7 + 1, random_tbl1(dice)))
        lines += [balise(dice, 0, total % 7 + 1, faulty) for faulty in FAULTY_PACKETS]
        lines.append(balise(dice, 1, 1, random_tbl1(dice), country=9))
        lines.append(balise(dice, 1, 3, random_tbl1(dice), country=9))
        lines.append(balise(dice, 1, 3, random_tbl1(dice), country=9, group=6))
        lines.append(FORGET)
    return lines


def refused_in_between(dice: Dice, header: Header) -> list[bytes]:
    """Refused telegrams, read telegrams and an illegal line: none changes the memory."""
    good = telegram(dice, header, random_tbl1(dice) + ENDS_HERE)
    faulty = dice.one_of(FAULTY_PACKETS) + ENDS_HERE
    return [
        hear_line(good, 127, 0), hear_line(good, header.version - 1), hear_line(flip(good, 215)),
        hear_line(flip(good, 0)), hear_line(flip(good, 8)), hear_line(good[:26]), hear_line(b""),
        hear_line(telegram(dice, header._replace(total=0), ENDS_HERE)),
        hear_line(telegram(dice, header._replace(position=7, total=6), ENDS_HERE)),
        hear_line(telegram(dice, header, random_tbl1(dice) + faulty)),
        hear_line(telegram(dice, header._replace(country=77), faulty)),
        read_line(good), b"G,127,1,0", b"FF", b"G,128,1,",
    ]


def refused_lines(dice: Dice) -> list[bytes]:
    """Refused telegrams before a group, within it and after its closing."""
    lines = []
    for first, last in ((0, 2), (2, 0)):
        for position in (first, last, 1):
            header = USUAL_HEADER._replace(position=position, total=2)
            lines += refused_in_between(dice, header)
            lines.append(hear_line(telegram(dice, header, random_tbl1(dice) + ENDS_HERE)))
        lines.append(FORGET)
    return lines


def walk_lines(dice: Dice) -> list[bytes]:
    """A long random run over three groups, with forgetting and refusals in the middle."""
    lines, total, position, known = [], 1, 0, GROUPS[0]
    for _ in range(320):
        chance = dice.below(100)
        if chance < 6:
            lines.append(FORGET)
        elif chance < 10:
            header = USUAL_HEADER._replace(country=known[0], group=known[1])
            lines.append(dice.one_of(refused_in_between(dice, header)))
        elif chance < 25:
            known, total = dice.one_of(GROUPS), dice.one_of([1, 1, 2, 2, 3, 7])
        else:
            heard_total = dice.between(1, 7) if chance > 94 else total
            position = (position + dice.between(-1, 2)) % (heard_total + 1)
            lines.append(balise(dice, position, heard_total, some_packets(dice),
                                country=known[0], group=known[1]))
    return lines


def forgetting_lines(dice: Dice) -> list[bytes]:
    """Forgetting, or another group, before a group, in it and after its closing."""
    lines = [FORGET, FORGET]
    for between in ([FORGET], [balise(dice, 0, 1, random_tbl1(dice), country=2)],
                    [balise(dice, 1, 1, random_tbl1(dice), group=6)],
                    [balise(dice, 0, 1, FAULTY_PACKETS[0], group=6)]):
        for order in ((0, 1), (1, 0)):
            for place in range(3):
                run = passing(dice, order, 1, 5)
                lines += run[:place] + between + run[place:] + passing(dice, order, 1, 5)
                lines.append(FORGET)
    return lines


def group_lines(dice: Dice) -> list[bytes]:
    """All test lines for balise groups."""
    return (whole_group_lines(dice) + missing_balise_lines(dice) + direction_lines(dice)
            + question_9_lines(dice) + refused_lines(dice) + forgetting_lines(dice)
            + walk_lines(dice))
