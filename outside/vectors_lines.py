"""Test lines for the bench writer and for illegal lines."""

from telegrams import MOST_THAT_FITS, Written
from vector_parts import LONG_END, SHORT_END, Dice, random_header, read_line, write_line
from vectors_reading import WORKED, good_telegram, written

STRANGE_BYTES = (b"\x00", b"\r", b"\x80", b"\xff", b"a", b"f", b" ", b",", b"0", b"9", b"G", b"-")
NUMBERS = (b"", b"00", b"01", b"65535", b"65536", b"65540", b"6553", b"6554", b"66000", b"99999",
           b"100000", b"655350", b"-1", b" 1", b"1 ", b"1.5", b"\xb2", b"A",
           b"/", b":", b"1/", b"1:")
PLUGS = (b"", b"0", b"00", b"07", b"12", b"13", b"99", b"100", b"126", b"127", b"128", b"129",
         b"130", b"200", b"1270", b"999", b"65535", b"1a", b"12\x00", b"\xb1", b"+1",
         b"/", b":", b"1/", b"1:")
CRCS = (b"", b"2", b"9", b"00", b"01", b"10", b"11", b"1 ", b"A", b"\xff", b"/", b":")


# The writer

def random_written(dice: Dice) -> Written:
    """Eleven values that the writer takes."""
    header = random_header(dice)
    return Written(header.version, *header[3:], dice.below(3), dice.below(11), dice.below(11))


def limit_lines() -> list[bytes]:
    """Each value at 0, at its limit, one past it, and far past it."""
    base = Written(16, 0, 7, 1, 100, 300, 4000, 1, 2, 4, 5)
    lines = []
    for name, most in zip(Written._fields, MOST_THAT_FITS):
        for value in (0, 1, most, most + 1, 2 * most + 2, 65535):
            lines.append(write_line(base._replace(**{name: value})))
    for value in (0, 2, 3, 4):
        lines.append(write_line(base._replace(direction=value)))
    for first, second in ((9, 10), (10, 9), (10, 10), (10, 11), (11, 10), (11, 11), (0, 11)):
        lines.append(write_line(base._replace(first=first, second=second)))
    lines += [write_line(MOST_THAT_FITS), write_line((0,) * 11), write_line((65535,) * 11)]
    return lines


def writer_lines(dice: Dice) -> list[bytes]:
    """Limits, all positions with all totals, what was written read back, and any values."""
    lines = [write_line(WORKED)] + limit_lines()
    for total in range(9):
        lines += [write_line(WORKED._replace(position=position, total=total))
                  for position in range(9)]
    for _ in range(40):
        values = random_written(dice)
        lines.append(write_line(values))
        lines.append(read_line(written(values), max(values.version - 1, 0)))
        lines.append(read_line(written(values), values.version))
    for _ in range(60):
        name = dice.one_of(Written._fields)
        value = dice.one_of([dice.below(20), dice.below(300), dice.below(65536)])
        lines.append(write_line(random_written(dice)._replace(**{name: value})))
    return lines


# Illegal lines

def mutations(dice: Dice, line: bytes, places, kinds: int) -> list[bytes]:
    """The line with a byte replaced, inserted and deleted at these places."""
    lines = []
    for place in places:
        for _ in range(kinds):
            strange = dice.one_of(STRANGE_BYTES + (bytes([dice.between(11, 255)]),) * 4)
            lines.append(line[:place] + strange + line[place + 1:])
            lines.append(line[:place] + strange + line[place:])
        lines.append(line[:place] + line[place + 1:])
    return lines


def mutated_lines(dice: Dice) -> list[bytes]:
    """Legal lines of each form, changed at every place (at some places of the longest)."""
    write = b"W,65,5,7,3,250,1000,16000,1,2,10,9"
    short = read_line(written(WORKED), 100)
    long = read_line(good_telegram(dice, LONG_END), 127)
    lines = mutations(dice, write, range(len(write) + 1), 2)
    lines += mutations(dice, b"R,127,1,90AF", range(13), 3)
    lines += mutations(dice, b"G,90,0,7F", range(10), 3)
    lines += mutations(dice, b"F", range(2), 8)
    lines += mutations(dice, short, range(8, len(short) + 1, 3), 1)
    lines += mutations(dice, long, list(range(8, 200, 24)) + list(range(210, 217)), 1)
    return lines


def stopped_lines(dice: Dice) -> list[bytes]:
    """Every beginning of legal lines."""
    lines = []
    hear = b"G" + read_line(good_telegram(dice, SHORT_END))[1:]
    for line in (b"W,127,7,7,3,255,1023,16383,1,2,10,10", hear[:30], b"R,5,0,"):
        lines += [line[:count] for count in range(len(line))]
    return lines


def number_lines(dice: Dice) -> list[bytes]:
    """Numbers about their form and their limit in each field."""
    lines = []
    fields = [str(value).encode("ascii") for value in WORKED]
    for place in range(11):
        for number in NUMBERS:
            if place in (0, 5, 10) or dice.below(4) == 0:
                lines.append(b",".join([b"W"] + fields[:place] + [number] + fields[place + 1:]))
    pairs = written(WORKED).hex().upper().encode("ascii")
    for command in (b"R", b"G"):
        lines += [b",".join([command, plug, b"1", pairs]) for plug in PLUGS]
        lines += [b",".join([command, b"16", crc, pairs]) for crc in CRCS]
    return lines


def single_byte_lines() -> list[bytes]:
    """Every byte but 10 alone in a line, and those about the digits as second half of a pair."""
    every = [bytes([value]) for value in range(256) if value != 10]
    return every + [b"R,1,1,9" + byte for byte in every[43:74] + every[95:104]]


def overlong_lines(dice: Dice) -> list[bytes]:
    """Lines that are longer than any legal line."""
    full = read_line(good_telegram(dice, LONG_END), 99)
    lines = [full, full + b"0", full + b"00", full + b"g", full + b",", full + b"\r"]
    lines += [full + b"A" * 4000, b"R,127,1," + b"FF" * 105, b"G,0,0," + b"C" * 4990]
    lines += [b"W" + b",1" * 11 + b",", b"W" + b",1" * 12, b"W" + b",1" * 2400, b"F" * 5000]
    lines += [b"W," + b"0" * 3000, b"W," + b"9" * 3000, b"\x00" * 4097, b" " * 4096, b"R" * 4095]
    lines += [b"R,127,1," + b"0" * 207 + b"." * 300, b"," * 1000, b"R,1,1," + b"ab" * 100]
    lines.append(bytes(dice.between(128, 255) for _ in range(5000)))
    return lines


def illegal_lines(dice: Dice) -> list[bytes]:
    """All kinds of illegal lines, with empty ones among them."""
    lines = [b"", b""] + mutated_lines(dice) + stopped_lines(dice) + number_lines(dice)
    lines += [b""] + single_byte_lines() + overlong_lines(dice) + [b""]
    lines += [dice.row(dice.below(30)).replace(b"\n", b"R") for _ in range(30)]
    lines += [b"FORGET", b"f", b"F,", b"F ", b"w,1", b"r,1,1,", b"R;1;1;", b"G,1,1", b"R 1,1,",
              b"# a word", b"R,127,1,90027f", b"F\r", b"\rF", b"W,1,2\r", b"R,127,1,9002\r"]
    return lines
