"""Test lines for the program linebench that are illegal, nearly all of them."""

from line_vectors_legal import event, random_strip, random_telegram, strip
from vector_parts import Dice

STRANGE_BYTES = (0, 13, 32, 44, 45, 47, 48, 57, 58, 64, 65, 71, 97, 127, 128, 255)
# The letters of all words, and digits that are right in one field and wrong in another.
WORD_BYTES = b"ABCEFJKLMNOPRSTUV123"

CHANGED_STRIPS = ("0,K,--,F,NCV,0,0,0,0", "1999999999,S,A0,V,CVR,1,2,1,1",
                  "2000000000,P,9A,O,OUT,1,1,2,0", "57,T,00,S,MEM,0,2,2,1")
CHANGED_EVENTS = ("0,K", "9999999999,K", "20,S,4", "5,S,007", "5,S,L", "1000,P,R", "7,P,C",
                  "12,L,N", "3,L,R", "20200,B,BAC,1", "3,B,BNCV,0", "4,B,BCVR,1",
                  "6,B,BFC,0", "8,B,BLR,1", "5,T,1,9002", "60,T,0,")

PANEL_STARTS = ("5,B,4A,O,MEM,", "5,B,4A,O,MEM,1", "5,B,4A,O,MEM,1,", "5,B,4A,O,MEM,0,2",
                "5,B,4A,O,MEM,1,1,", "5,B,4A,O,MEM,0,0,1", "5,B,4A,O,MEM,1,2,2,",
                "5,B,4A,O,MEM,1,2,2,1")
STRIP_STARTS = ("", "0", "5", "20", "200000000", "2000000000", "199999999", "5,", "5,L", "5,K,",
                "5,K,-", "5,K,A", "5,K,0", "5,K,--", "5,K,77", "5,K,--,", "5,K,--,F", "5,K,--,S,",
                "5,P,--,F,N", "5,P,--,F,NC", "5,P,--,F,C", "5,P,--,F,CV", "5,P,--,F,O",
                "5,P,--,F,OU", "5,P,--,F,M", "5,P,--,F,ME", "5,P,--,F,OUT") + PANEL_STARTS
EVENT_STARTS = ("", "0", "5", "999999999", "9999999999", "5,", "5,K", "5,S", "5,S,", "5,S,L",
                "5,S,0", "5,S,00", "5,S,000", "5,P", "5,P,", "5,P,R", "5,L,", "5,L,F", "5,B,",
                "5,B,B", "5,B,BA", "5,B,BC", "5,B,BN", "5,B,BNC", "5,B,BCV", "5,B,BF", "5,B,BL",
                "5,B,BLJ", "5,B,BAC,", "5,B,BFC,1", "5,T,", "5,T,1", "5,T,1,", "5,T,0,A",
                "5,T,0,AA")

BAD_TIMES = ("00", "01", "007", "0000000000", "00000000001", "", "-1", "+1", " 1", "1 ", "1.5",
             "1e3", "0x5", "A", "5A", "1_0", "2000000001", "2000000002", "2000000009",
             "2000000010", "2000000100", "2000001000", "2010000000", "2100000000", "2147483647",
             "2147483648", "2999999999", "3000000000", "4294967295", "4294967296", "4294967301",
             "6294967296", "9999999999", "10000000000", "12345678901", "19999999999",
             "20000000000", "20000000001", "42949672960", "99999999999", "100000000000",
             "18446744073709551615", "18446744073709551616", "18446744073709551621")
BAD_SPEEDS = ("", "1234", "0000", "0001", "L0", "0L", "12L", "LL", "l", "-1", "+1", "1.", "1,",
              "1,2", "123,", "L,", "1 ", " 1", "A", "0x1", ",")
BAD_BUTTONS = ("", "B", "BX", "BA", "BAC", "BACK", "bac", "BNC", "BNCVR", "BCV", "BCVRR", "BNV",
               "BF", "BFCC", "BL", "BLL", "BLJR", "BJ", "BR", "LRLM", "LGLJM", "AC", " BAC", "*")


# A byte changed, inserted or deleted at every place, and every beginning

def changed(dice: Dice, line: bytes) -> list[bytes]:
    """The line with each strange byte at each place but the first (which says what the line is),
    with some bytes inserted there, and without the byte there; and every beginning of it.
    None of them comes twice."""
    lines = []
    for place in range(1, len(line)):
        before, behind = line[:place], line[place + 1:]
        lines += [before + bytes([strange]) + behind for strange in STRANGE_BYTES]
        lines += [before + behind, before]
    for place in range(1, len(line) + 1):
        inserted = (dice.one_of(STRANGE_BYTES), dice.one_of(WORD_BYTES), dice.between(11, 255))
        lines += [line[:place] + bytes([byte]) + line[place:] for byte in inserted]
    return list(dict.fromkeys(lines))


def changed_lines(dice: Dice) -> list[bytes]:
    """Lines of every form, changed at every place."""
    lines = []
    for line in [strip(text) for text in CHANGED_STRIPS] + [event(text) for text in CHANGED_EVENTS]:
        lines += changed(dice, line)
    return lines


def continued_lines() -> list[bytes]:
    """Beginnings of lines, each with every byte of the words behind it."""
    starts = [strip(text) for text in STRIP_STARTS] + [event(text) for text in EVENT_STARTS]
    return [start + bytes([byte]) for start in starts for byte in WORD_BYTES]


# Fields

def field_lines() -> list[bytes]:
    """Times, speeds and buttons that are not quite right, with the rest of the line and without."""
    lines = []
    for time in BAD_TIMES:
        lines += [strip(time), strip(time + ",K,--,F,CVR,1,1,0,0"), event(time),
                  event(time + ",K"), event(time + ",B,BLR,0")]
    lines += [event("44,S," + speed) for speed in BAD_SPEEDS]
    for button in BAD_BUTTONS:
        lines += [event("9," + text) for text in ("B," + button, f"B,{button},1")]
    lines += [event("9,B,BAC" + end) for end in (",", ",2", ",10", ",01", ",1,", ",+", "1", ",,1")]
    lines += [strip("5,K,0B,F,CVR,1,1,0,0"), strip("5,K,-0,F,CVR,1,1,0,0"),
              strip("5,K,0-,F,CVR,1,1,0,0"), strip("5,K,---,F,CVR,1,1,0,0"),
              strip("5,K,1,F,CVR,1,1,0,0"), strip("5,K,,F,CVR,1,1,0,0"),
              strip("5,K,123,F,CVR,1,1,0,0"), strip("5,K,--,F,CVR,1,1,0"),
              strip("5,K,--,F,CVR,1,1,0,0,"), strip("5,K,--,F,CVR,1,1,0,0,0"),
              strip("5,K,--,F,CVR,2,1,0,0"), strip("5,K,--,F,CVR,1,3,0,0"),
              strip("5,K,--,F,CVR,1,1,3,0"), strip("5,K,--,F,CVR,1,1,0,2"),
              strip("5,K,--,F,BFC,1,1,0,0"), strip("5,K,--,F,CVR,01,1,0,0")]
    return lines


def pair_lines(dice: Dice) -> list[bytes]:
    """Telegrams with a half pair, small letters, too many pairs; and every beginning of a full
    one, and bytes changed in it."""
    full, short = (random_telegram(dice, 31, "1", count) for count in (104, 27))
    lines = [full + end for end in (b"0", b"00", b"A0F", b"G", b",", b"\r", b"\xff")]
    lines += [event("5,T,1," + "A" * count) for count in (207, 208, 209, 210, 211, 220)]
    lines += [event("9999999999,T,0," + "7E" * count) for count in (103, 104, 105, 106, 200)]
    lines += [full[:count] for count in range(7, len(full))]
    for place in range(6, len(full)):
        lines.append(full[:place] + bytes([dice.one_of(STRANGE_BYTES)]) + full[place + 1:])
    for place in range(6, len(short)):
        for byte in (dice.one_of(b"abcdef"), dice.one_of(b"/:@G`g"), dice.between(128, 255)):
            lines.append(short[:place] + bytes([byte]) + short[place + 1:])
    lines += [event("5,T," + text) for text in (
        "", "1", "0", "2,00", "10,00", ",00", "1,,", "1,00,", "1,9", "1,9g", "1,9G", "1,0a",
        "1,a0", "1,ab", "1,90 02", "1,0x90", "1,9002\r", "1 ,00", "01,00", "A,00")]
    return lines


# Whole lines

def overlong_lines(dice: Dice) -> list[bytes]:
    """Lines that are longer than any legal line, of up to 3000 bytes."""
    lines = [mark + byte * 2999 for mark in (b"S", b"E")
             for byte in (b"0", b"7", b",", b"A", b"\0")]
    lines += [b"S2000000000,T,AA,O,MEM,1,2,2,1" + end * count for count in (1, 2, 300, 2900)
              for end in (b"0", b",")]
    lines += [b"E5,T,1," + b"C5" * count for count in (107, 112, 150, 1496)]
    lines += [b"E5,S," + b"1" * 2000, b"E5,B,BAC,1" + b"1" * 1000, b"E5,K" + b" " * 1000,
              b"E5,B," + b"B" * 500, b"S5,K,--" + b"-" * 600, b"E5,T," + b"1" * 700]
    lines += [b"E9999999999,T,1," + b"F" * count + b"." for count in (206, 207, 208, 209)]
    lines.append(b"E" + bytes(dice.between(128, 255) for _ in range(2500)))
    lines += [b"?" * 3000, b"\xff" * 2000, b" " * 300]
    return lines


def unmarked_lines() -> list[bytes]:
    """Lines whose first byte is another than S and E, or that have none; and the two alone."""
    every = [bytes([value]) for value in range(256) if value != 10]
    lines = [b"", b""] + every + [byte + b"5,K" for byte in every[::7]]
    lines += [b"s5,K,--,F,CVR,1,1,0,0", b"e5,K", b"5,K", b" E5,K", b",E5,K", b"?", b"\r", b"\rE5,K"]
    return lines + [b"", b"E", b"S", b"", b"E5,K", b""]


def mixed_lines(dice: Dice) -> list[bytes]:
    """Lines of the other kind, lines with a mark too many or a byte 13 at the end, any bytes."""
    lines = [event(text) for text in CHANGED_STRIPS] + [strip(text) for text in CHANGED_EVENTS]
    for line in [strip(text) for text in CHANGED_STRIPS] + [event(text) for text in CHANGED_EVENTS]:
        lines += [line[:1] + line, line + b"\r", line + b",", line.lower(), line + line]
    for _ in range(60):
        row = dice.row(dice.below(40)).replace(b"\n", b"K")
        lines += [b"S" + row, b"E" + row]
    for _ in range(60):
        line, cut = random_strip(dice), dice.between(1, 20)
        lines.append(line[:cut] + random_strip(dice)[cut:])
        lines.append(line[:cut] + line[cut:][::-1])
    return lines
