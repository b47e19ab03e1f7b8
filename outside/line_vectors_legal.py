"""Legal test lines for the program linebench: strip lines and event lines of every form.

The words stand here once more as the document names them, not as lines.py has them.
"""

from itertools import product

from vector_parts import Dice

KINDS = "KSPLBT"
CODE_DIGITS = "0123456789A"
CODES = ["--"] + [first + second for first in CODE_DIGITS for second in CODE_DIGITS]
BRAKES = "FVOS"
MODES = ("NCV", "CVR", "OUT", "MEM")
PANELS = [",".join(panel) for panel in product("01", "012", "012", "01")]
BUTTONS = ("BAC", "BNCV", "BCVR", "BFC", "BLJ", "BLR")

STRIP_TIMES = (0, 1, 9, 10, 1_999_999_999, 2_000_000_000)
EVENT_TIMES = STRIP_TIMES + (2_000_000_001, 4_294_967_295, 4_294_967_296, 9_999_999_999)
SPEEDS = ("0", "00", "000", "001", "010", "100", "7", "07", "007", "70", "070", "700",
          "99", "099", "160", "255", "256", "999")
TELEGRAM_LENGTHS = (0, 1, 2, 3, 26, 27, 28, 63, 64, 102, 103, 104)


def strip(text: str) -> bytes:
    """An input line with a strip line."""
    return b"S" + text.encode("ascii")


def event(text: str) -> bytes:
    """An input line with an event line."""
    return b"E" + text.encode("ascii")


def random_time(dice: Dice, limit: int) -> int:
    """A time up to the limit, of which any number of digits is as likely as another."""
    return dice.below(min(10 ** dice.between(1, 10), limit + 1))


def times_to(limit: int, times) -> list[int]:
    """These times, and the least and the greatest time of each number of digits."""
    ends = [10 ** width for width in range(10)] + [10 ** width - 1 for width in range(1, 11)]
    return sorted(set(times) | {time for time in ends if time <= limit})


# Strip lines

def random_strip(dice: Dice, time=None, kind=None, code=None, brake=None, mode=None,
                 panel=None) -> bytes:
    """A strip line with some fields given and the others left to chance."""
    if time is None:
        time = random_time(dice, 2_000_000_000)
    return strip(",".join((
        str(time), kind or dice.one_of(KINDS), code or dice.one_of(CODES),
        brake or dice.one_of(BRAKES), mode or dice.one_of(MODES), panel or dice.one_of(PANELS))))


def strip_lines(dice: Dice) -> list[bytes]:
    """All panels with all brakes and modes, all kinds with all brakes and modes, all codes,
    and many times."""
    lines = [strip("200,S,--,O,CVR,1,1,0,0")]
    lines += [random_strip(dice, brake=brake, mode=mode, panel=panel)
              for brake, mode, panel in product(BRAKES, MODES, PANELS)]
    lines += [random_strip(dice, kind=kind, brake=brake, mode=mode)
              for kind, brake, mode in product(KINDS, BRAKES, MODES)]
    lines += [random_strip(dice, code=code) for code in CODES]
    lines += [random_strip(dice, time=time) for time in times_to(2_000_000_000, STRIP_TIMES)]
    lines += [random_strip(dice, time=dice.between(1_000_000_000, 2_000_000_000))
              for _ in range(40)]
    return lines


# Event lines

def random_telegram(dice: Dice, time: int, crc: str, count: int) -> bytes:
    """A telegram event of so many bytes."""
    return event(f"{time},T,{crc},{dice.row(count).hex().upper()}")


def happenings() -> list[str]:
    """Everything that can happen, but only a few speeds and telegrams."""
    rest = ["K", "P,R", "P,C", "L,F", "L,N", "L,R", "S,L"]
    rest += [f"B,{button},{pressed}" for button in BUTTONS for pressed in "01"]
    rest += [f"S,{speed}" for speed in SPEEDS]
    rest += [f"T,{crc},{pairs}" for crc in "01" for pairs in ("", "00", "FF", "9002", "0A")]
    return rest


def telegram_lines(dice: Dice) -> list[bytes]:
    """Telegrams of many lengths, and all 256 bytes in three of them."""
    every = bytes(range(256)).hex().upper()
    lines = [event(f"70,T,1,{every[start:start + 208]}") for start in (0, 200, 304)]
    for count, crc in product(TELEGRAM_LENGTHS, "01"):
        lines += [random_telegram(dice, random_time(dice, 9_999_999_999), crc, count)
                  for _ in range(2)]
    lines += [random_telegram(dice, 9_999_999_999, crc, 104) for crc in "01"]
    return lines


def event_lines(dice: Dice) -> list[bytes]:
    """All that can happen, at three times each; ticks at many times; all widths of speeds."""
    lines = [event(text) for text in ("0,K", "200,S,40", "1000,P,R", "20200,B,BAC,1",
                                      "5,T,1,9002", "200,S,040")]
    for happening in happenings():
        times = (random_time(dice, 9_999_999_999), random_time(dice, 9_999_999_999),
                 dice.one_of(EVENT_TIMES))
        lines += [event(f"{time},{happening}") for time in times]
    lines += [event(f"{time},K") for time in times_to(9_999_999_999, EVENT_TIMES)]
    for width in (1, 2, 3):
        speeds = [str(dice.below(10 ** width)).zfill(width) for _ in range(40)]
        lines += [event(f"{random_time(dice, 9_999_999_999)},S,{speed}") for speed in speeds]
    return lines + telegram_lines(dice)
