"""A second reading of the program linebench in docs/STRIP.md: shows what text lines read as.

python3 outside/linebench_reader.py < lines > answers
"""

import sys

from dialogue import serve
from lines import LONGEST_LEGAL_LINE, Event, read_event_line, read_strip_line, strip_line
from telegrams import Refusal

STRIP_MARK, EVENT_MARK = b"S", b"E"
BYTES_KEPT = len(STRIP_MARK) + LONGEST_LEGAL_LINE + 1


def what_happens(event: Event) -> str:
    """An event in words, without its time."""
    kind, details = event.kind, event.details
    if kind == "speed":
        return "speed,lost" if details[0] is None else f"speed,{details[0]}"
    if kind == "button":
        name, pressed = details
        return f"press,{name}" if pressed else f"release,{name}"
    if kind == "telegram":
        crc_good, row = details
        return f"telegram,{'good' if crc_good else 'bad'},{row.hex().upper()}"
    return ",".join((kind,) + details)


def answer(line: bytes) -> bytes:
    """The answer to any input line, both with no byte 10."""
    mark, rest = line[:1], line[1:]
    try:
        if mark == STRIP_MARK:
            return strip_line(read_strip_line(rest)).removesuffix(b"\n")
        if mark == EVENT_MARK:
            event = read_event_line(rest)
            return f"{event.time},{what_happens(event)}".encode("ascii")
        return b"?"
    except Refusal as refusal:
        return f"E,{refusal.number},{refusal.place},{refusal.layer}".encode("ascii")


if __name__ == "__main__":
    sys.exit(serve("linebench_reader", answer, BYTES_KEPT))
