"""A second reading of docs/BENCH.md: command lines from standard input, answers to standard output.

The legal lines are described by what each field may hold. The place of an illegal line is found
by asking of its beginnings, the shortest first, whether any legal line begins so.
"""

import sys
from typing import Optional

from dialogue import serve
from fields import MOST_PAIRS, Number, Pairs
from groups import ClosedGroup, Memory, OpenGroup, hear_telegram
from telegrams import (
    BOTH, NOMINAL, REVERSE, SHORT_BYTES, Refusal, Written, read_telegram, write_telegram,
)

NUMBER_LIMIT, PLUG_LIMIT = 65535, 127
LONGEST_LEGAL_LINE = len("R,127,1,") + 2 * MOST_PAIRS

DIRECTION_LETTERS = {NOMINAL: "N", REVERSE: "R", BOTH: "B", None: "-"}

TELEGRAM_FIELDS = (Number(PLUG_LIMIT), Number(1), Pairs())
FIELDS_OF_COMMAND = {
    b"W": (Number(NUMBER_LIMIT),) * 11,
    b"R": TELEGRAM_FIELDS,
    b"G": TELEGRAM_FIELDS,
    b"F": (),
}


def is_legal(line: bytes) -> bool:
    """Whether this is a legal line."""
    command, *texts = line.split(b",")
    fields = FIELDS_OF_COMMAND.get(command)
    return (fields is not None and len(texts) == len(fields)
            and all(field.is_whole(text) for field, text in zip(fields, texts)))


def is_beginning(line: bytes) -> bool:
    """Whether some legal line begins so."""
    command, *texts = line.split(b",")
    if not texts:
        return command == b"" or command in FIELDS_OF_COMMAND
    fields = FIELDS_OF_COMMAND.get(command)
    if fields is None or len(texts) > len(fields):
        return False
    last = len(texts) - 1
    return (all(field.is_whole(text) for field, text in zip(fields[:last], texts[:last]))
            and fields[last].is_beginning(texts[last]))


def illegal_place(line: bytes) -> Optional[int]:
    """The place of an illegal line, None for a legal one."""
    if is_legal(line):
        return None
    for place in range(len(line)):
        if not is_beginning(line[:place + 1]):
            return place
    return len(line)


# The commands

def answer_write(texts: list[bytes]) -> str:
    """The answer to a W line."""
    buffer = bytearray(SHORT_BYTES)
    write_telegram(buffer, Written(*map(int, texts)))
    return buffer.hex().upper()


def telegram_of(texts: list[bytes]) -> tuple[bytes, bool, int]:
    """The telegram, whether its CRC is good, and the plug value, of an R or a G line."""
    plug, crc, pairs = texts
    return bytes.fromhex(pairs.decode("ascii")), crc == b"1", int(plug)


def answer_read(texts: list[bytes]) -> str:
    """The answer to an R line."""
    header, packets = read_telegram(*telegram_of(texts))
    parts = [str(value) for value in header]
    parts += [DIRECTION_LETTERS[packet.direction] + packet.code for packet in packets]
    return "H," + ",".join(parts)


class Bench:
    """The bench program with its balise group memory."""

    def __init__(self):
        self.memory: Memory = None

    def answer_hear(self, texts: list[bytes]) -> str:
        """The answer to a G line."""
        hearing = hear_telegram(self.memory, *telegram_of(texts))
        memory = self.memory = hearing.memory
        known = f"{memory.country},{memory.group}"
        if isinstance(memory, OpenGroup):
            return (f"O,{known},{memory.total},{memory.first_position},"
                    f"{DIRECTION_LETTERS[memory.direction]},"
                    f"{memory.nominal_code or '--'},{memory.reverse_code or '--'}")
        assert isinstance(memory, ClosedGroup)
        return f"P,{known}" if hearing.passed_over else f"C,{known},{hearing.code or '--'}"

    def answer_legal(self, line: bytes) -> str:
        """The answer to a legal line, where it is not refused."""
        command, *texts = line.split(b",")
        if command == b"W":
            return answer_write(texts)
        if command == b"R":
            return answer_read(texts)
        if command == b"G":
            return self.answer_hear(texts)
        self.memory = None
        return "F"

    def answer(self, line: bytes) -> str:
        """The answer to any line, given without its byte 10."""
        try:
            place = illegal_place(line)
            if place is not None:
                raise Refusal(14, place)
            return self.answer_legal(line)
        except Refusal as refusal:
            return f"E,{refusal.number},{refusal.place},{refusal.layer}"


if __name__ == "__main__":
    bench = Bench()
    sys.exit(serve("bench_reader", lambda line: bench.answer(line).encode("ascii"),
                   LONGEST_LEGAL_LINE + 1))
