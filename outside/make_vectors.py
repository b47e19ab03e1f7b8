"""Make the test lines for the program bench: python3 outside/make_vectors.py path

The lines are the same in every run. How many there are of each kind is printed.
"""

import sys

from vector_parts import Dice, write_vectors
from vectors_groups import group_lines
from vectors_lines import illegal_lines, writer_lines
from vectors_packets import packet_lines
from vectors_reading import code_lines, flip_lines, frame_lines, header_lines, random_lines

KINDS = (
    ("frame", frame_lines), ("header", header_lines), ("packets", packet_lines),
    ("flipped bits", flip_lines), ("codes", code_lines), ("random telegrams", random_lines),
    ("writer", writer_lines), ("groups", group_lines), ("illegal lines", illegal_lines),
)
LAST_LINE = b"R,127,1,9"


def make_vectors() -> tuple[bytes, dict[str, int]]:
    """The whole input, whose last line has no byte 10, and the number of lines of each kind."""
    lines, counts = [], {}
    for seed, (kind, make_lines) in enumerate(KINDS):
        made = make_lines(Dice(20_000 + seed))
        counts[kind] = len(made)
        lines += made
    lines.append(LAST_LINE)
    counts["last line"] = 1
    return b"\n".join(lines), counts


if __name__ == "__main__":
    sys.exit(write_vectors(*make_vectors()))
