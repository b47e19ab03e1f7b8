"""Make the test lines for the program linebench: python3 outside/make_line_vectors.py path

The lines are the same in every run. How many there are of each kind is printed.
"""

import sys

from line_vectors_illegal import (
    changed_lines, continued_lines, field_lines, mixed_lines, overlong_lines, pair_lines,
    unmarked_lines,
)
from line_vectors_legal import event_lines, strip_lines
from vector_parts import Dice, write_vectors

SEED = 40_000
LAST_LINE = b"E5,T,1,9"


def make_line_vectors() -> tuple[bytes, dict[str, int]]:
    """The whole input, whose last line has no byte 10, and the number of lines of each kind."""
    dice = Dice(SEED)
    lines_of_kind = {
        "legal strip lines": strip_lines(dice),
        "legal event lines": event_lines(dice),
        "changed lines": changed_lines(dice),
        "continued beginnings": continued_lines(),
        "fields": field_lines(),
        "pairs": pair_lines(dice),
        "overlong lines": overlong_lines(dice),
        "unmarked lines": unmarked_lines(),
        "mixed lines": mixed_lines(dice),
        "last line": [LAST_LINE],
    }
    lines = [line for made in lines_of_kind.values() for line in made]
    return b"\n".join(lines), {kind: len(made) for kind, made in lines_of_kind.items()}


if __name__ == "__main__":
    sys.exit(write_vectors(*make_line_vectors()))
