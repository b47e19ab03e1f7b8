"""What the line programs share: each line of standard input is answered on standard output."""

import sys
from typing import BinaryIO, Callable, Iterator

CHUNK = 4096


def lines_of(source: BinaryIO, kept: int) -> Iterator[bytes]:
    """The lines without their byte 10. Of an overlong line only so many bytes are kept:
    it is answered by those alone, since its illegal place is among them."""
    while chunk := source.readline(CHUNK):
        line = chunk.removesuffix(b"\n")[:kept]
        while chunk and not chunk.endswith(b"\n"):
            chunk = source.readline(CHUNK)
        yield line


def serve(name: str, answer: Callable[[bytes], bytes], kept: int) -> int:
    """Answer standard input line by line; the status with which the program ends."""
    try:
        with open(1, "wb", closefd=False) as answers:
            for line in lines_of(sys.stdin.buffer, kept):
                answers.write(answer(line) + b"\n")
    except OSError as error:
        print(f"{name}: {error}", file=sys.stderr)
        return 1
    return 0
