"""What the fields of a line may hold. A text is either whole, or at least the beginning of one."""

import re

MOST_PAIRS = 104


class Number:
    """A decimal number with a limit and without leading zeros.
    Whatever a number begins with is a number too."""

    def __init__(self, limit: int):
        self.limit = limit

    def is_whole(self, text: bytes) -> bool:
        """Whether this is a number up to the limit."""
        return (re.fullmatch(rb"0|[1-9][0-9]*", text) is not None
                and len(text) <= len(str(self.limit)) and int(text) <= self.limit)

    def is_beginning(self, text: bytes) -> bool:
        """Whether a number up to the limit begins so."""
        return text == b"" or self.is_whole(text)


class Pairs:
    """0 to 104 pairs of hexadecimal digits in capitals."""

    def is_whole(self, text: bytes) -> bool:
        """Whether these are whole pairs."""
        return self.is_beginning(text) and len(text) % 2 == 0

    def is_beginning(self, text: bytes) -> bool:
        """Whether these are pairs, the last one perhaps a half."""
        return len(text) <= 2 * MOST_PAIRS and re.fullmatch(rb"[0-9A-F]*", text) is not None
