"""Balise telegrams and refusals, a second reading of docs/TELEGRAMS.md and docs/REFUSALS.md.

The balise group memory stands in groups.py.

A telegram is handled here as a string of the characters '0' and '1', bit 0 first, so that
every bit place in the documents is an index into that string.
"""

from typing import NamedTuple, Optional

SHORT_BYTES = 27
TELEGRAM_BITS_OF_BYTES = {27: 210, 104: 830}

HEADER_WIDTHS = (
    ("updown", 1), ("version", 7), ("media", 1), ("position", 3), ("total", 3),
    ("duplicate", 2), ("counter", 8), ("country", 10), ("group", 14), ("link", 1),
)
UPDOWN_PLACE, VERSION_PLACE, MEDIA_PLACE, POSITION_PLACE, TOTAL_PLACE = 0, 1, 8, 9, 12
FIRST_PACKET_PLACE = 50

NID_PACKET_BITS, FIXED_PART_BITS, XUSER_END, TBL1_BITS = 8, 23, 32, 48
PACKET_44, PACKET_255, TBL1_XUSER, HIGHEST_DIGIT = 44, 255, 13, 10
REVERSE, NOMINAL, BOTH, NO_DIRECTION = 0, 1, 2, 3

LAYER_OF_NUMBER = {
    5: "frame", 6: "frame", 7: "header", 8: "header", 9: "header", 10: "packet", 11: "packet",
    14: "text", 15: "text", 16: "header",
}


class Refusal(Exception):
    """A refused call: which fault it was, and at which place it was found."""

    def __init__(self, number: int, place: int = 0):
        super().__init__(number, place)
        self.number = number
        self.place = place
        self.layer = LAYER_OF_NUMBER[number]


class Header(NamedTuple):
    """The ten header fields in their order in the telegram."""

    updown: int
    version: int
    media: int
    position: int
    total: int
    duplicate: int
    counter: int
    country: int
    group: int
    link: int


class Tbl1Packet(NamedTuple):
    """A TBL1+ packet: its Q_DIR and the two digits of its code."""

    direction: int
    first: int
    second: int

    @property
    def code(self) -> str:
        """The code as two characters, ten being A."""
        return "0123456789A"[self.first] + "0123456789A"[self.second]


class Written(NamedTuple):
    """The eleven values given to the bench writer."""

    version: int
    position: int
    total: int
    duplicate: int
    counter: int
    country: int
    group: int
    link: int
    direction: int
    first: int
    second: int


MOST_THAT_FITS = Written(127, 7, 7, 3, 255, 1023, 16383, 1, 3, 255, 255)


# Bits and fields

def bits_of_bytes(row: bytes) -> str:
    """All bits of a row of bytes, the highest bit of the first byte first."""
    return "".join(format(byte, "08b") for byte in row)


def bytes_of_bits(bits: str) -> bytes:
    """The row of bytes that whole bytes of bits make."""
    return bytes(int(bits[i:i + 8], 2) for i in range(0, len(bits), 8))


def field_bits(value: int, width: int) -> str:
    """The bits of a field of this width holding this value."""
    if not 0 <= value < 2 ** width:
        raise ValueError(f"{value} does not fit into {width} bits")
    return format(value, f"0{width}b")


def field(bits: str, first_bit: int, width: int) -> int:
    """The value of the field that begins at this bit."""
    return int(bits[first_bit:first_bit + width], 2)


# Reading: frame, header, packets

def read_frame(row: bytes, crc_good: bool) -> str:
    """The 210 or 830 telegram bits, without the closing bits."""
    if len(row) not in TELEGRAM_BITS_OF_BYTES:
        raise Refusal(5)
    bits = bits_of_bytes(row)
    end = TELEGRAM_BITS_OF_BYTES[len(row)]
    if "1" in bits[end:]:
        raise Refusal(5)
    if not crc_good:
        raise Refusal(6)
    return bits[:end]


def read_header(bits: str, plug: int) -> Header:
    """The header, after the questions 7 and 8."""
    values, place = [], 0
    for _name, width in HEADER_WIDTHS:
        values.append(field(bits, place, width))
        place += width
    header = Header(*values)
    if header.updown != 1:
        raise Refusal(7, UPDOWN_PLACE)
    if header.version > plug:
        raise Refusal(7, VERSION_PLACE)
    if header.media != 0:
        raise Refusal(7, MEDIA_PLACE)
    if header.total == 0:
        raise Refusal(8, TOTAL_PLACE)
    if header.position > header.total:
        raise Refusal(8, POSITION_PLACE)
    return header


def read_packet_44(packet: str, place: int) -> Optional[Tbl1Packet]:
    """Packet 44, given with all its bits: a TBL1+ packet, or None where it is another user's."""
    if len(packet) < XUSER_END:
        raise Refusal(11, place)
    direction = field(packet, 8, 2)
    if direction == NO_DIRECTION:
        raise Refusal(11, place)
    if field(packet, 23, 9) != TBL1_XUSER:
        return None
    if len(packet) != TBL1_BITS:
        raise Refusal(11, place)
    first, second = field(packet, 32, 8), field(packet, 40, 8)
    if first > HIGHEST_DIGIT or second > HIGHEST_DIGIT:
        raise Refusal(11, place)
    return Tbl1Packet(direction, first, second)


def read_packets(bits: str) -> list[Tbl1Packet]:
    """The TBL1+ packets of a telegram in their order."""
    found, place, end = [], FIRST_PACKET_PLACE, len(bits)
    while True:
        if end - place < NID_PACKET_BITS:
            raise Refusal(10, place)
        number = field(bits, place, NID_PACKET_BITS)
        if number == PACKET_255:
            return found
        if end - place < FIXED_PART_BITS:
            raise Refusal(10, place)
        length = field(bits, place + 10, 13)
        if length < FIXED_PART_BITS or length > end - place:
            raise Refusal(10, place)
        if number == PACKET_44:
            packet = read_packet_44(bits[place:place + length], place)
            if packet is not None:
                found.append(packet)
        place += length


def read_telegram(row: bytes, crc_good: bool, plug: int) -> tuple[Header, list[Tbl1Packet]]:
    """What a telegram reads as: its header and its TBL1+ packets."""
    bits = read_frame(row, crc_good)
    header = read_header(bits, plug)
    return header, read_packets(bits)


# The bench writer

def tbl1_bits(direction: int, first: int, second: int) -> str:
    """The 48 bits of a TBL1+ packet."""
    return (field_bits(PACKET_44, 8) + field_bits(direction, 2) + field_bits(TBL1_BITS, 13)
            + field_bits(TBL1_XUSER, 9) + field_bits(first, 8) + field_bits(second, 8))


def header_bits(header: Header) -> str:
    """The 50 bits of a header."""
    return "".join(field_bits(value, width)
                   for value, (_name, width) in zip(header, HEADER_WIDTHS))


def write_telegram(buffer: bytearray, values: Written) -> None:
    """Write a short telegram with one TBL1+ packet into the first 27 bytes of the buffer."""
    if len(buffer) < SHORT_BYTES:
        raise Refusal(15)
    if any(value > most for value, most in zip(values, MOST_THAT_FITS)):
        raise Refusal(16)
    if values.total == 0 or values.position > values.total:
        raise Refusal(16)
    if values.direction == NO_DIRECTION or max(values.first, values.second) > HIGHEST_DIGIT:
        raise Refusal(16)
    header = Header(1, values.version, 0, *values[1:8])
    packet = tbl1_bits(values.direction, values.first, values.second)
    bits = header_bits(header) + packet + field_bits(PACKET_255, 8)
    buffer[:SHORT_BYTES] = bytes_of_bits(bits.ljust(210, "1").ljust(216, "0"))
