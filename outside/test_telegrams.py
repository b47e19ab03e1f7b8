"""Tests of the outside reader with values worked out by hand: python3 outside/test_telegrams.py"""

import io
import unittest

from bench_reader import Bench, LONGEST_LEGAL_LINE, illegal_place
from dialogue import lines_of
from telegrams import Refusal, Written, bytes_of_bits, read_telegram, write_telegram

WORKED_BITS = ("1" "0010000" "0" "000" "001" "00" "11111111" "0000000001" "00000000000101" "0"
               "00101100" "01" "0000000110000" "000001101" "00000010" "00000010"
               "11111111") + 104 * "1" + "000000"
WORKED_HEX = "90027F8020028B1018034080BF" + 13 * "FF" + "C0"
WORKED_LINE = "W,16,0,1,0,255,1,5,0,1,2,2"
HEADER = WORKED_BITS[:50]
# The same group with position 1, where bits 9 to 11 are 001, and code 3A for the reverse direction.
SECOND_BITS = (HEADER[:9] + "001" + HEADER[12:]
               + "00101100" "00" "0000000110000" "000001101" "00000011" "00001010") + 112 * "1"


def read_bits(bits: str, plug: int = 127, crc: int = 1) -> str:
    """The bench's answer to an R line with these telegram bits."""
    row = bytes_of_bits(bits + ("000000" if len(bits) == 210 else "00"))
    return Bench().answer(f"R,{plug},{crc},{row.hex().upper()}".encode())


def with_packets(packets: str, end: int = 210) -> str:
    """The worked header with these packets, filled up with zeros."""
    return (HEADER + packets).ljust(end, "0")


class WorkedTelegram(unittest.TestCase):
    def test_written_and_read_back(self):
        self.assertEqual(bytes_of_bits(WORKED_BITS).hex().upper(), WORKED_HEX)
        self.assertEqual(Bench().answer(WORKED_LINE.encode()), WORKED_HEX)
        self.assertEqual(read_bits(WORKED_BITS[:210]), "H,1,16,0,0,1,0,255,1,5,0,N22")

    def test_buffer(self):
        buffer = bytearray(b"\xaa" * 30)
        write_telegram(buffer, Written(16, 0, 1, 0, 255, 1, 5, 0, 1, 2, 2))
        self.assertEqual(buffer.hex().upper(), WORKED_HEX + "AAAAAA")
        for values in (Written(16, 0, 1, 0, 255, 1, 5, 0, 1, 2, 2), Written(*[65535] * 11)):
            with self.assertRaises(Refusal) as caught:
                write_telegram(bytearray(26), values)
            self.assertEqual((caught.exception.number, caught.exception.place), (15, 0))

    def test_writer_refuses(self):
        for line in ("W,128,0,1,0,255,1,5,0,1,2,2", "W,16,0,0,0,255,1,5,0,1,2,2",
                     "W,16,2,1,0,255,1,5,0,1,2,2", "W,16,0,1,0,255,1,5,0,3,2,2",
                     "W,16,0,1,0,255,1,5,0,1,11,2", "W,16,0,1,0,255,1,5,0,1,2,11"):
            self.assertEqual(Bench().answer(line.encode()), "E,16,0,header")


class Refusals(unittest.TestCase):
    def test_frame(self):
        self.assertEqual(Bench().answer(b"R,127,1,"), "E,5,0,frame")
        self.assertEqual(Bench().answer(b"R,127,0," + WORKED_HEX[:-1].encode() + b"1"),
                         "E,5,0,frame")
        self.assertEqual(read_bits("0" * 210, crc=0), "E,6,0,frame")

    def test_header(self):
        self.assertEqual(read_bits("0" + WORKED_BITS[1:210]), "E,7,0,header")
        self.assertEqual(read_bits(WORKED_BITS[:210], plug=15), "E,7,1,header")
        self.assertEqual(read_bits(WORKED_BITS[:8] + "1" + WORKED_BITS[9:210]), "E,7,8,header")
        self.assertEqual(read_bits(WORKED_BITS[:9] + "111000" + WORKED_BITS[15:210]),
                         "E,8,12,header")
        self.assertEqual(read_bits(WORKED_BITS[:9] + "010001" + WORKED_BITS[15:210]),
                         "E,8,9,header")

    def test_packets(self):
        other_160 = "00000001" "11" "0000010100000"
        self.assertEqual(read_bits(with_packets(other_160)), "E,10,210,packet")
        other_23 = "00000001" "11" "0000000010111"
        self.assertEqual(read_bits(with_packets(other_23)), "E,10,73,packet")
        self.assertEqual(read_bits(with_packets(other_23 + "11111111")),
                         "H,1,16,0,0,1,0,255,1,5,0")
        packet_44_31 = "00101100" "01" "0000000011111"
        self.assertEqual(read_bits(with_packets(other_23 + packet_44_31)), "E,11,73,packet")
        packet_44_32 = "00101100" "01" "0000000100000"
        self.assertEqual(read_bits(with_packets(packet_44_32 + "000001110" "11111111", 830)),
                         "H,1,16,0,0,1,0,255,1,5,0")
        self.assertEqual(read_bits(with_packets(packet_44_32 + "000001101", 830)),
                         "E,11,50,packet")
        with self.assertRaises(Refusal):
            read_telegram(bytes(27), True, 127)


class Groups(unittest.TestCase):
    def answers(self, *telegrams: str) -> list[str]:
        """The answers to G lines of these telegrams of 210 bits."""
        bench = Bench()
        rows = [bytes_of_bits(bits + "000000").hex().upper() for bits in telegrams]
        return [bench.answer(b"G,127,1," + row.encode()) for row in rows]

    def test_both_directions(self):
        first, second = WORKED_BITS[:210], SECOND_BITS
        self.assertEqual(self.answers(first, first, second, first),
                         ["O,1,5,1,0,-,22,--", "O,1,5,1,0,-,22,--", "C,1,5,22", "P,1,5"])
        self.assertEqual(self.answers(second, first, second),
                         ["O,1,5,1,1,-,--,3A", "C,1,5,3A", "P,1,5"])

    def test_another_total(self):
        other = SECOND_BITS[:12] + "010" + SECOND_BITS[15:]
        self.assertEqual(self.answers(WORKED_BITS[:210], other, SECOND_BITS, other),
                         ["O,1,5,1,0,-,22,--", "E,9,12,header", "C,1,5,22", "P,1,5"])


class Lines(unittest.TestCase):
    def test_places(self):
        for line, place in (
            (b"", 0), (b"F", None), (b"F\r", 1), (b"f", 0), (b"W", 1), (b"W,00", 3), (b"W,01", 3),
            (b"W,65536", 6), (b"W,66000", 6), (b"W,6553", 6), (b"W,,", 2), (b"R,128,1,", 4),
            (b"R,13,", 5), (b"R,130", 4), (b"R,127,2,", 6), (b"R,127,10,", 7), (b"R,127,1", 7),
            (b"R,127,1,", None), (b"R,127,1,9", 9), (b"R,127,1,9a", 9), (b"R,127,1," + b"0" * 208,
            None), (b"R,127,1," + b"0" * 209, 216), (b"W" + b",1" * 12, 23), (b"G,1,1,00,", 8),
        ):
            self.assertEqual(illegal_place(line), place, line)

    def test_cutting_into_lines(self):
        self.assertEqual(list(lines_of(io.BytesIO(b""), LONGEST_LEGAL_LINE + 1)), [])
        self.assertEqual(list(lines_of(io.BytesIO(b"F\n\nF"), LONGEST_LEGAL_LINE + 1)), [b"F", b"", b"F"])
        self.assertEqual(list(lines_of(io.BytesIO(b"F\n"), LONGEST_LEGAL_LINE + 1)), [b"F"])
        for length in (217, 4095, 4096, 4097, 9000):
            overlong = io.BytesIO(b"Z" * length + b"\nF")
            self.assertEqual(list(lines_of(overlong, LONGEST_LEGAL_LINE + 1)), [b"Z" * 217, b"F"])


if __name__ == "__main__":
    unittest.main()
