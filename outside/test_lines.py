"""Tests of text lines with values worked out by hand: python3 outside/test_lines.py"""

import io
import unittest

from dialogue import lines_of
from linebench_reader import BYTES_KEPT, answer
from lines import (
    EVENT_FORMS, STRIP_FORMS, Event, Record, illegal_place, read_event_line, read_strip_line,
    strip_line, write_strip_line,
)
from telegrams import Refusal

EXAMPLE = b"200,S,--,O,CVR,1,1,0,0"
EXAMPLE_RECORD = Record(200, "speed", None, "overspeed", "speed control", True, "steady", "dark",
                        False)
LONGEST = b"2000000000,T,A9,S,MEM,0,2,1,1"
LONGEST_RECORD = Record(2_000_000_000, "telegram", (10, 9), "stop", "abroad", False, "blinking",
                        "steady", True)


class StripLines(unittest.TestCase):
    def test_read_and_written(self):
        for line, record in (
            (EXAMPLE, EXAMPLE_RECORD), (LONGEST, LONGEST_RECORD),
            (b"0,K,0A,F,NCV,0,0,2,0", Record(0, "tick", (0, 10), "fed", "no speed control", False,
                                             "dark", "blinking", False)),
            (b"7,P,42,V,OUT,1,2,2,1", Record(7, "pulse", (4, 2), "overdue", "put out", True,
                                             "blinking", "blinking", True)),
        ):
            self.assertEqual(read_strip_line(line), record)
            self.assertEqual(strip_line(record), line + b"\n")
        self.assertEqual(len(strip_line(LONGEST_RECORD)), 30)

    def test_buffer(self):
        buffer = bytearray(b"x" * 25)
        self.assertEqual(write_strip_line(buffer, EXAMPLE_RECORD), 23)
        self.assertEqual(buffer, EXAMPLE + b"\nxx")
        buffer = bytearray(b"x" * 30)
        write_strip_line(buffer, LONGEST_RECORD)
        self.assertEqual(buffer, LONGEST + b"\n")

    def test_short_buffer(self):
        for length, record in ((22, EXAMPLE_RECORD), (29, LONGEST_RECORD), (0, EXAMPLE_RECORD)):
            buffer = bytearray(b"x" * length)
            with self.assertRaises(Refusal) as caught:
                write_strip_line(buffer, record)
            refusal = caught.exception
            self.assertEqual((refusal.number, refusal.place, refusal.layer), (15, 0, "text"))
            self.assertEqual(buffer, b"x" * length)

    def test_no_such_record(self):
        for record in (EXAMPLE_RECORD._replace(time=2_000_000_001),
                       EXAMPLE_RECORD._replace(code=(0, 11)), EXAMPLE_RECORD._replace(red="lit")):
            with self.assertRaises(ValueError):
                strip_line(record)


class EventLines(unittest.TestCase):
    def test_read(self):
        for line, event in (
            (b"0,K", Event(0, "tick", ())), (b"200,S,40", Event(200, "speed", (40,))),
            (b"1,S,007", Event(1, "speed", (7,))), (b"1,S,L", Event(1, "speed", (None,))),
            (b"1000,P,R", Event(1000, "pulse", ("restrictive",))),
            (b"1000,P,C", Event(1000, "pulse", ("clear",))),
            (b"9999999999,L,N", Event(9_999_999_999, "lever", ("neutral",))),
            (b"20200,B,BAC,1", Event(20200, "button", ("BAC", True))),
            (b"20200,B,BNCV,0", Event(20200, "button", ("BNCV", False))),
            (b"5,T,1,9002", Event(5, "telegram", (True, b"\x90\x02"))),
            (b"5,T,0,", Event(5, "telegram", (False, b""))),
        ):
            self.assertEqual(read_event_line(line), event)


class Places(unittest.TestCase):
    def check(self, forms, rows):
        """Compare the place of each line with the one worked out by hand."""
        for line, place in rows:
            self.assertEqual(illegal_place(forms, line), place, line)

    def test_table_of_examples(self):
        self.check(EVENT_FORMS, (
            (b"", 0), (b"007,K", 1), (b"12345678901,K", 10), (b"5,K,", 3), (b"5,S,1234", 7),
            (b"5,B,BA", 6), (b"5,B,BX,1", 5), (b"5,T,1,9", 7), (b"5,T,1,9g", 7)))
        self.check(STRIP_FORMS, (
            (b"", 0), (b"2000000001,K,--,F,CVR,1,1,0,0", 9), (b"20000000000,K", 10),
            (b"5,K,0B,F,CVR,1,1,0,0", 5), (b"5,K,-0,F,CVR,1,1,0,0", 5)))

    def test_strip_times(self):
        # Nine digits are below the limit whatever they are, so that only the tenth can be wrong.
        behind = b",K,--,F,CVR,1,1,0,0"
        self.check(STRIP_FORMS, [(time + behind, place) for time, place in (
            (b"0", None), (b"210000000", None), (b"999999999", None), (b"1999999999", None),
            (b"2000000000", None), (b"2000000009", 9), (b"2000000010", 9), (b"2100000000", 9),
            (b"3000000000", 9), (b"9999999990", 9), (b"19999999990", 10), (b"00", 1), (b"", 0),
            (b"-1", 0), (b"1-", 1))])

    def test_strip_fields(self):
        self.check(STRIP_FORMS, (
            (EXAMPLE, None), (EXAMPLE[:-1], 21), (EXAMPLE + b"0", 22), (EXAMPLE + b",", 22),
            (EXAMPLE + b"\r", 22), (EXAMPLE + b"\n", 22), (b"5,X", 2), (b"5,K,0-", 5),
            (b"5,K,--,S,NVR", 10), (b"5,K,--,S,CCV", 10), (b"5,K,--,S,OUT,2", 13),
            (b"5,K,--,S,OUT,1,3", 15), (b"5,K,--,S,OUT,1,2,3", 17), (b"5,K,--,S,OUT,1,2,2,2", 19),
            (b"5,K,---", 6), (b"5,K,,", 4), (b"5,K,1,", 5), (b"5,K,--,A", 7), (b"5\x80", 1)))

    def test_event_fields(self):
        self.check(EVENT_FORMS, (
            (b"0,K", None), (b"0", 1), (b"0,", 2), (b"0K", 1), (b"5,k", 2), (b"5,S", 3),
            (b"5,S,", 4), (b"5,S,000", None), (b"5,S,0000", 7), (b"5,S,L1", 5), (b"5,S,1L", 5),
            (b"5,P,F", 4), (b"5,L,C", 4), (b"5,L,FF", 5), (b"5,B,BNV", 6), (b"5,B,BCV,", 7),
            (b"5,B,BLR,2", 8), (b"5,B,BLR,", 8), (b"5,B,BLR,11", 9), (b"5,B,BLRJ", 7),
            (b"5,T,2", 4), (b"5,T,1", 5), (b"5,T,1,", None), (b"5,T,1,0", 7), (b"5,T,1,00,", 8),
            (b"5,T,1," + b"0" * 208, None), (b"5,T,1," + b"0" * 207, 213),
            (b"5,T,1," + b"0" * 210, 214), (b"9999999999,K", None), (b"5" * 9000, 10)))


class Linebench(unittest.TestCase):
    def test_answers(self):
        for line, expected in (
            (b"E200,S,040", b"200,speed,40"), (b"E200,S,", b"E,14,6,text"),
            (b"E0,K", b"0,tick"), (b"E7,S,000", b"7,speed,0"), (b"E7,S,L", b"7,speed,lost"),
            (b"E7,P,R", b"7,pulse,restrictive"), (b"E7,P,C", b"7,pulse,clear"),
            (b"E7,L,F", b"7,lever,forward"), (b"E7,L,N", b"7,lever,neutral"),
            (b"E7,L,R", b"7,lever,reverse"), (b"E7,B,BLJ,1", b"7,press,BLJ"),
            (b"E7,B,BCVR,0", b"7,release,BCVR"), (b"E7,T,1,0A00", b"7,telegram,good,0A00"),
            (b"E7,T,0,", b"7,telegram,bad,"), (b"S" + EXAMPLE, EXAMPLE), (b"S" + LONGEST, LONGEST),
            (b"S", b"E,14,0,text"), (b"E", b"E,14,0,text"), (b"", b"?"), (b"s" + EXAMPLE, b"?"),
            (b"\xff", b"?"), (b" E0,K", b"?"), (b"SS", b"E,14,0,text"), (b"E0,K\r", b"E,14,3,text"),
        ):
            self.assertEqual(answer(line), expected, line)

    def test_cutting_into_lines(self):
        self.assertEqual(list(lines_of(io.BytesIO(b""), BYTES_KEPT)), [])
        self.assertEqual(list(lines_of(io.BytesIO(b"E\n\nS"), BYTES_KEPT)), [b"E", b"", b"S"])
        self.assertEqual(list(lines_of(io.BytesIO(b"\n"), BYTES_KEPT)), [b""])
        longest = b"E9999999999,T,1," + b"0" * 208
        for length in (1, 2, 4000, 4096, 9000):
            overlong = longest + b"0" * length
            (line,) = lines_of(io.BytesIO(overlong + b"\n"), BYTES_KEPT)
            self.assertEqual(answer(line), b"E,14,223,text")
            self.assertEqual(answer(overlong), b"E,14,223,text")


if __name__ == "__main__":
    unittest.main()
