"""Which request a line is, by the tables of the protocol; and how bytes are cut into lines."""
from __future__ import annotations

import unittest

from case_tables import bytes_of, tables_of_kind
from rb_broker_formats.protocol import ErrorReply
from rb_broker_formats.requests import Kind, LineCutter, Request, read_request

WAITS = (b"TAKE", b"POLLFOR")


def expected(answer: str, line: bytes) -> Request:
    """The request of a table's answer, which repeats the line in lower case, or names a fault."""
    if answer.upper() in ErrorReply.__members__:
        return Kind.ERROR, ErrorReply[answer.upper()].value
    keyword = line.split(b" ")[0]
    if keyword == b"AT":
        return Kind.AT, line[3:]
    if keyword == b"QUIT":
        return Kind.QUIT, line
    return Kind.WAIT if keyword in WAITS else Kind.CALL, line


def rows() -> list[tuple[bytes, str]]:
    """Each line of the tables, with its answer."""
    told = ((*row.asked.partition(" "), row.answer) for table in tables_of_kind("lines.rows", "lines") for row in table)
    return [(bytes_of(line), answer) for keyword, _, line, answer in told if keyword == "request"]


class RequestTest(unittest.TestCase):
    def test_each_line_of_the_tables_is_read(self) -> None:
        self.assertGreater(len(rows()), 100)
        for line, answer in rows():
            with self.subTest(line=line):
                # A CR that belongs to the end is taken off; so a line that ends with one needs another.
                self.assertEqual(read_request(line + b"\r"), expected(answer, line))
                if not line.endswith(b"\r"):
                    self.assertEqual(read_request(line), expected(answer, line))

    def test_a_line_has_256_bytes_without_its_end(self) -> None:
        self.assertEqual(read_request(b"x" * 256 + b"\r"), (Kind.ERROR, b"ERR 1 syntax\n"))
        self.assertEqual(read_request(b"x" * 257), (Kind.ERROR, b"ERR 8 line\n"))
        self.assertEqual(read_request(b"x" * 256 + b"\r\r"), (Kind.ERROR, b"ERR 8 line\n"))


class LineCutterTest(unittest.TestCase):
    TEXT = b"POLL\r\n\nOFFER 5 a\n" + b"x" * 300 + b"\n" + b"y" * 256 + b"\r\nSIZE"
    LINES = [b"POLL\r", b"", b"OFFER 5 a", b"x" * 300, b"y" * 256 + b"\r"]

    def judged(self, lines: list[bytes]) -> list[Request]:
        return [read_request(line) for line in lines]

    def test_lines_are_the_same_however_they_arrive(self) -> None:
        for size in (1, 2, 7, 255, 256, 257, 258, 1_000):
            with self.subTest(size=size):
                cutter, lines = LineCutter(), []
                for start in range(0, len(self.TEXT), size):
                    lines += cutter.cut(self.TEXT[start:start + size])
                self.assertEqual(self.judged(lines), self.judged(self.LINES))
                self.assertEqual(cutter.rest, b"SIZE")

    def test_a_line_without_end_takes_no_memory(self) -> None:
        cutter = LineCutter()
        for _ in range(1_000):
            self.assertEqual(cutter.cut(b"x" * 65_536), [])
        self.assertLess(len(cutter.rest), 300)
        self.assertEqual(self.judged(cutter.cut(b"\nPOLL\n")), self.judged([b"x" * 257, b"POLL"]))
