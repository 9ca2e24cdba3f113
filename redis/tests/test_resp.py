"""What a Redis is sent and what it answers."""
from __future__ import annotations

import unittest

from rb_broker_redis.resp import ErrorAnswer, command, reader

SENT = (b"+OK\r\n:-5\r\n$-1\r\n$3\r\na\r\n\r\n*-1\r\n*0\r\n*3\r\n$5\r\nSIZE \r\n:2\r\n*1\r\n$0\r\n\r\n"
        b"-OOM command not allowed\r\n")
READ = [b"OK", -5, None, b"a\r\n", None, [], [b"SIZE ", 2, [b""]], "OOM command not allowed"]


def plain(answer: object) -> object:
    return str(answer) if isinstance(answer, ErrorAnswer) else answer


class RespTest(unittest.TestCase):
    def test_answers_are_read_however_they_arrive(self) -> None:
        for size in (1, 2, 3, 7, len(SENT)):
            with self.subTest(size=size):
                it, answers = reader(), []
                for start in range(0, len(SENT), size):
                    it.feed(SENT[start:start + size])
                    while (answer := it.gets()) is not False:
                        answers.append(plain(answer))
                self.assertEqual(answers, READ)

    def test_an_error_has_a_code(self) -> None:
        self.assertEqual(ErrorAnswer("MOVED 5 127.0.0.1:7000").code, "MOVED")

    def test_a_command_has_the_lengths_of_its_words(self) -> None:
        self.assertEqual(command("SET", b"\xff\r\n", 10), b"*3\r\n$3\r\nSET\r\n$3\r\n\xff\r\n\r\n$2\r\n10\r\n")
