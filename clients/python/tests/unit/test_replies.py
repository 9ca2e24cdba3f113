"""The lines of requests, and the readers of their replies. docs/PROTOCOL.md says what they must send and read."""
import unittest
from datetime import timedelta
from fractions import Fraction
from itertools import product

from scripted import table
from rb_broker_client import BrokerError, Job, Request

GREATEST = 18_446_744_073_709_551_615
CHARACTERS = "".join(map(chr, range(0x21, 0x7F)))  # that a payload may have


def answer(request, *lines):
    """What the request's reader makes of these reply lines. All of them have to be read."""
    rest = (it.encode("latin-1") for it in lines)
    told = request.read(rest)
    assert not [*rest], "lines are left"
    return told


def request_of(line):
    """The request that is sent by this line."""
    keyword, *words = line.split(" ")
    duration = lambda: Fraction(int(words[0]), 10**9)
    make = {
        "OFFER": lambda: Request.offer(words[1], delay=duration()),
        "OFFERAT": lambda: Request.offer_at(words[1], expires_at_ns=int(words[0])),
        "POLLFOR": lambda: Request.poll_for(duration()), "AT": Request.greeting,
    }.get(keyword) or (lambda: getattr(Request, keyword.lower())(*map(int, words)))
    return make()


class ReplyTest(unittest.TestCase):
    """What is sent, or refused before it is, and what is read."""

    def test_each_request_and_its_replies(self):
        for lines, told, *replies in (it.split(" | ") for it in table("replies.txt").splitlines()):
            for line, reply in product(lines.split(" & "), replies):
                with self.subTest(line=line, reply=reply):
                    request = request_of(line)
                    self.assertEqual(str(request), line)
                    try:
                        heard = answer(request, *reply.encode().decode("unicode_escape").split(", "))
                    except BrokerError as fault:
                        heard = fault
                    self.assertIn(told.replace("*", reply), (repr(heard), type(heard).__name__))

    def test_durations_are_seconds_or_a_timedelta(self):
        for delay, told in (
            (2, "2000000000"), (2.5, "2500000000"), (0.1, "100000000"), (timedelta(seconds=2.5), "2500000000"),
            (timedelta(days=36_500, microseconds=1), "3153600000000001000"), (10_000_000_000, "10000000000000000000"),
        ):
            self.assertEqual(str(Request.offer("a", delay=delay)), f"OFFER {told} a")
            self.assertEqual(str(Request.poll_for(delay)), f"POLLFOR {told}")

    def test_what_is_no_duration(self):
        numbers = (-1, -0.5, float("nan"), float("inf"), timedelta(seconds=-1), 2**64, 18_446_744_074)
        for fault, delays in ((ValueError, numbers), (TypeError, ("5", None, [5]))):
            for delay in delays:
                self.assertRaises(fault, Request.offer, "a", delay=delay)
                self.assertRaises(fault, Request.poll_for, delay)

    def test_what_is_no_payload(self):
        """What a server would refuse is not sent, and no request is smuggled in."""
        for fault, text, payloads in (
            (ValueError, "^a payload is 1 to 64 characters of printable ASCII",
             ("a\nCLEAR", "a\n", "a\r", "\r", "", "two words", "a" * 65, "é", "a\tb", "\x7f")),
            (TypeError, "^a payload is a str, not (NoneType|int|bytes|list|float)$", (None, 17, b"a", ["a"], 1.5)),
        ):
            for payload in payloads:
                self.assertRaisesRegex(fault, text, Request.offer, payload)
                self.assertRaisesRegex(fault, text, Request.offer_at, payload, expires_at_ns=5)

    def test_the_longest_reply_and_each_character_of_a_payload(self):
        for payload in ("~" * 64, CHARACTERS[:64], CHARACTERS[64:], "ERR", "NONE"):
            self.assertEqual(str(Request.offer(payload)), f"OFFER 0 {payload}")
            line = f"ITEM {GREATEST} {GREATEST} 1000 {payload}"
            self.assertEqual(answer(Request.take(), line), Job(GREATEST, GREATEST, 1000, payload))
        many = answer(Request.drain(100), "DRAINED 64", *(f"ITEM {id} 0 1 a" for id in range(64)))
        self.assertEqual(many, [Job(id, 0, 1, "a") for id in range(64)])

    def test_other_numbers_are_the_servers_to_judge(self):
        self.assertEqual(Request.offer_at("a", expires_at_ns=-1).line, b"OFFERAT -1 a")
        self.assertEqual(Request.done(2**64).line, b"DONE 18446744073709551616")
