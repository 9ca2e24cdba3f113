"""The calls of a gateway, over a link that only the test answers."""
from __future__ import annotations

import asyncio
import unittest
from collections.abc import Callable

from rb_broker_redis.calls import MOST_IN_FLIGHT, Calls
from rb_broker_redis.resp import Answer, ErrorAnswer

MOVED, GONE = ErrorAnswer("MOVED 5 127.0.0.1:7000"), ErrorAnswer("ERR Function not found")


class FakeLink:
    """A connection to a Redis."""

    def __init__(self) -> None:
        self.is_closed, self.data = False, b""
        self.sent: list[Callable[[Answer], None]] = []

    def send(self, data: bytes, *answers: Callable[[Answer], None]) -> None:
        self.data += data
        self.sent += answers

    def close(self) -> None:
        self.is_closed = True


class CallsTest(unittest.IsolatedAsyncioTestCase):
    async def asyncSetUp(self) -> None:
        self.calls = Calls("jobs")
        self.replies: list[list[bytes] | None] = []
        await self.use(FakeLink())

    async def use(self, link: FakeLink) -> None:
        """The link is there, and what waits for it goes out."""
        self.link = link
        self.calls.use(link)
        await self.let_go_out()

    async def let_go_out(self) -> None:
        for _ in range(10):  # turns of the loop
            await asyncio.sleep(0)

    async def submit(self, count: int, call: bytes = b"1 OFFER 0 a") -> None:
        """So many such calls go out, each by itself as far as the link takes them."""
        for _ in range(count):
            self.calls.submit([call], self.replies.append)
            await self.let_go_out()

    async def test_a_link_is_left_once_all_is_answered_that_it_was_sent(self) -> None:
        for refusal in (MOVED, GONE):
            with self.subTest(refusal=refusal):
                await self.asyncSetUp()
                await self.submit(MOST_IN_FLIGHT + 1)
                first, second = self.link.sent
                first(refusal)
                await self.let_go_out()
                self.assertEqual((len(self.link.sent), self.link.is_closed), (2, False))
                second(b"OFFERED 1 5\n")
                self.assertEqual((self.replies, self.link.is_closed), ([[b"OFFERED 1 5\n"]], True))
                await self.use(FakeLink())
                for answer in self.link.sent:  # what was refused, and what came meanwhile
                    answer(b"OFFERED 2 5\n")
                self.assertEqual(self.replies[1:], [[b"OFFERED 2 5\n"]] * 2)

    async def test_nothing_is_fetched_for_a_session_that_left_before_its_call_was_sent(self) -> None:
        self.calls.use(None)
        self.calls.submit([b"1 SIZE", b"1 POLLFOR 5 100", b"2 TAKE", b"11 TAKE"], self.replies.append)
        self.calls.withhold(b"1 ")
        await self.use(FakeLink())
        self.assert_sent(b"1 SIZE", b"1 WAIT", b"2 TAKE", b"11 TAKE")

    async def test_nor_for_one_that_left_while_its_call_was_refused(self) -> None:
        await self.submit(1, b"1 POLL")
        self.link.sent.pop()(ErrorAnswer("NOREPLICAS Not enough good replicas to write."))
        self.calls.withhold(b"1 ")
        while not self.link.sent:
            await self.let_go_out()
        self.assert_sent(b"1 WAIT")

    def assert_sent(self, *calls: bytes) -> None:
        """These are the calls that were sent last."""
        self.assertEqual(self.link.data.split(b"\r\n")[-2 * len(calls)::2], [*calls])

    async def test_calls_that_the_redis_had_no_time_for_go_out_again(self) -> None:
        self.calls.submit([b"1 SIZE", b"1 PEEK"], self.replies.append)
        self.calls.submit([b"2 TAKE"], self.replies.append)
        await self.let_go_out()
        self.link.sent.pop()(b"SIZE 0\n")
        self.assertEqual(self.replies, [])
        self.calls.withhold(b"2 ")
        await self.let_go_out()
        self.assert_sent(b"2 WAIT", b"1 PEEK")
        self.link.sent.pop()(b"LATER - 5 5\n\0NONE\n")
        self.assertEqual(self.replies, [[b"LATER - 5 5\n"], [b"SIZE 0\n", b"NONE\n"]])

    async def test_the_rest_of_a_session_that_has_ended_is_refused(self) -> None:
        self.calls.submit([b"1 DONE 1", b"1 DONE 2", b"1 DONE 3"], self.replies.append)
        await self.let_go_out()
        self.link.sent.pop()(b"DONE 1\n")
        await self.let_go_out()
        self.link.sent.pop()(ErrorAnswer("LEASE the lease of this gateway is over"))
        self.assertEqual(self.replies, [[b"DONE 1\n", b"ERR 5 not-held\n", b"ERR 5 not-held\n"]])

    async def test_what_a_lost_link_did_not_answer_is_in_doubt(self) -> None:
        await self.submit(2)
        self.link.sent[0](b"OFFERED 0 5\n")
        self.calls.use(None)
        self.assertEqual(self.replies, [[b"OFFERED 0 5\n"], None])

    async def test_behind_a_command_goes_the_next_once_it_has_as_many_calls(self) -> None:
        self.calls.submit([b"1 SIZE"] * 3, self.replies.append)
        await self.let_go_out()
        await self.submit(2, b"2 SIZE")
        self.assert_sent(*[b"1 SIZE"] * 3)
        await self.submit(1, b"3 SIZE")
        self.assert_sent(b"2 SIZE", b"2 SIZE", b"3 SIZE")
        await self.submit(1, b"4 SIZE")
        first, second = self.link.sent
        first(b"\0".join([b"SIZE 0\n"] * 3))
        await self.let_go_out()
        self.assertEqual(len(self.link.sent), 2)
        second(b"\0".join([b"SIZE 0\n"] * 3))
        await self.let_go_out()
        self.assert_sent(b"4 SIZE")

    async def test_a_reply_waits_for_each_replica_that_the_redis_has_when_it_is_given(self) -> None:
        """Also for one that came while others were waited for."""
        wanted = iter((2, 2, 3))
        self.calls.replicas, self.calls.saw_role = 1, lambda role: setattr(self.calls, "replicas", next(wanted))
        await self.submit(1)
        self.answer(b"OFFERED 0 5\n", 1, [])
        self.assertEqual(self.replies, [])
        self.answer(2, [])
        self.assertEqual(self.replies, [[b"OFFERED 0 5\n"]])
        await self.submit(1)
        self.answer(b"OFFERED 1 5\n", 2, [])
        self.assertEqual(self.replies, [[b"OFFERED 0 5\n"]])

    def answer(self, *answers: Answer) -> None:
        """All that was sent is answered."""
        sent, self.link.sent = self.link.sent, []
        for take, answer in zip(sent, answers, strict=True):
            take(answer)
