"""A session, with a queue and a client that only the test moves."""
from __future__ import annotations

import asyncio
import unittest

from rb_broker_redis.protocol import MOST_HELD, SECOND, ErrorReply
from rb_broker_redis.session import MOST_AT_ONCE, MOST_WAITING_LINES, SECONDS_BETWEEN_ENDS, Session
from rb_broker_redis.turns import Answered
from rb_broker_redis.waits import Waits

LATER = b"LATER - 100 100\n"


class FakeCalls:
    """Calls that the test answers."""

    def __init__(self) -> None:
        self.is_connected = True
        self.submitted: list[tuple[list[bytes], Answered]] = []
        self.withheld: list[bytes] = []

    def submit(self, calls: list[bytes], answered: Answered, sessions: int = 1) -> None:
        self.submitted.append((calls, answered))

    def withhold(self, front: bytes) -> None:
        self.withheld.append(front)

    def take(self) -> list[bytes]:
        """What was submitted first, which is then to be answered."""
        calls, self.answered = self.submitted.pop(0)
        return calls


class FakeTransport:
    """A client's connection."""

    def __init__(self) -> None:
        self.sent, self.is_closed, self.is_reading = b"", False, True

    def write(self, data: bytes) -> None:
        self.sent += data

    def close(self) -> None:
        self.is_closed = True

    def pause_reading(self) -> None:
        self.is_reading = False

    def resume_reading(self) -> None:
        self.is_reading = True

    def get_extra_info(self, name: str) -> FakeTransport | None:
        return self if name == "socket" else None

    def setsockopt(self, *_: int) -> None:
        """It is its own socket."""


class FakeGateway:
    """A gateway of one session, whose seat is 7."""

    def __init__(self) -> None:
        self.calls = FakeCalls()
        self.waits = Waits([self.calls], 3600 * SECOND)
        self.is_joined = True
        self.lost: int | None = None

    def begin(self, session: Session) -> None:
        if self.is_joined:
            session.sit(b"7 ")

    def end(self, session: Session, lost: int) -> None:
        self.lost = lost


class SessionTest(unittest.IsolatedAsyncioTestCase):
    async def asyncSetUp(self) -> None:
        self.gateway = FakeGateway()
        self.session, self.transport = self.connected()

    def connected(self) -> tuple[Session, FakeTransport]:
        """A session, with the connection of its client."""
        session, transport = Session(self.gateway), FakeTransport()
        session.connection_made(transport)
        return session, transport

    def assert_calls(self, *calls: bytes) -> None:
        """These are the calls that were submitted next."""
        self.assertEqual(self.gateway.calls.take(), list(calls))

    def answer(self, *replies: bytes, sends: bytes = b"") -> None:
        """The calls are answered, and the client is sent this."""
        self.gateway.calls.answered(list(replies))
        self.assert_sent(sends)

    def assert_sent(self, text: bytes) -> None:
        self.assertEqual(self.transport.sent, text)
        self.transport.sent = b""

    def assert_idle(self) -> None:
        self.assertEqual(self.gateway.calls.submitted, [])

    def assert_exchange(self, calls: dict[bytes, bytes], sends: bytes | None = None) -> None:
        """These calls are made, and once they are answered the client is sent their replies, or this."""
        self.assert_calls(*calls)
        self.answer(*calls.values(), sends=b"".join(calls.values()) if sends is None else sends)

    def assert_ends(self) -> None:
        """What it holds fails, and only then the connection is closed."""
        self.assertFalse(self.transport.is_closed)
        self.assert_calls(b"7 END")
        self.answer(b"ENDED 2\n")
        self.assertTrue(self.transport.is_closed)
        self.assertEqual(self.gateway.lost, 2)

    def let_wait(self, *lines: bytes) -> None:
        """Its client sends a TAKE, which waits, and further lines."""
        self.session.data_received(b"".join(it + b"\n" for it in (b"TAKE", *lines)))
        self.assert_exchange({b"7 take": LATER}, b"")

    async def test_a_line_is_called_and_its_reply_is_sent(self) -> None:
        self.session.data_received(b"OFFER 5 a\nSI")
        self.assert_exchange({b"7 OFFER 5 a": b"OFFERED 0 5\n"})
        self.session.data_received(b"ZE\r\n")
        self.assert_calls(b"7 SIZE")

    async def test_lines_go_out_together_and_refusals_keep_their_places(self) -> None:
        self.session.data_received(b"x\nSIZE\nAT 5\nAT 05\nPEEK\nOFFER 1 \x80\n" + b"y" * 257 + b"\n")
        self.assert_exchange(
            {b"7 SIZE": b"SIZE 0\n", b"7 PEEK": b"NONE\n"},
            b"ERR 1 syntax\nSIZE 0\nERR 1 syntax\nERR 2 number\nNONE\nERR 4 payload\nERR 8 line\n")

    async def test_refusals_alone_need_no_queue(self) -> None:
        self.session.data_received(b"\n" * 20_000)
        self.assert_idle()
        self.assert_sent(b"")  # each turn of the loop answers some of them
        while len(self.transport.sent) < 20_000 * len(b"ERR 1 syntax\n"):
            await asyncio.sleep(0)
        self.assert_idle()
        self.assert_sent(b"ERR 1 syntax\n" * 20_000)

    async def test_lines_that_come_meanwhile_wait_for_the_replies(self) -> None:
        self.session.data_received(b"SIZE\n")
        self.assert_calls(b"7 SIZE")
        self.session.data_received(b"PEEK\nx\n")
        self.assert_idle()
        self.answer(b"SIZE 0\n", sends=b"SIZE 0\n")
        self.assert_exchange({b"7 PEEK": b"NONE\n"}, b"NONE\nERR 1 syntax\n")

    async def test_no_more_than_so_many_lines_go_out_at_once(self) -> None:
        self.session.data_received(b"SIZE\n" * (MOST_AT_ONCE + 1))
        self.assert_calls(*[b"7 SIZE"] * MOST_AT_ONCE)
        self.answer(*[b"SIZE 0\n"] * MOST_AT_ONCE, sends=b"SIZE 0\n" * MOST_AT_ONCE)
        self.assert_calls(b"7 SIZE")

    async def test_a_client_that_is_far_ahead_is_not_read_from(self) -> None:
        self.session.data_received(b"TAKE\n")
        self.session.data_received(b"x\n" * (MOST_WAITING_LINES + 1))
        self.assertFalse(self.transport.is_reading)
        self.assert_exchange({b"7 take": b"ITEM 0 5 1 a\n"})
        for _ in range(MOST_WAITING_LINES // MOST_AT_ONCE + 1):
            await asyncio.sleep(0)
        self.assertTrue(self.transport.is_reading)

    async def test_a_client_that_does_not_read_is_served_no_further(self) -> None:
        self.session.pause_writing()
        self.session.data_received(b"SIZE\n")
        self.assert_idle()
        self.assertFalse(self.transport.is_reading)
        self.session.resume_writing()
        self.assert_exchange({b"7 SIZE": b"SIZE 0\n"})
        self.assertTrue(self.transport.is_reading)

    async def test_earlier_replies_are_sent_before_a_wait(self) -> None:
        self.session.data_received(b"SIZE\nx\nTAKE\nDONE 5\n")
        self.assert_exchange({b"7 SIZE": b"SIZE 0\n", b"7 TAKE": LATER}, b"SIZE 0\nERR 1 syntax\n")
        self.assert_idle()
        self.gateway.waits.heard(b"50 60")
        self.assert_exchange({b"7 TAKE": b"ITEM 0 50 1 a\n"})
        self.assert_calls(b"7 DONE 5")

    async def test_a_timed_poll_is_tried_again_from_where_it_began(self) -> None:
        self.session.data_received(b"POLLFOR 5000000000\n")
        self.assert_exchange({b"7 pollfor 5000000000": b"LATER 200 110 100\n"}, b"")
        self.gateway.waits.heard(b"110 110")
        self.assert_calls(b"7 POLLFOR 5000000000 100")

    async def test_a_take_behind_others_fetches_nothing(self) -> None:
        self.let_wait()
        other, _ = self.connected()
        other.data_received(b"TAKE\n")
        self.assert_calls(b"7 wait")
        self.answer(LATER)
        other.data_received(b"POLL\n")
        self.assert_idle()  # it waits

    async def test_a_poll_that_does_not_wait_is_tried_at_once(self) -> None:
        self.let_wait()
        other, _ = self.connected()
        other.data_received(b"POLLFOR 0\n")
        self.assert_calls(b"7 pollfor 0")

    async def test_what_a_session_holds_is_counted_where_it_may_be_too_much(self) -> None:
        self.session.data_received(b"DRAIN 64\n")
        items = b"".join(b"ITEM %d 5 1 a\n" % it for it in range(MOST_HELD))
        self.assert_exchange({b"7 DRAIN 64": b"DRAINED 64\n" + items})
        self.session.data_received(b"TAKE\n")
        self.assert_exchange({b"7 TAKE": ErrorReply.HELD})
        self.session.data_received(b"DONE 0\nTAKE\n")
        self.assert_exchange({b"7 DONE 0": b"DONE 0\n", b"7 TAKE": b"ITEM 64 5 1 a\n"})
        self.session.data_received(b"DONE 1\n")
        self.assert_exchange({b"7 DONE 1": b"DONE 1\n"})
        self.session.data_received(b"TAKE\n")
        self.assert_calls(b"7 take")

    async def test_quit_ends_the_session_and_drops_what_follows(self) -> None:
        self.session.data_received(b"SIZE\nQUIT\nSIZE\n")
        self.assert_calls(b"7 SIZE")
        self.session.data_received(b"PEEK\n")
        self.answer(b"SIZE 0\n", sends=b"SIZE 0\nBYE\n")
        self.assert_ends()

    async def test_a_session_without_calls_has_nothing_to_end(self) -> None:
        self.session.data_received(b"QUIT\n")
        self.assert_idle()
        self.assert_sent(b"BYE\n")
        self.assertEqual((self.transport.is_closed, self.gateway.lost), (True, 0))

    async def test_what_was_sent_before_the_end_of_input_is_carried_out(self) -> None:
        self.session.data_received(b"SIZE\nPEEK\nSI")
        self.session.eof_received()
        self.assert_exchange({b"7 SIZE": b"SIZE 0\n", b"7 PEEK": b"NONE\n"}, b"SIZE 0\nNONE\nERR 8 line\n")
        self.assert_ends()

    async def test_the_end_of_input_gives_a_wait_up(self) -> None:
        self.let_wait(b"SIZE")
        self.session.eof_received()
        self.assert_sent(b"STOPPED\n")
        self.assert_exchange({b"7 SIZE": b"SIZE 0\n"})
        self.assert_ends()

    async def test_nothing_is_fetched_for_a_client_that_has_left(self) -> None:
        self.let_wait(b"SIZE")
        self.session.connection_lost(None)
        self.gateway.waits.heard(b"50 60")
        self.assert_ends()

    async def test_the_last_try_of_a_timed_poll_is_withheld_from_a_client_that_has_left(self) -> None:
        self.session.data_received(b"POLLFOR 1000\n")
        self.assert_exchange({b"7 pollfor 1000": b"LATER - 100 100\n"}, b"")
        while not self.gateway.calls.submitted:
            await asyncio.sleep(0)
        self.session.connection_lost(None)
        self.assertEqual(self.gateway.calls.withheld, [b"7 "])
        self.assert_exchange({b"7 POLLFOR 1000 100": b"LATER 110 110 100\n"}, b"")
        self.assert_ends()

    async def test_a_fetch_that_crosses_a_break_comes_back(self) -> None:
        self.session.data_received(b"TAKE\n")
        self.assert_calls(b"7 take")
        self.session.connection_lost(None)
        self.assertEqual(self.gateway.calls.withheld, [b"7 "])
        self.assert_idle()
        self.answer(b"ITEM 0 50 1 a\n", sends=b"")
        self.assert_ends()

    async def test_lines_wait_for_a_seat(self) -> None:
        self.gateway.is_joined = False
        session, leaving = self.connected()[0], self.connected()[0]
        for it in (session, leaving):
            it.data_received(b"SIZE\nPEEK\n")
        leaving.connection_lost(None)
        session.eof_received()
        self.assert_idle()
        self.assertEqual(self.gateway.lost, 0)
        session.sit(b"8 ")
        self.assert_calls(b"8 SIZE", b"8 PEEK")

    async def test_a_session_that_is_closed_fetches_nothing_more(self) -> None:
        self.session.data_received(b"TAKE\n")
        self.session.close()
        self.assertEqual(self.gateway.calls.withheld, [b"7 "])
        self.assertTrue(self.transport.is_closed)

    def assert_in_doubt(self) -> None:
        """What is under way is in doubt: it has no reply, and the session ends."""
        self.gateway.calls.answered(None)
        self.assert_sent(b"")
        self.assertTrue(self.transport.is_closed)
        self.assert_calls(b"7 END")

    async def test_what_is_in_doubt_has_no_reply(self) -> None:
        self.session.data_received(b"SIZE\nPEEK\n")
        self.gateway.calls.take()
        self.assert_in_doubt()
        self.gateway.calls.answered(None)
        await asyncio.sleep(2 * SECONDS_BETWEEN_ENDS)
        self.assert_calls(b"7 END")  # until it is certain
        self.answer(b"ENDED 0\n")
        self.assertEqual(self.gateway.lost, 0)

    async def test_a_wait_that_is_in_doubt_has_no_reply(self) -> None:
        self.let_wait()
        self.gateway.waits.heard(b"50 60")
        self.gateway.calls.take()
        self.assert_in_doubt()

    async def test_a_stop_answers_what_is_under_way(self) -> None:
        self.session.data_received(b"SIZE\n")
        self.gateway.calls.take()
        self.session.data_received(b"PEEK\n")
        self.session.stop()
        self.assert_idle()
        self.answer(b"SIZE 0\n", sends=b"SIZE 0\n")
        self.assert_ends()

    async def test_a_stop_gives_waits_up(self) -> None:
        self.let_wait(b"SIZE")
        self.session.stop()
        self.assert_sent(b"STOPPED\n")
        self.assert_ends()

    async def test_a_session_that_retires_ends_once_it_holds_nothing(self) -> None:
        self.session.data_received(b"DRAIN 5\n")
        self.assert_exchange({b"7 DRAIN 5": b"DRAINED 2\nITEM 0 5 1 a\nITEM 1 5 1 b\n"})
        self.gateway.waits.longest = 0
        self.session.retire()
        self.assert_idle()
        self.session.data_received(b"SIZE\nDONE 0\nTAKE\n")
        self.assert_exchange({b"7 SIZE": b"SIZE 0\n", b"7 DONE 0": b"DONE 0\n"})
        while not self.transport.sent:
            await asyncio.sleep(0)
        self.assert_sent(b"STOPPED\n")
        self.assert_idle()
        self.session.data_received(b"FAIL 1\nSIZE\n")
        self.assert_exchange({b"7 FAIL 1": b"AGAIN 2 5\n", b"7 SIZE": b"SIZE 1\n"})
        self.assert_ends()
