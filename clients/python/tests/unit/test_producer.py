"""A producer whose servers go away, are full, or have no memory."""
import functools
import threading
import time
from contextlib import closing
from unittest.mock import patch

from from_threads import for_both_kinds
from scripted import PATIENCE, ScriptedTest, fork, free_port, in_threads, status_of
from rb_broker_client import (
    FullError, InDoubtError, NotOfferedError, Offered, OutOfMemoryError, Pauses, Producer, RefusedError,
)
from rb_broker_client.servers import Servers

OFFER, FIRST, SECOND = "OFFER 5 a", "OFFER 5 a > OFFERED 0 5", "OFFER 5 a > OFFERED 1 5"


def offer(producer, payload="a"):
    return producer.offer(payload, delay=5e-9)


class ProducerCase(ScriptedTest):
    """A producer of one scripted server."""

    kind = Producer

    def produce(self, *sessions, **options):
        """A producer of these sessions, each of which begins with the greeting."""
        self.server = self.play(*[it if it[:4] == "AT 0" else f"AT 0; {it}" for it in sessions])
        return self.produce_at(self.server.port, **options)

    def produce_at(self, address, patience=PATIENCE, pauses=Pauses(first=0.01, longest=0.02), **options):
        return self.enterContext(closing(self.kind(address, patience=patience, pauses=pauses, **options)))

    def assert_session_ends(self):
        self.assertTrue(self.server.ended.acquire(timeout=PATIENCE))


@for_both_kinds
class ProducerTest(ProducerCase):
    def test_offers_go_through_one_session_until_it_is_lost(self):
        producer = self.produce(f"{FIRST}; OFFER 5 b > OFFERED 1 9; > hangs up", "OFFER 5 a > OFFERED 2 10")
        self.assertEqual((offer(producer), offer(producer, "b")), (Offered(0, 5), Offered(1, 9)))
        self.assert_session_ends()
        self.assertEqual(offer(producer), Offered(2, 10))

    def test_a_reply_that_is_not_heard_leaves_a_doubt_and_the_next_offer_connects_again(self):
        producer = self.produce(f"{OFFER} > hangs up", "OFFER 5 b > OFFERED 0 5")
        self.assertRaisesRegex(InDoubtError, OFFER, offer, producer)
        self.assert_session_ends()
        self.assertEqual(offer(producer, "b"), Offered(0, 5))

    def test_patience_has_an_end(self):
        for fault, refusal in ((FullError, "ERR 6 full"), (OutOfMemoryError, "ERR 7 memory")):
            producer = self.produce(f"{OFFER} > {refusal}", patience=0.4, pauses=Pauses(first=1.0))
            self.assertRaises(fault, offer, producer)
        with self.kind(free_port(), patience=0.2) as producer:
            self.assertRaises(NotOfferedError, offer, producer)

    def test_patience_is_that_of_all_that_an_offer_waits_for(self):
        began = time.monotonic()
        producer = self.produce(f"AT 0 > late 0.7: ERR 1 syntax; {OFFER} > nothing", patience=1.0)
        self.assertRaisesRegex(InDoubtError, r"no reply came within 0\.[23] seconds$", offer, producer)
        self.assertLess(time.monotonic() - began, 1.3)

    def test_after_its_end_a_producer_offers_nothing(self):
        for sessions in ((), (FIRST,)):
            producer = self.produce(*sessions)
            self.assertEqual([offer(producer) for _ in sessions], [Offered(0, 5)] * len(sessions))
            producer.close()
            self.assertRaisesRegex(RuntimeError, "^the producer is closed$", offer, producer)

    def test_offers_that_are_tried_again(self):
        for why, *sessions in (
            ("a full run is left for the next", f"{OFFER} > ERR 6 full", FIRST),
            ("want of memory, in the same session", f"{OFFER} > ERR 7 memory; {OFFER} > ERR 7 memory; {FIRST}"),
            ("a server that goes away before it serves", "AT 0 > hangs up", FIRST),
        ):
            with self.subTest(why):
                with self.produce(*sessions) as producer:
                    self.assertEqual(offer(producer), Offered(0, 5))
                self.assert_played(self.server)

    def test_one_that_may_double_offers_again_and_a_doubt_stays(self):
        lost = f"{OFFER} > hangs up"
        producer = self.produce(lost, "OFFER 5 a > OFFERED 7 5", may_double=True)
        self.assertEqual(offer(producer), Offered(7, 5))
        producer = self.produce(lost, f"{OFFER} > ERR 6 full", may_double=True, patience=3)
        self.assertRaises(InDoubtError, offer, producer)

    def test_refusals_are_the_callers_and_what_a_server_would_refuse_is_not_sent(self):
        producer = self.produce(f"{OFFER} > ERR 3 range; {FIRST}; {SECOND}")
        self.assertRaisesRegex(RefusedError, "^ERR 3 range$", offer, producer)
        self.assertEqual(offer(producer), Offered(0, 5))
        for wrong in ("a" * 65, "two words", ""):
            self.assertRaises(ValueError, offer, producer, wrong)
        self.assertRaises(TypeError, producer.offer, None)
        self.assertEqual(offer(producer), Offered(1, 5))


class SessionTest(ProducerCase):
    """A session goes on until it is lost or the producer closed. That takes no thread. A forked process has its own."""

    def test_it_goes_on_between_two_offers(self):
        producer, threads = self.produce(f"{FIRST}; {SECOND}"), threading.active_count()
        self.assertEqual(offer(producer), Offered(0, 5))
        self.assertFalse(self.server.ended.acquire(timeout=0.5))
        self.assertLessEqual(threading.active_count(), threads)  # those of other tests end meanwhile
        self.assertEqual(offer(producer), Offered(1, 5))

    def test_a_forked_process_has_a_session_of_its_own(self):
        producer = self.produce(f"{FIRST}; {SECOND}")
        self.assertEqual(offer(producer), Offered(0, 5))
        self.offer_in_fork(producer)
        self.assertEqual(offer(producer), Offered(1, 5))

    def offer_in_fork(self, producer):
        """Another process, which is forked, offers by this producer at another server, and closes it."""
        port = self.play(f"AT 0; {OFFER} > OFFERED 7 5").port  # a scripted server serves one at a time

        def offer_there():
            producer._servers = Servers(port)
            with producer:
                return offer(producer).id

        self.assertEqual(status_of(fork(offer_there)), 7)

    def test_a_process_that_is_forked_while_another_thread_offers(self):
        meet = threading.Barrier(2, timeout=PATIENCE).wait  # when it is asked, and again when it may answer
        self.meets_twice = lambda _: (meet(), meet())
        for steps in (f"AT 0 > meets_twice: ERR 1 syntax; {FIRST}", f"{OFFER} > meets_twice: OFFERED 0 5"):
            producer = self.produce(steps)
            in_threads(lambda: self.assertEqual(offer(producer), Offered(0, 5)),
                       lambda: (meet(), self.offer_in_fork(producer), meet()))


@for_both_kinds
class ThreadsTest(ProducerCase):
    """Threads, or tasks, that share a producer."""

    def test_their_offers_go_out_together_and_each_is_handed_its_reply(self):
        told, seen = {}, {it: threading.Event() for it in "abcd"}
        self.sees = lambda _, payload: seen[payload].set()

        def offer_behind(payload, other):
            self.assertTrue(other is None or seen[other].wait(PATIENCE))
            told[payload] = offer(producer, payload).id

        sent = "; ".join(f"OFFER 5 {it} > sees {it}: nothing" for it in "abc")
        replies = ", ".join(f"OFFERED {id} 5" for id in range(4))
        producer = self.produce(f"{sent}; OFFER 5 d > {replies}; {OFFER} > OFFERED 4 5")
        in_threads(*[functools.partial(offer_behind, *it) for it in zip("abcd", (None, *"abc"))])
        self.assertEqual((told, offer(producer)), ({"a": 0, "b": 1, "c": 2, "d": 3}, Offered(4, 5)))

    def test_many_offers_at_the_same_time(self):
        count, told = 40, []
        producer = self.produce("; ".join(f"{OFFER} > OFFERED {id} 5" for id in range(count)))
        in_threads(*[lambda: [told.append(offer(producer).id) for _ in range(count // 4)]] * 4)
        self.assertEqual(sorted(told), list(range(count)))

    def offer_beside(self, steps, fault, text, behind=""):
        """An offer, another that has less patience and fails while the first waits; and what is offered behind it."""
        is_asked, is_over, told = threading.Event(), threading.Event(), []
        self.goes_on = lambda _: is_asked.set() or is_over.wait(PATIENCE)

        def offer_meanwhile():
            self.assertTrue(is_asked.wait(PATIENCE))
            with patch.object(getattr(producer, "thing", producer), "_patience", 0.2):
                self.assertRaisesRegex(fault, text, offer, producer, "b")
            told.append("given up")
            is_over.set()
            told.extend(offer(producer, it) for it in behind)

        producer = self.produce(*steps)
        in_threads(lambda: told.append(offer(producer)), offer_meanwhile)
        self.assertEqual(told, ["given up", Offered(0, 5), *[Offered(2, 5)] * len(behind)])
        return producer

    def test_one_that_waits_for_another_too_long_has_not_offered(self):
        self.offer_beside([f"AT 0 > goes_on: ERR 1 syntax; {FIRST}"], NotOfferedError,
                          r"^OFFER 5 b was not offered: another offer has been looking for the server at "
                          r"127.0.0.1:\d+ for 0\.\d seconds$")

    def test_a_reply_that_one_does_not_wait_for_is_not_anothers(self):
        producer = self.offer_beside([f"{OFFER} > goes_on: nothing; OFFER 5 b > OFFERED 0 5; > hangs up",
                                      "OFFER 5 c > OFFERED 2 5"], InDoubtError,
                                     r"^OFFER 5 b was accepted or not: no reply came within 0\.\d seconds$")
        self.assertEqual(offer(producer, "c"), Offered(2, 5))

    def test_beside_one_that_has_given_up_another_goes_on_reading(self):
        steps = (f"{OFFER} > goes_on: nothing; OFFER 5 b > nothing; OFFER 5 c > late 0.2: OFFERED 0 5; "
                 "> late 0.2: OFFERED 1 5, OFFERED 2 5")
        self.offer_beside([steps], InDoubtError, "^OFFER 5 b was accepted or not: ", behind="c")

    def test_all_that_wait_are_in_doubt_once_the_session_is_lost(self):
        told = f"^{OFFER} was accepted or not: "
        producer = self.produce("; ".join([f"{OFFER} > nothing"] * 3 + [f"{OFFER} > hangs up"]), SECOND)
        in_threads(*[lambda: self.assertRaisesRegex(InDoubtError, told, offer, producer)] * 4)
        self.assertEqual(offer(producer), Offered(1, 5))
