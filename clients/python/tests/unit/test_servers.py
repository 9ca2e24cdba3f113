"""Clients of several addresses: the next is used at once, jobs are told where they came from, no doubt is repeated."""
import logging
import socket
import threading
import time
import unittest
from unittest.mock import Mock, patch

from from_threads import for_both_kinds
from scripted import A, LAST, PATIENCE, ConcurrencyCase, Jobs, ScriptedTest, WorkerCase, free_port
from test_command import run
from test_producer import ProducerCase, offer
from rb_broker_client import Broker, InDoubtError, NotOfferedError, Offered, Pauses, Producer, Report, Worker
from rb_broker_client.servers import read_addresses
from rb_broker_client.tasks import Tasks

LONG = Pauses(first=PATIENCE * 6, longest=PATIENCE * 6)  # no test has the time for such a pause


def at(*ports):
    """The addresses of these ports."""
    return ",".join(f"127.0.0.1:{it}" for it in ports)


class AddressesTest(unittest.TestCase):
    def test_what_is_read(self):
        self.assertEqual([it[:2] for it in read_addresses("a:1")], [("a", 1)])
        self.assertEqual([tuple(it) for it in read_addresses("b.example:65535,[::1]:7,10.0.0.1:7")], [
            ("b.example", 65535, "b.example:65535"), ("::1", 7, "[::1]:7"), ("10.0.0.1", 7, "10.0.0.1:7")])

    def test_what_is_wrong_is_named(self):
        for text, part in {
            "a:1,b": "'b'", "a:1,": "''", ",": "''", "a:1, b:1": "' b:1'", "a:0": "'a:0'", "a:65536": "'a:65536'",
            "a:x,b:1": "'a:x'", ":1": "':1'", "::1:7": "'::1:7'", "[]:7": r"'\[\]:7'",
            "a:\N{ARABIC-INDIC DIGIT ONE}": "'a:",
        }.items():
            with self.subTest(text=text):
                self.assertRaisesRegex(ValueError, f"^{part}.* is no address, such as ", read_addresses, text)
        self.assertRaisesRegex(ValueError, "^the address a:01 stands twice$", read_addresses, "a:1,b:1,a:01")

    def test_every_client_refuses_it(self):
        for make in (Broker, Producer, lambda *words: Worker(print, *words), lambda *words: Tasks(":memory:", *words)):
            self.assertRaisesRegex(ValueError, "^'b' is no address", make, "a:1,b")
            self.assertRaisesRegex(ValueError, "^the addresses a:1,b:1 name their hosts, so c ", make, "a:1,b:1", "c")


@for_both_kinds
class WorkerTest(WorkerCase):
    def test_one_that_refuses_or_does_not_serve_or_serves_no_more_is_followed_by_the_next_without_a_pause(self):
        full = f"AT 0; {A}; WAIT > ERR 6 full; QUIT"
        for first in ([], ["> hangs up"], ["AT 0 > hangs up"], [f"AT 0; {A}; > hangs up"], [full]):
            with self.subTest(first=first):
                port = self.play(*first).port if first else free_port()
                worker = self.make(self.handle, at(port, self.play(f"AT 0; {A}; {LAST}").port), pauses=LONG)
                self.assertEqual(worker.run(), Report(done=1 + (A in first[0] if first else 0)))

    def test_it_comes_back_to_the_first_after_the_last(self):
        first, second = self.play(f"AT 0; {A}; > hangs up", f"AT 0; {A}; {LAST}"), self.play(f"AT 0; {A}; > hangs up")
        self.assertEqual(self.make(self.handle, at(first.port, second.port), pauses=LONG).run(), Report(done=3))

    def test_a_pause_follows_each_round_in_which_none_serves_and_no_other_try(self):
        tried = []

        def refuse(address, timeout):
            tried.append(address[1])
            raise ConnectionRefusedError

        worker = self.make(self.handle, at(1, 2, 3), pauses=Mock(**{"next.side_effect": self.two_pauses(tried)}))
        with patch.object(socket, "create_connection", refuse):
            worker.run()
        self.assertEqual(tried, [1, 2, 3, "pause", 1, 2, 3, "pause"])

    def test_servers_that_hang_up_are_no_endless_loop(self):
        servers = [self.play(*["AT 0; WAIT > hangs up"] * 2) for _ in range(2)]
        pauses = Mock(**{"next.side_effect": self.two_pauses([])})
        self.make(self.handle, at(*[it.port for it in servers]), pauses=pauses).run()
        self.assertEqual(pauses.next.call_count, 2)

    def two_pauses(self, told):
        """Short pauses, each of which is told. In the second the worker stops."""
        told.append("pause")
        yield 0.02
        told.append("pause")
        self.worker.stop()
        yield 0.02

    def test_a_log_names_the_one_that_it_is_about(self):
        away, server = free_port(), self.play(f"AT 0; {A}; {LAST}")
        with self.logged(logging.INFO) as said:
            self.make(self.handle, at(away, server.port), pauses=LONG).run()
        self.assertRegex("\n".join(said.output), f"(?s)no server at {at(away)}: .*served again at {at(server.port)}$")


@for_both_kinds
class EndingTest(ConcurrencyCase):
    """A gateway that is asked to end gives waits up, and lets jobs in hand be told."""

    def test_jobs_in_hand_are_told_there_while_the_next_one_gives_more(self):
        is_told = threading.Event()
        self.told = lambda _: is_told.set()
        self.end_a = lambda _: self.jobs.end("a") or is_told.wait(PATIENCE)
        self.end_c = lambda _: self.jobs.end("c")
        first = self.play("AT 0; WAIT > ITEM 0 0 1 a; BRIEF > ITEM 1 0 1 c; BRIEF > STOPPED; "
                          "DONE 0 > told: DONE 0; DONE 1; > hangs up")
        second = self.play("AT 0; BRIEF > end_a: ITEM 2 0 1 b; BRIEF > end_c: NONE; "
                           "BRIEF > ends b: NONE; FAIL 2 > stops: AGAIN 3 5; QUIT")
        self.jobs = Jobs()
        worker = self.make(self.jobs, at(first.port, second.port), concurrency=4, pauses=LONG)
        self.assertEqual(worker.run(), Report(done=2, again=1))


@for_both_kinds
class ProducerTest(ProducerCase):
    def test_an_offer_behind_the_end_of_a_session_goes_to_the_next(self):
        first = self.play("AT 0; OFFER 5 a > OFFERED 0 5; > hangs up")
        second = self.play("AT 0; OFFER 5 a > OFFERED 1 5")
        producer = self.produce_at(at(free_port(), first.port, second.port), pauses=LONG)
        self.assertEqual(offer(producer), Offered(0, 5))
        self.assertTrue(first.ended.acquire(timeout=PATIENCE))
        self.assertEqual(offer(producer), Offered(1, 5))

    def test_an_offer_in_doubt_is_not_repeated(self):
        first, second = self.play("AT 0; OFFER 5 a > hangs up"), self.play("AT 0; OFFER 5 b > OFFERED 1 5")
        producer = self.produce_at(at(first.port, second.port), pauses=LONG)
        self.assertRaises(InDoubtError, offer, producer)
        self.assertEqual(offer(producer, "b"), Offered(1, 5))

    def test_one_that_does_not_answer_leaves_the_next_its_time(self):
        silent, second = self.play("AT 0 > nothing"), self.play("AT 0; OFFER 5 a > OFFERED 1 5")
        producer, began = self.produce_at(at(silent.port, second.port), patience=2, pauses=LONG), time.monotonic()
        self.assertEqual(offer(producer), Offered(1, 5))
        self.assertGreater(time.monotonic() - began, 0.9)

    def test_none_is_there(self):
        producer = self.produce_at(at(free_port(), free_port()), patience=0.5, pauses=LONG)
        self.assertRaises(NotOfferedError, offer, producer)


class OthersTest(ScriptedTest):
    def test_a_session_is_at_the_first_that_accepts_it(self):
        with Broker(at(free_port(), self.play("SIZE > SIZE 3; QUIT").port)) as broker:
            self.assertEqual(broker.size(), 3)
            broker.quit()
        self.assertRaises(ConnectionRefusedError, Broker, at(free_port(), free_port()))

    def test_the_command(self):
        ports = at(free_port(), self.play("AT 0; SIZE > SIZE 3; QUIT").port)
        self.assertEqual(run("size", "--port", ports), (0, "SIZE 3\n", ""))
        status, said, errors = run("size", "--port", none := at(free_port(), free_port()))
        self.assertEqual((status, said), (1, ""))
        self.assertRegex(errors, f"^rb_broker_client: {none}: .*refused")
