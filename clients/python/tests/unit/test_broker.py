"""A session with a scripted server: refusals, waits that are broken off, ends of the connection, and its record."""
import functools
import io
import json
import select
import socket
import threading
import time
from contextlib import closing
from unittest.mock import DEFAULT, Mock, patch

from from_threads import for_both_kinds, settle
from scripted import PATIENCE, ScriptedTest, fork, free_port, in_threads, status_of
from rb_broker_client import (
    Again, AsyncBroker, AsyncProducer, Broker, DisconnectedError, FullError, Job, NotHeldError, Offered, Producer,
    Request, StoppedError, UnknownReplyError, Worker,
)
from rb_broker_client.answers import EndedError

class BrokerCase(ScriptedTest):
    kind = Broker

    def connect(self, steps, **options):
        return self.enterContext(closing(self.kind(self.play(steps).port, **{"patience": PATIENCE, **options})))


@for_both_kinds
class BrokerTest(BrokerCase):
    def test_a_refusal_in_the_middle_of_many(self):
        broker = self.connect("SIZE > SIZE 3; SIZE > ERR 6 full; TAKE > STOPPED; TAKE > ITEM 0 5 1 a")
        size, full, stopped, job = broker.ask_all([Request.size(), Request.size(), Request.take(), Request.take()])
        self.assertEqual((size, type(full), type(stopped), job), (3, FullError, StoppedError, Job(0, 5, 1, "a")))
        self.assertEqual(broker.ask_all([]), [])

    def test_a_drain_whose_lines_come_late(self):
        broker = self.connect("DRAIN 2 > DRAINED 2, ITEM 0 0 1 a; SIZE > late 0.3: ITEM 1 0 1 b, SIZE 0")
        answers = broker.ask_all([Request.drain(2), Request.size()])
        self.assertEqual(answers, [[Job(0, 0, 1, "a"), Job(1, 0, 1, "b")], 0])

    def test_nothing_can_be_asked_while_a_reply_is_late(self):
        broker = self.connect("SIZE > late 0.3: SIZE 3", patience=0.05)
        self.assertRaises(TimeoutError, broker.size)
        self.assertRaises(RuntimeError, broker.size)
        self.assertRaises(RuntimeError, broker.ask_all, [Request.size()])

    def test_two_threads_at_a_time(self):
        told = "^another thread or task waits for a reply in this session, "
        self.asks = lambda _: self.assertRaisesRegex(RuntimeError, told, broker.size)
        broker = self.connect("SIZE > asks: SIZE 3")
        self.assertEqual(broker.size(), 3)

    def test_a_look_whether_it_is_lost_takes_nothing(self):
        broker = self.connect("SIZE > SIZE 3; > hangs up")
        broker.post(Request.size())
        select.select([broker.fileno()], [], [], PATIENCE)
        self.assertFalse(broker.is_lost() or broker.answers)
        broker.receive()
        self.assertEqual(broker.received(), [3])

    def test_ports_at_which_no_server_can_be(self):
        for kind in (Broker, AsyncBroker, Producer, AsyncProducer, functools.partial(Worker, print)):
            for fault, port in ((ValueError, 0), (ValueError, 70_000), (ValueError, -1), (TypeError, "7011")):
                self.assertRaisesRegex(fault, "^a port is ", kind, port)

    def test_a_server_that_hangs_up_or_cuts_a_line_off(self):
        for steps in (["SIZE > hangs up"], [("SIZE", b"SIZ"), "QUIT > hangs up"]):
            broker = self.connect(steps)
            self.assertRaises(DisconnectedError, broker.ask_all, [Request.size(), Request.quit()][:len(steps)])

    def test_after_an_unknown_reply_or_a_line_that_never_ends_the_session_is_closed(self):
        for reply in ("HELLO", "SIZE " + "1" * 1000, b"SIZE " + b"1" * 1000):
            broker = self.connect([("SIZE", reply)])
            self.assertRaises(UnknownReplyError, broker.size)
            self.assertRaises(OSError, broker.size)

    def test_service_is_awaited_by_a_request_that_is_no_call(self):
        broker = self.connect("AT 0; QUIT")
        broker.await_service()
        broker.quit()

    def test_a_job_is_told_of_by_itself(self):
        broker = self.connect("POLL > ITEM 0 5 1 a; DONE 0; TAKE > ITEM 1 5 1 b; FAIL 1 > AGAIN 3 9; "
                              "DRAIN 9 > DRAINED 1, ITEM 2 5 1 c; DONE 2; POLLFOR 0 > ITEM 4 5 1 d; DONE 4; "
                              "PEEK > HEAD 5 5 1 e; DONE 5 > ERR 5 not-held; POLL > ITEM 5 5 1 e")
        self.assertIsNone(settle(broker, broker.poll().done))
        self.assertEqual(settle(broker, broker.take().fail), Again(3, 9))
        self.assertIsNone(settle(broker, broker.drain(9)[0].done))
        self.assertIsNone(settle(broker, broker.ask_all([Request.poll_for(0)])[0].done))
        self.assertRaises(NotHeldError, settle, broker, broker.peek().done)
        job = broker.poll()
        self.assertEqual((job, repr(job)), (Job(5, 5, 1, "e"), repr(Job(5, 5, 1, "e"))))
        broker.close()
        for it in (job, Job(5, 5, 1, "e")):
            for of_job in (it.done, it.fail):
                self.assertRaises(NotHeldError, settle, broker, of_job)

    def test_what_came_before_an_end_is_read_though_nothing_can_be_sent(self):
        broker = self.connect("SIZE > SIZE 3; > hangs up")
        for _ in range(4):  # the second is answered by a reset, and so nothing more can be sent
            broker.post(Request.size())
            time.sleep(0.1)
        broker.receive()
        broker.receive()
        self.assertEqual(broker.received(), [3])
        self.assertRaises(EndedError, broker.received)

    def test_a_client_that_finds_itself_has_found_nobody(self):
        port = free_port()
        connect = functools.partial(socket.create_connection, source_address=("127.0.0.1", port))
        with patch("socket.create_connection", connect):
            self.assertRaises(ConnectionRefusedError, self.kind, port)

    def test_a_lost_connection_is_known_once_its_end_has_come(self):
        broker = self.connect("SIZE > SIZE 3")
        self.assertEqual(broker.size(), 3)
        self.assertFalse(broker.is_lost())
        broker.close()
        self.assertTrue(broker.is_lost())

    def test_a_piece_of_any_size_waits_for_nobody(self):
        """A server keeps no more of the requests than it answers."""
        greatest, count = 2**64 - 1, 80_000
        server = self.play([(f"OFFER 0 {'a' * 64}", f"OFFERED {greatest} {greatest}")] * count)
        for size in (socket.SO_RCVBUF, socket.SO_SNDBUF):  # small, so that the system keeps little of what is sent
            server._listener.setsockopt(socket.SOL_SOCKET, size, 32_768)
        with self.kind(server.port, patience=PATIENCE) as broker:
            answers = broker.ask_all([Request.offer("a" * 64)] * count)
        self.assertEqual(answers, [Offered(greatest, greatest)] * count)


@for_both_kinds
class RecordTest(BrokerCase):
    """Records of what clients asked and were answered."""

    def setUp(self):
        super().setUp()
        self.file = self.enterContext(open(self.path, "a", encoding="ascii"))

    def lines(self):
        """The lines of the record, which have the keys that they must have."""
        lines = [*map(json.loads, self.path.read_text("ascii").splitlines())]
        for it in lines:
            self.assertEqual([*it], ["session", "sent", "received", "request", "reply"])
        return lines

    def test_moments_lie_around_what_they_tell(self):
        moments = []
        self.notes = lambda *_: moments.append(time.monotonic_ns())
        broker = self.connect(["SIZE > notes: late 0.05: notes: SIZE 0"] * 2, record=self.file)
        for _ in range(2):
            self.notes()
            broker.size()
            self.notes()
            (began, asked, replied, ended), line = moments[-4:], self.lines()[-1]
            self.assertTrue(began <= line["sent"] <= asked < replied <= line["received"] <= ended, line)

    def test_requests_and_replies_as_they_came(self):
        broker = self.connect("OFFER 0 a > OFFERED 0 5; DRAIN 9 > DRAINED 2, ITEM 0 5 1 a, ITEM 1 6 1 b; "
                              "SIZE > ERR 6 full; QUIT", record=self.file)
        broker.ask_all([Request.offer("a"), Request.drain(9), Request.size()])
        broker.quit()
        for steps, count, fault in (
            ("SIZE > SIZE 3; TAKE > hangs up", 3, OSError),
            ([("SIZE", b"SIZE 3\n"), ("TAKE", b"ITEM 0 5 1 a\nITE"), "QUIT > hangs up"], 3, OSError),
            ([("SIZE", b"\xffHELLO\n")], 1, UnknownReplyError),
        ):
            broker = self.connect(steps, record=self.file)
            self.assertRaises(fault, broker.ask_all, [Request.size(), Request.take(), Request.quit()][:count])
            broker.close()
        lines = self.lines()
        self.assertEqual([(it["request"], it["reply"]) for it in lines], [
            ("OFFER 0 a", ["OFFERED 0 5"]), ("DRAIN 9", ["DRAINED 2", "ITEM 0 5 1 a", "ITEM 1 6 1 b"]),
            ("SIZE", ["ERR 6 full"]), ("QUIT", ["BYE"]), ("SIZE", ["SIZE 3"]), ("TAKE", []), ("QUIT", []),
            ("SIZE", ["SIZE 3"]), ("TAKE", ["ITEM 0 5 1 a"]), ("QUIT", []), ("SIZE", ["\\xffHELLO"])])
        self.assertEqual([place for place, it in enumerate(lines) if it["received"] is None], [5, 6, 9])
        names = [it["session"] for it in lines]
        self.assertEqual([[*dict.fromkeys(names)].index(it) for it in names], [0, 0, 0, 0, 1, 1, 1, 2, 2, 2, 3])

    def test_a_record_that_breaks_off_is_logged_and_the_session_goes_on(self):
        file = io.StringIO()
        broker = self.connect("SIZE > SIZE 3; SIZE > SIZE 4; SIZE > SIZE 5", record=file)
        self.assertEqual(broker.size(), 3)
        file.close()
        with self.logged() as said:
            self.assertEqual((broker.size(), broker.size()), (4, 5))
        (text,) = said.output
        self.assertIn("the record can't be written", text)

    def test_clients_of_several_threads_may_have_one_file(self):
        count = 200

        def ask(broker):
            for _ in range(count // 10):
                broker.ask_all([Request.size()] * 10)

        steps = "; ".join(["SIZE > SIZE 3"] * count)
        in_threads(*[functools.partial(ask, self.connect(steps, record=self.file)) for _ in range(4)])
        names = [it["session"] for it in self.lines()]
        self.assertEqual(sorted(names.count(it) for it in {*names}), [count] * 4)

    def test_a_process_that_is_forked_while_a_line_is_written(self):
        """It writes lines of its own, and not that one again."""
        record, is_written = Mock(wraps=self.file), threading.Event()
        record.flush.side_effect = lambda: is_written.set() or time.sleep(0.3) or DEFAULT
        port, broker = self.play("SIZE > SIZE 3").port, self.connect("SIZE > SIZE 4", record=record)
        other = lambda: status_of(fork(lambda: Broker(port, record=self.file).size()))
        in_threads(broker.size, lambda: self.assertEqual((is_written.wait(PATIENCE), other()), (True, 3)))
        self.assertEqual(sorted(it["reply"][0] for it in self.lines()), ["SIZE 3", "SIZE 4"])
