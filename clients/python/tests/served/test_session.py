"""Each request, over sessions with a server, of both kinds of broker. docs/PROTOCOL.md says what is expected."""
from datetime import timedelta

from from_threads import for_both_kinds, settle
from rb_broker_client import Broker, Dead, FullError, Job, NotHeldError, RefusedError, Request, StoppedError
from rb_broker_formats.protocol import GREATEST_NUMBER
from server import PATIENCE, ServedTest


@for_both_kinds
class SessionTest(ServedTest):
    kind = Broker

    def connect(self, *options):
        """A session with a server of these options."""
        self.server = self.serve(*options)
        return self.kind(self.server.port, patience=PATIENCE)

    def test_the_day_of_a_job(self):
        with self.connect("--sessions", 2, "--workers", 1, "--attempts", 2, "--delay", 50_000_000) as client:
            client.await_service()
            offered = client.offer("letter", delay=0.05)
            first = Job(0, offered.expires_at_ns, 1, "letter")
            self.assertEqual([client.poll(), client.take()], [None, first])
            again = client.fail(0)
            self.assertGreaterEqual(again.expires_at_ns, offered.expires_at_ns + 50_000_000)
            second = Job(again.id, again.expires_at_ns, 2, "letter")
            self.assertEqual([again.id, client.take(), client.fail(1)], [1, second, Dead(1)])
            for method in (client.done, client.fail):
                self.assertRaises(NotHeldError, method, 1)
            self.assertEqual({client.offer("left").id, client.offer("right").id}, {2, 3})
            drained = client.drain(10)
            self.assertEqual({(it.id, it.attempt, it.payload) for it in drained}, {(2, 1, "left"), (3, 1, "right")})
            self.assertEqual(client.drain(10), [])
        # It hung up with two jobs. They failed in the order in which they were drained.
        with self.kind(self.server.port, patience=PATIENCE) as other:
            taken = [other.take(), other.take()]
            self.assertEqual([(it.id, it.attempt, it.payload) for it in taken],
                             [(4 + place, 2, it.payload) for place, it in enumerate(drained)])
            for it in taken:
                settle(other, it.done)
            self.assertEqual(other.size(), 0)
            other.quit()
        # Offered: three, and three next attempts. Given: each of these. Besides an empty poll and drain, and a size.
        audit = '{"calls":14,"cleared":0,"given":6,"left":0,"offered":6,"opening":0,"removed":0}'
        self.assertEqual(self.server.end(), (0, ["sessions 2 faults 0 lost 0", audit], ""))

    def test_what_stands_in_the_queue(self):
        with self.connect("--sessions", 1) as client:
            self.assertEqual([client.peek(), client.poll(), client.poll_for(0)], [None] * 3)
            self.assertEqual(client.offer_at("late", expires_at_ns=GREATEST_NUMBER).expires_at_ns, GREATEST_NUMBER)
            self.assertEqual(client.peek(), Job(0, GREATEST_NUMBER, 1, "late"))
            self.assertIsNone(client.poll_for(1e-6))  # call 6
            self.assertEqual(client.offer_at("early", expires_at_ns=0).expires_at_ns, 0)
            early = Job(1, 0, 1, "early")
            self.assertEqual([client.peek(), client.size(), client.poll_for(1)], [early, 2, early])
            self.assertEqual([client.remove(1), client.remove(0)], [False, True])  # call 12
            client.offer("cleared", delay=1)
            client.clear()
            self.assertEqual([client.size() for _ in range(3)], [0, 0, 0])
            client.quit()  # which fails the job that is held: its next attempt is call 18
        audit = '{"calls":18,"cleared":1,"given":1,"left":1,"offered":4,"opening":0,"removed":1}'
        self.assertEqual(self.server.end(), (0, ["sessions 1 faults 0 lost 0", audit], ""))

    def test_refusals(self):
        lines = {"AT 5": "ERR 1 syntax", "OFFER 0 two words": "ERR 1 syntax", "OFFER 0 ": "ERR 1 syntax",
                 "OFFER -1 a": "ERR 2 number", f"OFFER 0 {'a' * 65}": "ERR 4 payload", "OFFER 0 \xe9": "ERR 4 payload",
                 f"OFFER 0 {'a' * 257}": "ERR 8 line"}
        with self.connect() as client:
            refused = client.ask_all([Request(it.encode(), Request.size().read) for it in lines])
            self.assertEqual([(type(it), str(it)) for it in refused], [(RefusedError, it) for it in lines.values()])
            longest = timedelta(microseconds=GREATEST_NUMBER // 1_000)
            for text, ask in (("ERR 2 number", lambda: client.offer_at("a", expires_at_ns=-1)),
                              ("ERR 2 number", lambda: client.done(GREATEST_NUMBER + 1)),
                              ("ERR 3 range", lambda: client.offer("a", delay=longest))):
                self.assertRaisesRegex(RefusedError, f"^{text}$", ask)
            self.assertRaises(NotHeldError, client.fail, 0)
            self.assertEqual(client.size(), 0)

    def test_a_full_run_and_no_turn(self):
        with self.connect("--calls", 3, "--turns", 0) as client:
            self.assertRaises(StoppedError, client.take)
            self.assertRaises(StoppedError, client.poll_for, 60)
            self.assertIsNone(client.poll_for(0))
            client.offer_at("a", expires_at_ns=0)
            answers = client.ask_all([Request.done(0), Request.take(), Request.size(), Request.done(0)])
            self.assertEqual([Job if isinstance(it, Job) else type(it) for it in answers],
                             [NotHeldError, Job, FullError, type(None)])
            self.assertRaises(FullError, client.size)

    def test_a_server_that_is_killed(self):
        """The id of a job that was held names another one in the next run, which is left alone."""
        with self.connect() as client:
            client.offer("before")
            job = client.take()
            self.server.kill()
            with self.kind(self.serve(port=self.server.port).port, patience=PATIENCE) as other:
                other.offer("stranger")
                self.assertEqual(other.take().id, job.id)
                for method, of_job in ((client.done, job.done), (client.fail, job.fail)):
                    self.assertRaises(NotHeldError, settle, client, of_job)
                    self.assertRaises(OSError, method, job.id)
                other.done(job.id)
