"""Workers and producers that nobody stops, while servers end, are full or are killed, and are followed by the next."""
import logging

from history import History
from rb_broker_client import Broker, FullError, Pauses, Producer, Report, Request
from server import PATIENCE, Crew, ServedTest

POLICY = ("--delay", 1_000_000, "--attempts", 5)
JOBS, SERVERS = 1_500, 3
OFFERING = {"patience": 2 * PATIENCE, "pauses": Pauses(0.05, 0.2)}


def is_done(job):
    """Whether a handler returns: each fifth job fails in its first attempt."""
    return job.attempt > 1 or int(job.payload) % 5 != 0


class LeavingTest(ServedTest):
    def serve_run(self, port=None, calls=100_000, greets=True):
        """The next server, which continues the run of the one before. It greets unless it is told not to."""
        number = len(self.histories) + 1
        greeting = ["--greeting", f"RUN {number} lost 0 at {number}"] if greets else []
        return self.continue_run("--workers", 6, "--calls", calls, *POLICY, *greeting, port=port)

    def test_jobs_are_done_through_servers_in_a_row(self):
        server = self.serve_run()
        crew = Crew(self, server, 3, is_done)
        producing = self.begin(lambda: self.produce(server.port, JOBS, **OFFERING))  # which each of them has
        for number in range(1, SERVERS):
            self.wait_until(lambda: len(crew.done()) >= number * JOBS // (SERVERS + 1), 2 * PATIENCE)
            self.assert_drained(server, POLICY)
            server = self.serve_run(server.port)
        producing.join(PATIENCE)
        self.wait_until(lambda: len(crew.done()) >= JOBS, 2 * PATIENCE)
        self.assertEqual(crew.stop(), Report(done=JOBS, again=JOBS // 5))
        self.assert_drained(server, POLICY)
        self.assert_attempts(self.histories, crew.handled, {str(it): [1] if it % 5 else [1, 2] for it in range(JOBS)})

    def test_what_a_full_run_left_is_worked_off_in_the_next(self):
        first = self.serve_run(calls=JOBS)
        crew = Crew(self, first, 3, is_done)
        producing = self.begin(lambda: self.produce(first.port, JOBS, **OFFERING))
        with Broker(first.port, patience=PATIENCE) as broker:
            self.wait_until(lambda: isinstance(broker.ask_all([Request.size()])[0], FullError))
        told = self.assert_drained(first, POLICY, lost="[0-9]+")[0]
        following = self.serve_run(first.port)
        producing.join(2 * PATIENCE)
        self.wait_until(lambda: len(crew.done()) + sum(it.report.lost for it in crew.workers) >= JOBS)
        report = crew.stop()
        self.assertEqual((report.done, report.unheard), (JOBS - report.lost, 0))
        self.assertRegex(told, f" lost {report.lost}$")
        self.assert_drained(following, POLICY)
        # Each job was offered once, though the server was replaced; each element that was given was handled once; and
        # each job that was not lost was done once.
        history = History(*self.histories)
        first_attempts = sorted(it.payload for it in history.elements.values() if it.attempt == 1)
        self.assertEqual(first_attempts, sorted(map(str, range(JOBS))))
        self.assertEqual(sorted(it.id for it in crew.handled), sorted(history.given))
        self.assertEqual([len(crew.done()), len({*crew.done()})], [JOBS - report.lost] * 2)

    def test_a_run_that_was_lost_is_logged_and_one_that_goes_on_is_not(self):
        """A worker and a producer, idle as a server ends well and one is killed, go on. None greets, so ids show it."""
        server = self.serve_run(greets=False)
        crew = Crew(self, server, 1, is_done)
        with self.assertLogs("rb_broker_client", logging.ERROR) as said, \
                Producer(server.port, patience=PATIENCE) as producer:
            def offer(*numbers):
                for it in numbers:
                    producer.offer(str(it))
                self.wait_until(lambda: {str(it) for it in numbers} <= {*crew.done()})

            offer(*range(1, 30))
            self.assert_drained(server, POLICY)
            server = self.serve_run(server.port, greets=False)
            offer(*range(30, 60))
            self.assertEqual(said.records, [])
            server.kill()
            self.histories.pop()
            self.serve_run(server.port, greets=False)
            offer(*range(60, 90))
            crew.stop()
        names = [it.name for it in said.records]
        self.assertEqual(({*names}, names.count("rb_broker_client.producer")),
                         ({"rb_broker_client.producer", "rb_broker_client.worker"}, 1))
        self.assertTrue(all("has lost its run" in it.getMessage() for it in said.records))
