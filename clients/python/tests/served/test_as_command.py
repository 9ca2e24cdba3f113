"""The package as a command, with the built program; and its worker as a process that is killed, or sent signals."""
import signal
import time
from pathlib import Path

from history import History
from server import PATIENCE, ServedTest

HANDLERS = """
import time

def deliver(job):
    if job.payload == "slow":
        print("slow has begun")
        time.sleep(1)
    if job.payload == "bad":
        raise ValueError("it is bad")
    print(job.payload, job.attempt)

def keep(job):
    print("dead", job.payload, job.attempt)

async def deliver_async(job):
    deliver(job)

async def keep_async(job):
    keep(job)
"""


class CommandTest(ServedTest):
    def setUp(self):
        super().setUp()
        self.file("handlers.py", HANDLERS)

    def start(self, server, *words, handler="handlers:deliver"):
        return self.start_worker(server.port, handler, *words, folder=self.room)

    def test_jobs_from_their_offers_to_their_ends(self):
        for functions in (("handlers:deliver", "handlers:keep"), ("handlers:deliver_async", "handlers:keep_async")):
            server = self.serve("--sessions", 6, "--workers", 2, "--attempts", 2)
            self.assertEqual(self.assert_done(server, "peek"), "NONE\n")
            said = self.assert_done(server, "offer", "1ms", "letter")
            self.assertRegex(said, "^OFFERED 0 [0-9]+\n$")
            told = [self.assert_done(server, it) for it in ("peek", "size")]
            self.assertEqual(told, [f"HEAD 0 {said.split()[2]} 1 letter\n", "SIZE 1\n"])
            self.assert_done(server, "offer", "0s", "bad")
            worker = self.start(server, "--on-dead", functions[1], "--concurrency", "4", handler=functions[0])
            self.assertEqual({worker.stdout.readline() for _ in range(2)}, {"letter 1\n", "dead bad 2\n"})
            errors = self.assert_exits(worker, "done 1, again 1, dead 1, lost 0, unheard 0\n")
            self.assertIn("WARNING attempt 1 of job bad failed", errors)
            self.assert_ends(server, 6)

    def start_slow(self, sessions=2, *options):
        """A server, and a worker in the middle of a slow job."""
        server = self.serve("--sessions", sessions, *options)
        self.assert_done(server, "offer", "0s", "slow")
        worker = self.start(server)
        self.assertEqual(worker.stdout.readline(), "slow has begun\n")
        return server, worker

    def test_the_first_signal_finishes_the_job_in_hand(self):
        for number in (signal.SIGINT, signal.SIGTERM):
            server, worker = self.start_slow()
            self.assert_exits(worker, "slow 1\ndone 1, again 0, dead 0, lost 0, unheard 0\n", number)
            self.assert_ends(server, 2)

    def test_the_second_signal_ends_it_at_once(self):
        _, worker = self.start_slow()
        worker.send_signal(signal.SIGTERM)
        time.sleep(0.2)
        worker.send_signal(signal.SIGTERM)
        said, _ = worker.communicate(timeout=PATIENCE)
        self.assertEqual((worker.returncode, said), (-signal.SIGTERM, ""))

    def test_a_worker_that_is_killed_with_a_job(self):
        server, killed = self.start_slow(3, "--history", self.path("history"))
        killed.kill()
        worker = self.start(server)
        self.assertEqual([worker.stdout.readline() for _ in range(2)], ["slow has begun\n", "slow 2\n"])
        self.assert_exits(worker, "done 1, again 0, dead 0, lost 0, unheard 0\n")
        self.assert_ends(server, 3, self.path("history"))
        history = History(self.path("history"))
        self.assertEqual((history.attempts(), history.given), ({"slow": [1, 2]}, [0, 1]))

    def test_it_says_when_a_server_is_gone_and_when_it_is_served_again(self):
        server = self.serve("--sessions", 9)
        record = Path(self.file("record", ""))
        worker = self.start(server, "--record", str(record))
        self.assert_done(server, "offer", "0s", "first")
        self.assertEqual(worker.stdout.readline(), "first 1\n")
        self.wait_until(lambda: "DONE 0" in record.read_text())
        server.kill()
        time.sleep(1)  # it looks for the next one meanwhile
        following = self.serve("--sessions", 2, port=server.port)
        self.assert_done(following, "offer", "0s", "second")
        self.assertEqual(worker.stdout.readline(), "second 1\n")
        lost, again, run = self.assert_exits(worker, "done 2, again 0, dead 0, lost 0, unheard 0\n").splitlines()
        place = f"127.0.0.1:{server.port}"
        self.assertRegex(lost, f" WARNING the session at {place} was lost: ")
        self.assertRegex(again, f" INFO served again at {place}$")
        told = f" ERROR the server at {place} has lost its run: it gave a job of id 0 for the second time"
        self.assertIn(told, run)
