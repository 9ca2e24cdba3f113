"""Runs whose calls are used up: jobs in hand come back, and what is lost all the same is said until somebody
acknowledges it."""
import contextlib
import shutil
import signal
import subprocess
import sys
import threading
import time
import unittest
from pathlib import Path

from common.program import TOP
from servicing.looking import Looks
from servicing.session import OwnSession, Told
from servicing.http import asked
from servicing.state import Queue
from servicing.tests.process import Client, ServiceTest, until
from servicing.tests.support import connection, record
from serving import PATIENCE

HELD = 50


class FullTest(ServiceTest):
    def test_a_client_that_only_asks_fills_no_run(self) -> None:
        """It makes calls that change nothing the server tells of. The run ends early enough that the jobs which another
        one holds come back."""
        for batch, calls in ((1, 50_000), (20, 1_000_000)):
            options = ("--calls", str(calls), "--every", "1h", "--stop-within", "2s", "--delay", "0s")
            with self.subTest(batch=batch), self.serving(*options, folder=self.path(f"by-{batch}")) as service:
                self.offer(HELD)
                with Client(self.port) as holder:
                    self.take(holder.greeted())
                    is_over = threading.Event()
                    storm = threading.Thread(target=self.storm, args=(is_over, batch), daemon=True)
                    storm.start()
                    service.wait("serving", 2, patience=5 * PATIENCE)
                    is_over.set()
                    storm.join()
                self.assertEqual(service.all("ending")[0]["why"], "calls")
                self.assertNotIn("lost_jobs", service.all("saved")[0])
                self.has_left(HELD)

    def take(self, holder: Client) -> None:
        for _ in range(HELD):
            self.assertRegex(holder.ask("TAKE"), "^ITEM ")

    def storm(self, is_over: threading.Event, batch: int) -> None:
        while not is_over.is_set():
            with contextlib.suppress(OSError, EOFError), Client(self.port) as it:
                it.greeted()
                while not is_over.is_set():
                    it.send(*["POLLFOR 0"] * batch)
                    for _ in range(batch):
                        it.line()
            time.sleep(0.02)

    def test_what_is_lost_all_the_same(self) -> None:
        """The calls are used up between two looks. The alert and the count outlive the service, and the alert lasts
        until somebody acknowledges it."""
        with self.serving("--calls", "60", "--stop-within", "1s") as service:
            with Client(self.port) as it:
                it.greeted().send(*[f"OFFER 0 job-{number}" for number in range(30)], *["TAKE"] * 30)
                service.wait("serving", 2)
            told = service.wait("lost-jobs")
            jobs = int(told["jobs"])
            self.assertEqual((told["level"], told["run"], jobs >= 20), ("error", "1", True))
            self.assertEqual(self.alert(), (f"rb_broker_lost_jobs_total{{port=\"{self.port}\"}} {jobs}", True))
        with self.serving() as service:
            self.assertEqual(self.alert(), (f"rb_broker_lost_jobs_total{{port=\"{self.port}\"}} {jobs}", True))
            page = asked(self.path("runs/status"), "GET /")[1].decode()
            words = ["tools/service", "--acknowledge", "--folder", self.path("runs")]
            self.assertIn(f"are lost; {' '.join(words)} ends", page)
            self.assertEqual(subprocess.run([sys.executable, "-B", *words], cwd=TOP, check=False).returncode, 0)
            until(lambda: not self.alert()[1], "the alert is over")
        with self.serving():
            self.assertEqual(self.alert(), (f"rb_broker_lost_jobs_total{{port=\"{self.port}\"}} {jobs}", False))

    def test_the_next_service_says_what_is_lost(self) -> None:
        """The one before was killed once it had saved the history, and before it wrote down how the run ended."""
        service = self.begin("--calls", "60")
        service.process.send_signal(signal.SIGSTOP)
        with Client(self.port) as it:
            it.greeted().send(*[f"OFFER 0 job-{number}" for number in range(30)], *["TAKE"] * 30)
            held = sum(it.line().startswith("ITEM ") for _ in range(60))
            service.kill()
            it.rest()
        until(lambda: not service.servers, "the server ends")
        (history,) = Path(self.path("memory/rb_broker")).glob("*-1-history")
        shutil.copy(history, self.path("runs/run-1.txt"))
        with self.serving() as service:
            self.assertEqual(service.all("resume")[0]["how"], "continue")
            self.assertEqual(service.all("lost-jobs")[0]["jobs"], f"{held}")
            self.assertEqual(self.alert(), (f"rb_broker_lost_jobs_total{{port=\"{self.port}\"}} {held}", True))

    def alert(self) -> tuple[str, bool]:
        """The count of lost jobs, and whether there is the alert."""
        text = asked(self.path("runs/status"), "GET /metrics")[1].decode()
        count = next(it for it in text.splitlines() if it.startswith("rb_broker_lost_jobs_total"))
        return count, 'name="lost-jobs"' in text


class CallsTest(unittest.TestCase):
    """How many calls can be used, by what the system tells of each client."""

    def looks(self, calls: int = 100_000) -> Looks:
        looks = Looks(OwnSession(1), record(calls=calls, moment=10**15, next_id=1000), 4)
        looks._seen_at = time.monotonic() - 1
        return looks

    def test_calls_of_which_the_server_does_not_tell(self) -> None:
        """Of those of which it does there are replies, which are no room for others; and none is counted twice."""
        looks = self.looks()
        looks.see([connection(1, calls=2000, replied=2000 * 5)])
        self.assertEqual(looks.calls, 2000)
        looks.see([connection(2, calls=500, replied=500 * 5)])
        self.assertEqual(looks.calls, 2500, "a client that has left made its calls")
        reply = len(f"OFFERED 1000 {10**15}.")
        looks.see([connection(3, calls=9000, replied=1000 * reply)])  # an offer's bytes could be 9 other calls
        self.assertEqual(looks.calls, 2500 + 1000 * reply // 5)
        looks.hear(Told(Queue(0, 1000, 0), 2000, 10**15))
        self.assertEqual(looks.calls, 1000 + 2500)

    def test_the_next_look(self) -> None:
        """Half of what is left is not used up before it."""
        looks = self.looks()
        looks.see([connection(1), connection(2)])
        self.assertEqual(looks.due(1, 0.05), 1)
        looks._seen_at -= 1
        looks.see([connection(1, calls=60_000, replied=300_000), connection(2, calls=300, replied=1500)])
        self.assertAlmostEqual(looks.due(1, 0.05), 39_700 / 2 / 60_300, 1)
