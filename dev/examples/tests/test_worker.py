"""The worker in Perl with servers."""
import json
import subprocess
import time
from pathlib import Path

from examples.tests.processes import WORKER, Worker
from serving.server import Ended, Server
from serving.session import Session
from serving.testing import ServingTest

FAILS_BAD = ("sh", "-c", 'case $1 in bad*) exit 1; esac', "sh")
TELLS = ("sh", "-c", "echo begun; sleep 1")
SILENT = 500_000_000  # nanoseconds


def ended(status: int, *lines: str, **counts: int) -> Ended:
    """The end of a worker with these lines before its counts, of which the others are 0, and no error."""
    told = ", ".join(f"{name} {counts.get(name, 0)}" for name in ("done", "again", "dead", "lost", "unheard"))
    return Ended(status, [*lines, told], "")


def say(server: Server, *requests: str) -> None:
    """A session of its own that sends these, and reads to the end."""
    with Session(server.port) as session:
        session.send(*requests, "QUIT")
        session.rest()


class WorkerTest(ServingTest):
    maxDiff = None

    def expect_end(self, server: Server, counts: str, given: int) -> None:
        """Expects how a server ends, with this count of sessions, and of what it gave."""
        status, (told, audit), _ = server.end()
        self.assertRegex(f"{status} {told}", f"^0 {counts}$")
        self.assertEqual(json.loads(audit)["given"], given)

    def expect_stop_within(self, server: Server) -> None:
        """Expects that a worker without a job stops soon."""
        worker = Worker(server.port, "true")
        worker.begun()
        time.sleep(1)  # in which it connects
        began = time.monotonic()
        self.assertEqual(worker.stop(), ended(0))
        self.assertLessEqual(time.monotonic() - began, 10)

    def test_jobs_end(self) -> None:
        server = self.serve("--sessions", 2, "--delay", 50_000_000)
        worker = Worker(server.port, *FAILS_BAD)
        say(server, "OFFER 0 one", "OFFER 1000000 bad", "OFFER 200000000 two")
        first, *others = worker.lines(5)
        self.assertEqual(first, "one, attempt 1: done")
        wanted = ["bad, attempt 1: again", "bad, attempt 2: again", "bad, attempt 3: dead"]
        self.assertEqual(sorted(others), [*wanted, "two, attempt 1: done"])
        self.assertEqual(worker.stop(), ended(0, done=2, again=2, dead=1))
        self.expect_end(server, "sessions 2 faults 0 lost 0", given=5)

    def test_it_stops(self) -> None:
        with_a_job, idle = self.serve("--sessions", 2), self.serve("--sessions", 1)
        behind_others = self.serve("--sessions", 2, "--workers", 1)
        say(with_a_job, "OFFER 0 job")
        worker = Worker(with_a_job.port, *TELLS)
        self.assertEqual(worker.line(), "begun")
        self.assertEqual(worker.stop(), ended(0, "job, attempt 1: done", done=1))
        self.expect_stop_within(idle)
        with Session(behind_others.port) as silent:
            silent.ask("SIZE")
            self.expect_stop_within(behind_others)
        self.assertEqual([worker.end().status for worker in (with_a_job, idle, behind_others)], [0, 0, 0])

    def test_it_ends_without_a_server_that_serves_it(self) -> None:
        unserved = "worker.pl: no server at port {port} has served it for 1 s\n"
        for payload, sessions, calls, end, errors in (
            ("job", 100, 2, "done", unserved),  # a full run
            ("bad", 2, 2, "lost", f"worker.pl: bad was lost: ERR 6 full\n{unserved}"),
            ("job", 2, 9, "unheard", unserved),  # the server is killed
        ):
            with self.subTest(end=end):
                server = self.serve("--sessions", sessions, "--calls", calls)
                say(server, f"OFFER 0 {payload}")
                worker = Worker(server.port, *(TELLS if end == "unheard" else FAILS_BAD), patience=1)
                if end == "unheard":
                    worker.line()
                    server.kill()
                told = ended(1, f"{payload}, attempt 1: {end}", **{end: 1})
                self.assertEqual(worker.end(), told._replace(errors=errors.format(port=server.port)))
                if end == "lost":
                    self.assertEqual(server.end().lines[0], "sessions 2 faults 0 lost 1")

    def test_it_goes_on_behind_a_session_that_the_server_ends(self) -> None:
        """The job outlasts its session. The server says first which run it serves, as that of a service does."""
        server = self.serve("--sessions", 3, "--delay", 0, "--silent", SILENT, "--greeting", "RUN 7 lost 0 at 5")
        say(server, "OFFER 0 job")
        command = 'echo begun; until [ -e "$0" ]; do sleep 0.1; done'  # until the session has ended
        worker = Worker(server.port, "sh", "-c", command, self.path("ended"))
        self.assertEqual(worker.line(), "begun")
        time.sleep(3 * SILENT / 1e9)
        Path(self.path("ended")).touch()
        self.assertEqual(worker.lines(3), ["job, attempt 1: unheard", "begun", "job, attempt 2: done"])
        self.assertEqual(worker.stop(), ended(0, done=1, unheard=1))
        self.expect_end(server, "sessions 3 faults [01] lost 0", given=2)

    def test_it_refuses_words(self) -> None:
        for words in ([], ["7011"], ["0", "true"], ["port", "true"]):
            with self.subTest(words=words):
                status = subprocess.run(["perl", WORKER, *words], capture_output=True, check=False).returncode
                self.assertEqual(status, 2)
