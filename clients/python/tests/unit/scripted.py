"""Servers that play scripts, for what the real one does rarely or at no stated moment; and workers of such servers."""
import logging
import multiprocessing
import os
import re
import socket
import tempfile
import threading
import time
import unittest
from concurrent.futures import ThreadPoolExecutor
from pathlib import Path

from rb_broker_client import Pauses, Report, Worker

PATIENCE = 10  # seconds after which a client that does not go on is given up

SAID = {"AT 0": "ERR 1 syntax", "QUIT": "BYE"}  # replies that go without saying; that to `DONE 7` is the same line
SHORT = {"WAIT": "POLLFOR 1000000000", "BRIEF": "POLLFOR 200000000"}  # a worker's waits
GIVES_A, GIVES_B = "WAIT > ITEM 0 0 1 a", "WAIT > ITEM 1 0 1 b"
A, LAST = f"{GIVES_A}; DONE 0", "WAIT > stops: NONE; QUIT"  # a job that is done, and the end of a worker
Awaitable = type("Awaitable", (), {"__await__": iter})  # which nobody has awaited


class ScriptedServer:
    """Serves its sessions one after the other at a free port, and then listens no more.

    A session is a list of steps: the request line that has to come, or an empty one where nothing is waited for; and
    the reply, which is a text or bytes, or a function that gives it. Such a function is called with one that waits
    until the next request has come. After the last step the client has to leave, and to send nothing before. `ended`
    is released once for each session.
    """

    def __init__(self, sessions):
        self._listener = socket.create_server(("127.0.0.1", 0))
        self._listener.settimeout(PATIENCE)
        self.port = self._listener.getsockname()[1]
        self.faults = []
        self.ended = threading.Semaphore(0)
        self.thread = threading.Thread(target=self._serve_all, args=[sessions], daemon=True)
        self.thread.start()

    def _serve_all(self, sessions):
        with self._listener:
            for number, steps in enumerate(sessions):
                try:
                    self._serve(steps, self._listener.accept()[0])
                except OSError as fault:
                    self.faults.append(f"session {number}: {fault}")
                self.ended.release()

    def _serve(self, steps, connection):
        connection.settimeout(PATIENCE)
        with connection, connection.makefile("rb") as lines:
            for request, reply in steps:
                line = lines.readline().decode() if request else ""
                if request and line != f"{request}\n":
                    self.faults.append(f"{line!r} came in the place of {request!r}")
                    return
                reply = reply(lambda: lines.peek(1)) if callable(reply) else reply
                if reply == "hangs up":
                    return
                if reply != "nothing":
                    connection.sendall(reply if isinstance(reply, bytes) else f"{reply}\n".encode())
            if rest := lines.read():
                self.faults.append(f"{rest!r} came after the last step")


class ScriptedTest(unittest.TestCase):
    """A test whose servers play scripts. At its end each script has to be played to its last step.

    A session may be a text, such as `WAIT > ITEM 0 0 1 a; DONE 0; WAIT > stop: NONE; QUIT; > hangs up`. Commas separate
    the lines of a reply. A word before a colon is a method of the test, which is called before the reply is sent, with
    what waits until the next request has come and the words behind it.
    """

    def setUp(self):
        self.path = Path(self.enterContext(tempfile.TemporaryDirectory()), "file.jsonl")
        super().setUp()

    def play(self, *sessions):
        """A server that plays these sessions."""
        server = ScriptedServer([*map(self.steps, sessions)])
        self.addCleanup(self.assert_played, server)
        return server

    def steps(self, session):
        """The steps of a session that is a text, or a list of steps and of texts."""
        texts = session.split("; ") if isinstance(session, str) else session
        return [self.step(it) if isinstance(it, str) else it for it in texts if it]

    def step(self, text):
        request, reply = re.fullmatch("([^>]*?)(?: ?> (.*))?", text).groups()
        request = SHORT.get(request, request)
        *calls, reply = (reply or SAID.get(request, request)).split(": ")
        reply = reply.replace(", ", "\n")

        def answer(more):
            for method, *words in map(str.split, calls):
                getattr(self, method)(more, *words)
            return reply

        return request, answer if calls else reply

    def late(self, _, seconds):
        """The reply comes so many seconds later."""
        time.sleep(float(seconds))

    def assert_played(self, server):
        server.thread.join(2 * PATIENCE)  # which ends with the last session
        self.assertEqual((server.faults, server.thread.is_alive()), ([], False))

    def logged(self, level=logging.ERROR):
        """Meanwhile one text at least is logged of this level. `output` has each, as `LEVEL:NAME:MESSAGE`."""
        return self.assertLogs("rb_broker_client", level)


class WorkerCase(ScriptedTest):
    """A worker of one scripted server. The payload `b` fails, and `stop` stops the worker."""

    kind = Worker

    def work(self, *sessions, handler=None, **options):
        """Makes a worker for these sessions, each of which begins with the greeting."""
        self.server = self.play(*[it if it[:4] == "AT 0" else f"AT 0; {it}" for it in sessions])
        return self.make(handler or self.handle, self.server.port, **options)

    def make(self, handler, port, pause=0.01, **options):
        """Makes a worker, which is stopped in the end whatever comes."""
        self.handled = []
        self.worker = self.kind(handler, port, **{"pauses": Pauses(first=pause, longest=2 * pause), **options})
        self.stop_later(PATIENCE)
        return self.worker

    def stop_later(self, seconds):
        timer = threading.Timer(seconds, self.worker.stop)
        timer.start()
        self.addCleanup(timer.cancel)

    def assert_reports(self, report, *sessions, **options):
        """A worker of these sessions makes this report, and plays each to its end."""
        self.assertEqual(self.work(*sessions, **options).run(), report)
        self.assert_played(self.server)

    def assert_scripts(self, name, **options):
        """The workers of this table, with these options too, make the reports that it says."""
        for why, own, report, sessions in paragraphs(name):
            with self.subTest(why):
                sessions = [it.removeprefix("- ") for it in sessions]
                self.assert_reports(Report(**report), *sessions, **options, **own)

    def handle(self, job):
        self.handled.append(job)
        if job.payload == "stop":
            self.worker.stop()
        if job.payload == "b":
            raise ValueError("the payload is b")

    def stops(self, _):
        """Before the reply the worker is asked to stop."""
        self.worker.stop()


class Jobs:
    """A handler whose jobs end when they are told to. The payload `b` fails."""

    def __init__(self):
        self._may_end = {it: threading.Event() for it in "abcdef"}
        self._has_begun = {it: threading.Event() for it in "abcdef"}
        self._lock = threading.Lock()
        self.running = self.most = 0

    def __call__(self, job):
        with self._lock:
            self.running += 1
            self.most = max(self.most, self.running)
        self._has_begun[job.payload].set()
        is_told = self._may_end[job.payload].wait(PATIENCE)
        with self._lock:
            self.running -= 1
        if job.payload == "b" or not is_told:
            raise ValueError(job.payload)

    def end(self, payload):
        self._may_end[payload].set()

    def end_once_begun(self, payload, other):
        self._has_begun[other].wait(PATIENCE)
        self.end(payload)


class ConcurrencyCase(WorkerCase):
    """A worker that runs several jobs at the same time."""

    def work(self, *sessions, handler=None, concurrency=2, **options):
        self.jobs = Jobs()
        return super().work(*sessions, handler=handler or self.jobs, concurrency=concurrency, **options)

    def assert_reports(self, report, *sessions, most=None, **options):
        """If `most` is given, so many jobs ran at the same time."""
        super().assert_reports(report, *sessions, **options)
        self.assertIn(most, (None, self.jobs.most))

    def ends(self, more, payload):
        """This job ends, which is told behind the wait."""
        self.jobs.end(payload)
        more()

    def beside(self, _, other, payload):
        """Another job begins by the reply, whereupon this one ends."""
        threading.Thread(target=self.jobs.end_once_begun, args=(payload, other), daemon=True).start()


def table(name):
    """The text of a table of rows or cases, behind what is said about it."""
    return Path(__file__).with_name(name).read_text("ascii").partition("\n\n")[2]


def values(words):
    """Numbers by name, of `done=1 again=2`."""
    pairs = [it.split("=") for it in words.split()]
    return {name: float(it) if "." in it else int(it) for name, it in pairs}


def paragraphs(name):
    """The cases of a text table: the name of each, its options, the report behind `=>`, and its lines."""
    for it in table(name).split("\n\n"):
        title, *lines = it.strip().splitlines()
        name, options, report = re.fullmatch(r"(.*?)(?: \[(.*)\])?(?: => (.*))?", title).groups("")
        yield name, values(options), values(report), lines


def in_threads(*functions):
    """Runs these functions at the same time, to their ends. None may raise anything."""
    with ThreadPoolExecutor(len(functions)) as threads:
        for it in [threads.submit(it) for it in functions]:
            it.result(PATIENCE)


def wait_for(is_so, seconds=PATIENCE):
    """Waits until something holds, but not for ever. Gives whether it does."""
    deadline = time.monotonic() + seconds
    while not (holds := is_so()) and time.monotonic() < deadline:
        time.sleep(0.01)
    return holds


def fork(function):
    """Calls this in a forked process, whose exit status is what it gives. Gives the process."""
    child = multiprocessing.get_context("fork").Process(target=lambda: os._exit(function()))
    child.start()
    return child


def status_of(child):
    """The exit status of a process, once it has ended, which is killed if it does not end."""
    child.join(PATIENCE)
    child.kill()
    return child.exitcode


def free_port():
    """A port at which nobody listens."""
    with socket.create_server(("127.0.0.1", 0)) as it:
        return it.getsockname()[1]
