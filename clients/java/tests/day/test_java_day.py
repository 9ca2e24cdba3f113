"""The hostile day of the Python package with workers and a producer of the Java package, in processes of their own.

All clients go through a proxy, whose record is compared with the histories. The classes are compiled for the day alone,
so that nothing else takes them away.
"""
import functools
import subprocess
import tempfile
from collections import defaultdict
from pathlib import Path

import test_hostile_day
from recording_proxy import RecordingProxy
from server import PATIENCE
from serving.server import started

TOLD = {"took": "ITEM", "done": "DONE", "failed": "AGAIN", "back": "ERR", "gone": "ERR", "doubt": "nothing"}
SAVING = ("-Xmx64m", "-XX:TieredStopAtLevel=1", "-XX:+UseSerialGC")
CLIENT = Path(__file__).resolve().parents[2]


@functools.cache
def classes():
    """The folder of the package's classes and of those that this day starts, until this process ends."""
    room = tempfile.TemporaryDirectory(prefix="rb-day-")
    sources = [*CLIENT.glob("src/rbbroker/**/*.java"), *CLIENT.glob("tests/rbbroker/client/Hostile*.java")]
    subprocess.run(["javac", "-d", room.name, *sources], check=True)
    return room


def start_java(name, *words):
    """Starts a class of the package's tests."""
    words = ["java", *SAVING, "-cp", classes().name, f"rbbroker.client.{name}", *map(str, words)]
    return started(words, stderr=None, stdin=subprocess.PIPE)


class JavaWorker(test_hostile_day.WorkerProcess):
    """A HostileWorker, with notes of its own, which begin with a job that it has taken."""

    handler = "work"
    may_end = True  # it ends with its standard input, whether it has taken a job or not

    def __init__(self, port, notes):
        self.record = notes
        open(notes, "ab").close()
        self._process = start_java("HostileWorker", port, notes)

    def stop(self):
        """Ends it in good order. Returns its status."""
        self._process.communicate(timeout=PATIENCE)
        return self._process.returncode


class JavaDayTest(test_hostile_day.HostileDayTest):
    handlers, held = [JavaWorker.handler] * 3, 2
    verifying = ["--all"]

    def setUp(self):
        super().setUp()
        classes()
        self.notes, self.proxy = [], None

    @property
    def port(self):
        return self.proxy.port

    def serve_next(self, calls):
        super().serve_next(calls)
        if self.proxy is None:
            self.proxy = RecordingProxy(self.server.port, self.record("proxy"))
            self.addCleanup(self.proxy.server_close)
            self.addCleanup(self.proxy.shutdown)

    def start_worker(self, _):
        self.notes.append(f"{self.room}/notes-{len(self.notes)}")
        return JavaWorker(self.port, self.notes[-1])

    def produce(self):
        with start_java("HostileProducer", self.port, test_hostile_day.JOBS) as producer:
            for what, number in (it.split(" ") for it in producer.stdout):
                {"offered": self.offered, "doubted": self.doubted}[what].append(int(number))
        self.assertEqual(producer.returncode, 0)

    def producers(self):
        return [self.produce]

    def told(self):
        return noted_in(self.notes), noted_in(self.killed)


class JavaRolloverDayTest(test_hostile_day.AtService, JavaDayTest):
    pass


def noted_in(paths):
    """What workers noted, in the words of a record."""
    told = defaultdict(list)
    for path in paths:
        with open(path, encoding="ascii") as notes:
            for what, payload, attempt in (it.split(" ") for it in notes):
                told[payload, int(attempt)].append(TOLD[what])
    return told
