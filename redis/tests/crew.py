"""The clients of a hostile day: producers and workers in processes of their own, of three kinds."""
from __future__ import annotations

import shutil
import subprocess
import sys
from pathlib import Path

from accounts import RECORD
from nodes import Process

FOLDER = Path(__file__).resolve().parent
JAVA = FOLDER.parents[1] / "clients" / "java"
JAVA_WORKERS = [JAVA / f"tests/rbbroker/client/{it}.java" for it in ("HostileWorker", "ParallelWorker")]


def compiled_java(room: Path) -> Path | None:
    """The classes of the workers in Java, if there is a compiler."""
    if shutil.which("javac") is None:
        return None
    sources = [str(it) for it in (JAVA / "src" / "rbbroker").rglob("*.java")]
    subprocess.run(["javac", "-d", str(room), *sources, *map(str, JAVA_WORKERS)], check=True, timeout=300)
    return room


class Worker(Process):
    """A worker, which notes what becomes of its jobs."""

    def __init__(self, words: list[str], notes: Path) -> None:
        super().__init__(words, notes.with_suffix(".log"))
        self.notes = notes
        notes.touch()
        self.start()

    @property
    def has_worked(self) -> bool:
        return self.notes.stat().st_size > 0

    def count_of_done(self) -> int:
        """How many jobs are done, by a record."""
        return self.notes.read_text().count('"reply": ["DONE ')

    def stop(self) -> None:
        """Ends it in good order."""
        self.give("")
        self.end()


class Crew:
    """Starts workers of all kinds, in turn, each with a file of its own in a folder."""

    def __init__(self, room: Path, ports: list[int], java: Path | None) -> None:
        self.room, self._ports, self._java = room, ports, java
        room.mkdir(exist_ok=True)
        self.started: list[Worker] = []
        self.records: list[Path] = []

    def start_worker(self, kind: str) -> Worker:
        """A worker of this kind: `plain`, `package` or `java`."""
        number = len(self.started)
        notes, port = self.room / f"{kind}-{number}{RECORD}", str(self._ports[number % len(self._ports)])
        if kind == "java":
            notes = notes.with_suffix(".notes")
            words = ["java", "-cp", str(self._java), "rbbroker.client.HostileWorker", port, str(notes)]
        else:
            self.records.append(notes)
            words = self.plain("worker", notes, notes) if kind == "plain" else [
                sys.executable, "-B", "-m", "rb_broker_client", "worker", "hostile_client:handle", "--port", port,
                "--concurrency", "4", "--record", str(notes)]
        self.started.append(Worker(words, notes))
        return self.started[-1]

    @property
    def kinds(self) -> list[str]:
        return ["plain", "package", *(["java"] if self._java else [])]

    def plain(self, kind: str, record: Path, notes: Path) -> list[str]:
        """The words of a hostile_client.py."""
        return [sys.executable, "-B", str(FOLDER / "hostile_client.py"), kind, str(record), str(notes),
                *map(str, self._ports)]


class Producer(Process):
    """Offers payloads, each once, by a process that is started again after a kill."""

    def __init__(self, crew: Crew, name: str, payloads: list[str]) -> None:
        self._notes, self._payloads = crew.room / f"{name}.notes", payloads
        self._notes.touch()
        record = crew.room / f"{name}{RECORD}"
        crew.records.append(record)
        super().__init__(crew.plain("producer", record, self._notes), crew.room / f"{name}.log")
        self.start()

    def start(self) -> None:
        """Offers those of which it was not noted that they were offered, or were to be."""
        seen = self._noted("offer")
        super().start()
        self.give("".join(f"{it}\n" for it in self._payloads if it not in seen))

    def offered(self) -> set[str]:
        """The payloads whose offers were answered."""
        return self._noted("offered")

    def _noted(self, what: str) -> set[str]:
        words = (line.split(" ") for line in self._notes.read_text().splitlines())
        return {it[1] for it in words if it[0] == what}
