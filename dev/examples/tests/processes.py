"""The worker in Perl as a process."""
import os
import signal
import subprocess
import time
from pathlib import Path
from unittest import mock

from common.program import TOP
from serving.server import Ended, started

PATIENCE = 180  # seconds after which something has failed, on a machine that does much else
WORKER = f"{TOP}/examples/worker.pl"


class Worker:
    """The worker at a port, with the command that it runs for each job. It does not outlive the tests."""

    def __init__(self, port: int, *command: str, patience: int = PATIENCE, session: str = "") -> None:
        settings = {"WORKER_PATIENCE": str(patience), **({"WORKER_SESSION": session} if session else {})}
        with mock.patch.dict(os.environ, settings):
            self.process = started(["perl", WORKER, str(port), *command])

    def line(self) -> str:
        """Its next line."""
        assert self.process.stdout
        return self.process.stdout.readline().rstrip("\n")

    def lines(self, count: int) -> list[str]:
        """Its next lines."""
        return [self.line() for _ in range(count)]

    def begun(self) -> None:
        """Waits until it minds a signal, by the mask in /proc, or has ended."""
        status, end = Path(f"/proc/{self.process.pid}/status"), time.monotonic() + PATIENCE
        while self.process.poll() is None and time.monotonic() < end:
            caught = int(status.read_text().partition("SigCgt:")[2].split()[0], 16)
            if caught >> (signal.SIGTERM - 1) & 1:
                return
            time.sleep(0.01)

    def stop(self) -> Ended:
        """Asks it to stop, by a signal, and waits until it has."""
        self.begun()
        self.process.send_signal(signal.SIGTERM)
        return self.end()

    def end(self) -> Ended:
        """Waits until it has ended: its exit status, the lines that were not read before, and standard error."""
        try:
            said, errors = self.process.communicate(timeout=PATIENCE)
        except subprocess.TimeoutExpired:
            self.process.kill()
            said, errors = self.process.communicate()
        return Ended(self.process.returncode, said.splitlines(), errors)
