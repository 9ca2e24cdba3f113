"""A checkout of a small program, which ./broker builds with a stand-in for rt."""
import contextlib
import os
import shutil
import signal
import subprocess
import time
from pathlib import Path
from typing import Any, Sequence

from checking.testing import RoomTest
from common.program import TOP

PROCESSORS = sorted(os.sched_getaffinity(0))
PATIENCE = 60  # seconds after which a build has failed
# The stand-in's program answers with its words, input and a status of its own.
PROGRAM = 'echo "words $*" && cat && exit 7\n'
TABLE = """# name: what it stands on
rb_base:
rb_left: rb_base slab
rb_right: rb_base
rb_alone:
rb_tests: rb_left
rb_broker: rb_left rb_right rb_alone clap
"""
ONE, TWO, THREE = (["taskset", "-c", ",".join(map(str, PROCESSORS[:count]))] for count in (1, 2, 3))
LINES = {"rb_base": 10, "rb_left": 20, "rb_right": 30, "rb_alone": 5, "rb_tests": 1}


class CheckoutTest(RoomTest):
    """Tests with a checkout of a small program, and a stand-in for rt. None may leave anything behind."""

    def setUp(self) -> None:
        super().setUp()
        room = Path(self.room).resolve()
        self.top, self.stand_in = room / "a checkout", room / "stand-in"
        (self.top / ".git").mkdir(parents=True)
        (self.stand_in / "bin").mkdir(parents=True)
        shutil.copytree(f"{TOP}/dev/building", self.top / "dev/building")
        for name in ("broker", "dev/build", "dev/leaving.py"):
            shutil.copy(f"{TOP}/{name}", self.top / name)
        shutil.copy(f"{TOP}/dev/building/tests/stand_in_rt", self.stand_in / "bin/rt")
        self.write("crates.txt", TABLE)
        for crate, lines in LINES.items():
            self.write(f"crates/{crate}/src/lib.rt", "//\n" * lines)
        self.write("crates/rb_broker/src/main.rt", PROGRAM)
        path = f"{self.stand_in}/bin:{os.environ['PATH']}"
        self.environment = {**os.environ, "STAND_IN": str(self.stand_in), "PATH": path}
        self.addCleanup(self.kill)
        # Under nohup or in the background of a shell they are ignored, and builds that are started then do so too.
        handlers: dict[int, Any] = {signal.SIGHUP: signal.SIG_DFL, signal.SIGINT: signal.default_int_handler}
        for number, action in handlers.items():
            self.addCleanup(signal.signal, number, signal.signal(number, action))

    def tearDown(self) -> None:
        self.assertEqual(self.left_over(), [])

    def write(self, path: str, text: str) -> None:
        (self.top / path).parent.mkdir(parents=True, exist_ok=True)
        (self.top / path).write_text(text, "utf-8")

    def made(self, crate: str, path: str) -> str:
        """What a crate's builds have left in a file."""
        return (self.top / "crates" / crate / "out" / path).read_text("utf-8")

    def does(self, crate: str, lines: str) -> None:
        """What the stand-in does before it builds a crate."""
        (self.stand_in / crate).write_text(f"{lines}\n", "utf-8")

    def start(self, *words: str, before: Sequence[str] = (), **settings: str) -> subprocess.Popen[str]:
        """Starts ./broker in a session of its own, by a command that may have words before it, and with these settings
        instead of those of the tests."""
        pipe = subprocess.PIPE
        how: dict[str, Any] = {"env": settings or self.environment, "text": True, "start_new_session": True}
        return subprocess.Popen([*before, f"{self.top}/broker", *words], stdin=pipe, stdout=pipe, stderr=pipe, **how)

    def build(self, *words: str, told: str = "", **how: Any) -> tuple[int, str, str]:
        """Runs ./broker: its status, standard output and standard error."""
        started = self.start(*words, **how)
        output, errors = started.communicate(told, timeout=PATIENCE)
        return started.returncode, output, errors

    def log(self) -> list[list[str]]:
        """What the stand-in noted: moment, crate, and what the crate did."""
        noted = self.stand_in / "log"
        return [line.split() for line in noted.read_text("utf-8").splitlines()] if noted.exists() else []

    def events(self) -> list[str]:
        """Which crates began and ended, in order."""
        return [f"{crate} {what}" for _, crate, what, *_ in self.log()]

    def await_event(self, event: str, times: int = 1) -> None:
        """Waits until a crate has begun or ended so often, and has then run for a moment."""
        end = time.monotonic() + PATIENCE
        while self.events().count(event) < times:
            if time.monotonic() > end:
                raise AssertionError(f"not seen: {event}")
            time.sleep(0.02)
        time.sleep(0.3)

    def await_end(self) -> None:
        """Waits until nothing runs for this checkout."""
        end = time.monotonic() + PATIENCE
        while self.processes() and time.monotonic() < end:
            time.sleep(0.02)

    def kill(self) -> None:
        """Kills what a test that failed has left."""
        for process in self.processes():
            with contextlib.suppress(ProcessLookupError):
                os.kill(int(process.partition(":")[0]), signal.SIGKILL)

    def processes(self) -> list[str]:
        """The commands that still run for this checkout, each behind its number."""
        found = []
        for process in Path("/proc").glob("[0-9]*"):
            with contextlib.suppress(OSError):
                is_ours = f"STAND_IN={self.stand_in}\0".encode() in (process / "environ").read_bytes()
                words = (process / "cmdline").read_bytes().replace(b"\0", b" ").decode()
                if is_ours and words:
                    found.append(f"{process.name}: {words}")
        return found

    def left_over(self) -> list[str]:
        """The processes, rooms and moved folders that a build has left behind."""
        places = [f"{self.top}/.git/broker-build", f"{self.top}/.broker-build"]
        return [*self.processes(), *filter(os.path.lexists, places)]
