"""What a build tells on standard error."""
import contextlib
import re
import sys
import time

# What rt says when a proof begins, and when it has to wait for another checkout on this machine.
BEGINS = re.compile(rb"^rt: chose --jobs \d+ for ", re.MULTILINE)
WAITS = re.compile(rb"^rt: .*\bwaiting\b.*$", re.MULTILINE)
SILENCE = 60.0  # seconds after which it is told again what is being proved


def say(what: str) -> None:
    """Writes a line to standard error."""
    show(f"broker: {what}\n".encode(errors="replace"))


def show(text: bytes) -> None:
    """Writes to standard error. A build goes on if nobody reads that, or if there is none."""
    if sys.stderr is not None:
        with contextlib.suppress(OSError):
            sys.stderr.buffer.write(text)
            sys.stderr.buffer.flush()


class Progress:
    """How far a build is. A crate whose proof was kept is counted and not named, since rt has nothing to do for it."""

    def __init__(self, crates: int) -> None:
        self._crates, self._built, self._began = crates, 0, time.monotonic()
        self._told = self._began  # when the last line was written
        self._proving: dict[str, float] = {}  # since when
        self._waiting: set[str] = set()

    def seconds(self) -> int:
        return int(time.monotonic() - self._began)

    def hear(self, crate: str, output: bytes) -> None:
        """Tells whether a crate is being proved, or waits, as rt has written."""
        waits = WAITS.search(output)
        if crate not in self._proving and BEGINS.search(output):
            self._proving[crate] = time.monotonic()
            self._tell(f"proving {crate}")
        elif crate not in self._waiting and waits:
            self._waiting.add(crate)
            self._tell(f"{crate}: {waits[0].decode(errors='replace')}")

    def built(self, crate: str) -> None:
        self._built += 1
        began = self._proving.pop(crate, None)
        if began is not None:
            self._tell(f"{crate} took {time.monotonic() - began:.0f} s; {self._built} of {self._crates} crates built")

    def break_silence(self) -> None:
        """Tells what is still being proved if nothing was told for long."""
        now = time.monotonic()
        if self._proving and now - self._told >= SILENCE:
            each = (f"{crate} for {now - began:.0f} s" for crate, began in self._proving.items())
            self._tell(f"still proving {', '.join(each)}")

    def _tell(self, what: str) -> None:
        self._told = time.monotonic()
        say(f"{self.seconds()} s: {what}")
