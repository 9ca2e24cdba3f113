"""How the service and the rest of the machine talk: on standard error a line for each change, as words and values that
log collectors read; to systemd how a unit with `Type=notify` is, which elsewhere hears nothing; and signals, which ask
for the end: they end a wait at once, and nothing else."""
import contextlib
import json
import os
import re
import select
import signal
import socket
import sys
import time

PATIENCE = 1.0  # seconds; a manager that takes nothing is not waited for
_PLAIN = re.compile(r"[^\s\"=]+")


def say(level: str, event: str, **fields: object) -> None:
    """Says a line. The level is info, warning or error. Nobody may be there to hear it."""
    now = time.time()
    date = time.strftime("%Y-%m-%dT%H:%M:%S", time.gmtime(now)) + f".{int(now % 1 * 1000):03d}Z"
    words: dict[str, object] = {"time": date, "level": level, "event": event, **fields}
    told = {name: str(value) for name, value in words.items() if value is not None}
    line = " ".join(f"{name}={it if _PLAIN.fullmatch(it) else json.dumps(it, ensure_ascii=False)}"
                    for name, it in told.items())
    with contextlib.suppress(OSError):
        sys.stderr.write(line + "\n")
        sys.stderr.flush()


def notify(*descriptors: int, **values: object) -> None:
    """Sends an assignment for each value, such as READY=1, to systemd, with descriptors."""
    address = os.environ.get("NOTIFY_SOCKET", "")
    with contextlib.suppress(OSError), socket.socket(socket.AF_UNIX, socket.SOCK_DGRAM | socket.SOCK_CLOEXEC) as it:
        it.settimeout(PATIENCE)
        it.connect("\0" + address[1:] if address.startswith("@") else address)
        socket.send_fds(it, ["\n".join(f"{name}={value}" for name, value in values.items()).encode()], descriptors)


def await_notified() -> None:
    """Waits until systemd has taken all that it was told: it closes its end of a pipe then."""
    end, barrier = os.pipe()
    notify(barrier, BARRIER=1)
    os.close(barrier)
    select.select([end], [], [], PATIENCE)
    os.close(end)


class Signals:
    """Counts signals. The first asks for an end in good order, the second for an end without waiting for clients."""

    def __init__(self) -> None:
        self.count = 0
        self._read, write = os.pipe()
        for it in (self._read, write):
            os.set_blocking(it, False)
        signal.set_wakeup_fd(write, warn_on_full_buffer=False)
        for number in (signal.SIGINT, signal.SIGTERM, signal.SIGHUP):
            signal.signal(number, self._note)

    def _note(self, *_: object) -> None:
        self.count += 1

    def wait(self, seconds: float, pipe: int | None = None) -> None:
        """Waits so long, until a signal comes, or until nobody can read from a pipe any more."""
        ready = select.poll()
        ready.register(self._read, select.POLLIN)
        if pipe is not None:
            ready.register(pipe, 0)
        ready.poll(max(seconds, 0) * 1000)
        with contextlib.suppress(BlockingIOError):
            os.read(self._read, 64)
