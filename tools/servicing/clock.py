"""How much time has passed, also while no process was there to count it."""
import os
import time
from dataclasses import dataclass
from pathlib import Path

# The setting that says the boot where /proc/sys is hidden, as it is under systemd.
BOOT = "RB_BROKER_BOOT"


@dataclass(frozen=True)
class Reading:
    """The clocks of the machine at one moment, in nanoseconds."""

    boot: str  # the same from one start of the machine to the next; empty if that is not known
    up: int  # since that start, the time in which it was suspended too; nobody can set it
    date: int  # since 1970, which an operator or the network may set

    def after(self, span: int) -> "Reading":
        return Reading(self.boot, self.up + span, self.date + span)


def read_clock() -> Reading:
    try:
        boot = Path("/proc/sys/kernel/random/boot_id").read_text(encoding="ascii").strip().replace("-", "")
    except OSError:
        boot = os.environ.get(BOOT, "")
    return Reading(boot, time.clock_gettime_ns(time.CLOCK_BOOTTIME), time.time_ns())


def elapsed(since: Reading, now: Reading) -> int:
    """The nanoseconds between two readings.

    While the machine goes on, setting its date changes nothing. Over a restart of it only the date tells, and one that
    was set back counts as no time.
    """
    return max(now.up - since.up, 0) if is_same_boot(since, now) else max(now.date - since.date, 0)


def is_same_boot(since: Reading, now: Reading) -> bool:
    return bool(since.boot) and since.boot == now.boot
