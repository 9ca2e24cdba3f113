"""What the clients of a run count, and what is printed of it."""
import collections
import math
from typing import Iterable

SECOND = 1_000_000_000  # in nanoseconds


class Counts:
    """What one client counts, or all together: numbers by their words in the summary, errors by their kinds, and how
    late jobs were.

    The server counts time from a moment of its own, but its clock and this machine's monotonic clock go at the same
    speed, so one stays ahead of the other by the same number of nanoseconds. Each moment of the server that lies
    between two readings of ours bounds that number. The closest bounds count.
    """

    def __init__(self) -> None:
        self.numbers: collections.Counter[str] = collections.Counter()
        self.errors: collections.Counter[str] = collections.Counter()
        self.times: list[int] = []  # of jobs: when it had come by our clock, less its expiry by the server's
        self.least, self.most = -math.inf, math.inf

    def add_offer(self, moment: int, before: int, after: int) -> None:
        """An element was accepted, at this moment of the server and between two readings of our clock."""
        self.numbers.update(["calls", "offered"])
        self.least, self.most = max(self.least, moment - after), min(self.most, moment - before)

    def add_job(self, expiry: int, at: int) -> None:
        """A job had come when our clock showed `at`, and so the server's had reached its expiry."""
        self.numbers.update(["calls", "taken"])
        self.least = max(self.least, expiry - at)
        self.times.append(at - expiry)

    @property
    def ahead(self) -> int:
        """How far the server's clock is ahead: the middle between the bounds, or the only bound there is."""
        bounds = [int(bound) for bound in (self.least, self.most) if math.isfinite(bound)]
        return sum(bounds) // len(bounds) if bounds else 0

    def lateness(self) -> list[int]:
        """The median, the 99th percentile and the greatest of how late jobs were, from the expiry until the reply had
        come, in microseconds; nothing if no job came."""
        times = sorted(self.times)
        places = [int(len(times) * share) for share in (0.5, 0.99)] + [-1]
        return [(times[place] + self.ahead) // 1000 for place in places] if times else []


def total(each: Iterable[Counts]) -> Counts:
    """What several have counted together."""
    all_of_them = Counts()
    for counts in each:
        all_of_them.numbers += counts.numbers
        all_of_them.errors += counts.errors
        all_of_them.times += counts.times
        all_of_them.least, all_of_them.most = max(all_of_them.least, counts.least), min(all_of_them.most, counts.most)
    return all_of_them


def summary(counts: Counts, due: int, seconds: float) -> list[str]:
    """The lines at the end of a run of so many seconds, in which so many offers were due."""
    found, late = counts.numbers, counts.lateness()
    told = "median {}, 99th percentile {}, greatest {}".format(*late) if late else "none"
    errors = ", ".join(f"{count} of {fault}" for fault, count in counts.errors.most_common())
    return [
        f"offered {found['offered']} of {due} that were due, {found['offered'] / seconds:.1f} a second",
        f"taken {found['taken']}, {found['taken'] / seconds:.1f} a second",
        f"done {found['done']}, failed {found['failed']} (again {found['again']}, dead {found['dead']})",
        f"lateness in microseconds: {told}",
        f"calls {found['calls']}",
        f"errors {sum(counts.errors.values())}" + (f": {errors}" if errors else ""),
    ]
