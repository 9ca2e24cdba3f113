"""What the clients of a day know, and what of that no service in good order explains."""
from collections import Counter, defaultdict
from collections.abc import Collection, Iterator, Sequence
from dataclasses import dataclass, field
from statistics import median
from typing import NamedTuple


class Offer(NamedTuple):
    """An offer that got its reply: in which run, and when the job is due at the least and the most."""

    run: int
    least: float
    most: float


class Item(NamedTuple):
    """A job that was given."""

    payload: str
    run: int
    attempt: int
    at: float


@dataclass
class Ledger:
    """What a client knows. A run is known by its greeting, and a moment by the monotonic clock."""

    offered: dict[str, Offer] = field(default_factory=dict)
    done: list[tuple[str, int]] = field(default_factory=list)  # with the run
    given: list[Item] = field(default_factory=list)
    doubts: dict[str, int] = field(default_factory=dict)  # offers without a reply, with the run
    faults: list[str] = field(default_factory=list)  # that are no end of a connection in good order
    waits: list[float] = field(default_factory=list)  # seconds to the greeting
    served: dict[int, list[float]] = field(default_factory=lambda: defaultdict(list))  # when each run was heard
    lost = 0  # runs, by the last greeting


class Gap(NamedTuple):
    """When somebody was served for the last time by a run, and for the first time by the next."""

    begin: float
    end: float

    @property
    def seconds(self) -> float:
        return self.end - self.begin


class Judgement(NamedTuple):
    """Jobs that no service in good order explains."""

    gone: list[str] = []  # offered in a run that was not lost, and done in none of these
    early: list[str] = []
    twice: list[str] = []  # done in runs that were not lost
    unasked: list[str] = []  # done, though their offers got no reply in a run that was not lost, or were never sent


def judged(ledgers: Sequence[Ledger], lost: Collection[int]) -> Judgement:
    """What is wrong at the end of a day, when the queue is empty."""
    offered = {payload: it for one in ledgers for payload, it in one.offered.items()}
    doubts = {payload: run for one in ledgers for payload, run in one.doubts.items()}
    done = Counter(payload for one in ledgers for payload, run in one.done if run not in lost)
    return Judgement(
        [payload for payload, it in offered.items() if it.run not in lost and not done[payload]],
        [it.payload for it in _first(ledgers) if it.payload in offered and it.at < offered[it.payload].least],
        [payload for payload, count in done.items() if count > 1],
        [it for it in done if it not in offered and doubts.get(it) not in lost])


def _first(ledgers: Sequence[Ledger]) -> Iterator[Item]:
    """Each job that was given for the first time: a failed one is due by what its run says."""
    return (it for one in ledgers for it in one.given if it.attempt == 1)


def lateness(ledgers: Sequence[Ledger]) -> list[tuple[int, int, float]]:
    """By how many seconds each job was late at most, behind the run that gave it and the rollovers that it waited
    through, from the first run to the last."""
    offered = {payload: it for one in ledgers for payload, it in one.offered.items()}
    known = ((it, offered[it.payload]) for it in _first(ledgers) if it.payload in offered)
    return sorted((it.run, it.run - offer.run, it.at - offer.most) for it, offer in known)


def late_behind(ledgers: Sequence[Ledger], least: int, most: int) -> float:
    """By how many seconds jobs are late, at the median, that waited through so many rollovers, from the least on and
    below the most. 0 if there are none."""
    return median([seconds for _, count, seconds in lateness(ledgers) if least <= count < most] or [0.0])


def gaps(ledgers: Sequence[Ledger], lost: Collection[int]) -> dict[int, Gap]:
    """When nobody was served behind each run: from its last reply to the first greeting of the next. A job in hand is
    time in which its client is served. Runs that were lost have no end in good order."""
    first, last = dict[int, float](), dict[int, float]()
    for run, heard in ((run, it) for one in ledgers for run, it in one.served.items()):
        first[run], last[run] = min(heard[0], first.get(run, heard[0])), max(heard[-1], last.get(run, heard[-1]))
    return {run: Gap(it, first[run + 1]) for run, it in last.items() if run + 1 in first and run not in lost}


def spread(seconds: Sequence[float]) -> str:
    """The median and the longest."""
    return f"{median(seconds):.3f} {max(seconds):.3f} s" if seconds else "-"


def told(ledgers: Sequence[Ledger], lost: Collection[int]) -> str:
    """A day in a few words."""
    late, faults = lateness(ledgers), Counter(it for one in ledgers for it in one.faults)
    quarter = len(late) // 4 or 1
    doubts = {payload for one in ledgers for payload in one.doubts}
    done = {payload for one in ledgers for payload, _ in one.done}
    groups = {"": late, " in the first quarter": late[:quarter], " in the last": late[-quarter:],
              **{f" behind {first} to {last - 1} rollovers": [it for it in late if first <= it[1] < last]
                 for first, last in ((0, 2), (2, 6), (6, 21), (21, 1000))}}
    return (f"{sum(len(it.offered) for it in ledgers)} offered, {len(doubts)} in doubt of which {len(doubts & done)} "
            f"done, {len(lost)} runs lost; gaps {spread([it.seconds for it in gaps(ledgers, lost).values()])}; "
            f"waits {spread([it for one in ledgers for it in one.waits])}; faults {dict(faults)}"
            + "".join(f"\nlate{name}: {len(them)}, {spread([it for *_, it in them])}" for name, them in groups.items()))
