"""What the service decides by what it knows, without looking at anything itself: how it begins, when a run ends, which
old ones are dropped, and whether what a folder has of its runs fits together. A history that was edited, swapped or
taken away would give jobs twice, or lose them without a word."""
from enum import Enum
from typing import Collection, Mapping, NamedTuple, Sequence

from rb_broker_formats.grammar import MOST_OPENING_ELEMENTS
from servicing.looking import Looks
from servicing.server import Checked, Server
from servicing.settings import Keep, Settings
from servicing.state import Reason, Run
from rb_broker_redis.watching.units import SECOND

LOW = 0.9  # the share of a run's calls behind which it ends
HELD = 64  # jobs that a session holds at most, each of which needs a call to come back
YOUNG = 60.0  # seconds that a run lasts before elements that were set aside end it
SOON = 30 * SECOND
LOST = "lost"  # stands for the digest of a run that was lost


class Start(Enum):
    """How a service begins, by what the one before left."""

    GO_ON = "go on"  # the server of the last run is still there
    COLLECT = "collect"  # it has ended, or is about to, and its history is kept
    CONTINUE = "continue"  # the last run ended in good order, and its history is a file
    AGAIN = "again"  # the last run is known to be lost
    MISSING = "missing"  # the last run ended in good order, and has no history
    LOST = "lost"  # the last run is lost


def how_to_start(last: Run, has_history: bool, found: Server | None) -> Start:
    """By whether the last run's history is in the folder, and by what an earlier service has left of its server."""
    if has_history:
        return Start.CONTINUE
    if last.end is not None:
        return Start.AGAIN if last.is_lost else Start.MISSING
    if found is None:
        return Start.LOST
    return Start.COLLECT if found.has_ended else Start.GO_ON


def why_to_end(looks: Looks, run: Run, settings: Settings, age: int, first_aside: int) -> Reason | None:
    """Why the run has to end now, if it has to. Its first element aside expires at this moment."""
    if looks.calls >= LOW * run.calls:
        return Reason.CALLS
    if looks.is_closed:
        return Reason.SESSIONS
    if age >= settings.every:
        return Reason.TIME
    if looks.waits * SECOND >= settings.turn_within <= age:
        return Reason.TURNS
    if not run.aside or looks.queue is None or looks.moment is None or age < YOUNG * SECOND:
        return None
    # Elements that were set aside come into the queue if one is due soon, or if there is much room.
    room = MOST_OPENING_ELEMENTS - looks.queue.elements
    is_soon, is_much = first_aside <= looks.moment + SOON, room >= min(run.aside, MOST_OPENING_ELEMENTS // 10)
    return Reason.ELEMENTS if room > 0 and (is_soon or is_much) else None


def is_to_cut(looks: Looks, run: Run, seconds: float) -> bool:
    """Whether a run that ends can't wait for the clients that it still serves: within so many seconds the calls could
    be used up by which the jobs that they hold come back. A small run has few for both."""
    reserved = min(HELD * len(looks.served), run.calls // 20)
    return bool(looks.served) and run.calls - looks.calls <= reserved + looks.rate * seconds


def runs_to_drop(records: Sequence[Run], keep: Keep, now: float) -> list[int]:
    """The runs that are kept no longer, at this date. The last two are always kept, and one that has not ended."""
    ended = [it for it in records[:-2] if it.end is not None]
    if keep.runs is not None:
        return [it.number for it in ended[:max(len(records) - 1 - keep.runs, 0)]]
    return [it.number for it in ended if it.end and now - it.end.date > (keep.age or 0) / SECOND]


class Misfit(NamedTuple):
    """What does not fit, in one line, and the run that is lost if it stays so."""

    run: int
    what: str
    next: Run | None = None  # whose record names another run than there is

    def __str__(self) -> str:
        return (f"{self.what}. Put what was there back, or start with --accept-loss {self.run}, which gives up what "
                f"run {self.run} did")


def digest_of(run: Run | None) -> str:
    """That of a run's history, as the record of the next run names it. Nothing if it is not known."""
    return "" if run is None or run.end is None else LOST if run.is_lost else run.end.digest or ""


def misfit_in(records: Mapping[int, Run], histories: Collection[int]) -> Misfit | None:
    """The first thing that does not fit in all records, of which there is one, and the numbers of all histories. Runs
    before the first record are of another series, or were dropped."""
    first, last = min(records), max(records)
    for number in sorted(it for it in histories if it > first and it not in records):
        return Misfit(number, f"run {number} has a history and no record")
    for number, run in sorted(records.items()):
        before = records.get(number - 1)
        if number > first and run.follows and run.follows != digest_of(before):
            what = "is no record" if before is None else "is another record"
            return Misfit(number - 1, f"run {number} continued run {number - 1}, of which there {what}", run)
    if last in histories and records[last].is_lost:
        return Misfit(last, f"run {last} was lost, and has a history")
    return None


def misfit_of(run: Run, told: Checked) -> str:
    """Why a history is not that of a run. Nothing if it is."""
    audit, left, digest = told
    next_id, moment, elements = left.begins
    # A run of an earlier version can have begun a little later than its record says.
    if (next_id, elements) != (run.next_id, run.opening) or moment < run.moment:
        return f"it does not begin as run {run.number} did"
    if run.end is None:
        return ""
    if (run.end.digest or digest) != digest:
        return f"its SHA-256 is {digest}, and that of run {run.number} was {run.end.digest}"
    for name, was, now in (("calls", run.end.calls, audit["calls"]), ("given", run.end.given, audit["given"]),
                           ("left", run.end.left, len(left.elements))):
        if was is not None and was != now:
            return f"{name} is {now}, and was {was} in run {run.number}"
    return ""
