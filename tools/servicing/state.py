"""All that the service knows and shows at one moment.

Dates are seconds since 1970 in UTC, spans are seconds, moments of the server are whole nanoseconds. A count has no
unit. What is not known is None, never 0.
"""
import time
from dataclasses import dataclass, replace
from enum import Enum
from typing import Callable, NamedTuple

from servicing.clock import Reading
from servicing.connections import Connection

LONGEST = 60.0  # seconds without a new state after which the service is not healthy
CLOSED = 5.0  # seconds in which no new client is served after which there is an alert

# Alerts: a file can't be written, which is kept in memory and tried again; no new state comes; no new client is served
# for long. The last two are of something that is lost for good, and last until somebody acknowledges them.
DISK, STALE, CLOSED_LONG, LOST_RUN, LOST_JOBS = "disk", "stale", "closed", "lost-run", "lost-jobs"

# What can be asked of a service: to end its run, to end the sessions that a run's end waits for, and to take what was
# lost as known.
END, CUT, ACKNOWLEDGE = "end", "cut", "acknowledge"


class Phase(Enum):
    """What the service is doing. A phase follows the one before, or SERVING and the rest again with the next run."""

    STARTING = "starting"  # the folder is locked; the server does not listen yet
    SERVING = "serving"  # clients are served
    ENDING = "ending"  # the run ends in good order: who holds jobs settles them, and others wait for the next run
    BETWEEN = "between runs"  # no server: the history is being written and checked, and the next opening is made
    STOPPED = "stopped"  # the service has ended in good order


class Reason(str, Enum):
    """Why a run ends, as a word and as people are told."""

    text: str

    def __new__(cls, word: str, text: str = "") -> "Reason":
        it = str.__new__(cls, word)
        it._value_, it.text = word, text
        return it

    ASKED = "asked", "asked to end"
    PAGE = "page", "asked to end on the page"
    TIME = "time", "its time was up"
    CALLS = "calls", "few calls were left"
    SESSIONS = "sessions", "no session was left"
    TURNS = "turns", "clients waited for a worker"
    SETTINGS = "settings", "failed jobs are to come back otherwise"
    ELEMENTS = "elements", "elements that were set aside had room"
    KILLED = "killed", "lost: its server was killed"
    UNKNOWN = "unknown", "ended while no service was running"


class Queue(NamedTuple):
    """The queue at the last look at which the server answered."""

    at: float  # when it was looked at
    elements: int  # expired or not, without those that are set aside
    late: float  # seconds since the first of them expired: below 0 before that, 0 without one


class Traffic(NamedTuple):
    """What was counted since this service began, over all its runs. A job that came back was offered again, and is
    known as one only when the history of a run is there."""

    offered: int = 0
    left: int = 0  # elements that were given, removed or cleared
    failed: int = 0  # jobs that came back


class Mark(NamedTuple):
    """What was known at one moment of the last hour."""

    at: float
    traffic: Traffic
    queue: Queue | None


@dataclass(frozen=True)
class End:
    """What became of a run. The counts of a lost run are not known."""

    date: float  # for a lost run, when that was found
    why: Reason
    calls: int | None = None
    offered: int | None = None  # new jobs and those that came back
    failed: int | None = None  # jobs that came back
    given: int | None = None
    left: int | None = None  # elements at its end
    lost_jobs: int | None = None  # held at a session's end in a full run, so that they could not come back
    closed: float | None = None  # seconds without a server that served new clients, before the next run
    sessions: int | None = None  # as the server counts them
    cut: int = 0  # sessions that were cut
    digest: str | None = None  # the SHA-256 of its history
    is_followed: bool = False  # whether the next run has begun to serve


@dataclass(frozen=True)
class Run:
    """A run: what is written down of it before its server starts, and what became of it."""

    number: int  # from 1, as in the names of its files
    began: Reading  # at which the moment was the opening's
    moment: int  # that moment
    next_id: int  # the id of its first offer
    opening: int  # elements that it began with
    aside: int  # elements beyond the 1,000,000 of an opening, which wait in a file
    calls: int  # for which it has room, and so at most as many ids
    policy: tuple[str, ...]  # the words of its retries
    lost_before: int = 0  # how many runs of the folder were lost before this one
    lost_jobs_before: int = 0  # and how many jobs could not come back
    follows: str = ""  # `deciding.digest_of` the run that it continues
    end: End | None = None

    # What its server says to who is let in, and the words by which `replay` checks its history.
    greeting = property(lambda self: f"RUN {self.number} lost {self.lost_before} at {self.moment}")
    chains = property(lambda self: ["--chains", *self.policy])
    # When it began, whether it was lost, and how many runs and jobs of the folder were, those of this run included.
    date = property(lambda self: self.began.date / 1e9)
    is_lost = property(lambda self: self.end is not None and self.end.why is Reason.KILLED)
    lost = property(lambda self: self.lost_before + self.is_lost)
    lost_jobs = property(lambda self: self.lost_jobs_before + (self.end.lost_jobs or 0 if self.end else 0))
    # Whether its history is kept, of which there can be a report, and the seconds of a run that has ended.
    has_history = property(lambda self: self.end is not None and not self.is_lost)
    lasted = property(lambda self: max(self.end.date - self.date, 0.0) if self.end else 0.0)


class Alert(NamedTuple):
    """Something that an operator has to know of or to do, for as long as it is so."""

    name: str  # one word or several with hyphens, the same as long as it is the same alert
    text: str  # a sentence
    since: float


@dataclass(frozen=True)
class State:
    """The whole."""

    at: float  # when this was made
    port: int
    phase: Phase
    since: float  # when that phase began
    closed_since: float | None = None  # since when no new client is served, unless one is
    id: str = ""  # the folder's, which no other has
    why: Reason | None = None  # in ENDING, BETWEEN and STOPPED: why the run ends
    waits_for: tuple[str, ...] = ()  # what the phase waits for, a text each: clients that hold a run up, a full disk
    run: Run | None = None
    queue: Queue | None = None
    workers: int = 0  # how many clients can be served at once
    clients: tuple[Connection, ...] | None = None
    calls: int | None = None  # that can be used. More may be than was seen
    traffic: Traffic = Traffic()
    runs: tuple[Run, ...] = ()  # those that have ended and are kept, the latest first
    lost_runs: int = 0  # in this folder
    lost_jobs: int = 0  # the same of jobs that could not come back, since their run was full
    alerts: tuple[Alert, ...] = ()
    unwritten: int = 0  # bytes of a file that can't be written, and that are in memory only
    hour: tuple[Mark, ...] = ()  # the last one

    # How many clients have a worker, wait for one, do not read and say nothing, and the longest silence.
    served = property(lambda self: self._count(lambda it: it.is_served))
    waiting = property(lambda self: self._count(lambda it: not it.is_served))
    not_reading = property(lambda self: self._count(lambda it: it.is_unread))
    silent = property(lambda self: self._count(lambda it: it.silence > 0))
    silence = property(lambda self: None if self.clients is None else max([it.silence for it in self.clients] or [0.0]))

    # The run's id, which no other run of any service has; the last run that has ended, and the last that was lost.
    run_id = property(lambda self: f"{self.id}-{self.run.number}" if self.run else "")
    last = property(lambda self: next(iter(self.runs), None))
    lost = property(lambda self: next((it for it in self.runs if it.is_lost), None))

    def _count(self, holds: Callable[[Connection], bool]) -> int | None:
        return None if self.clients is None else sum(map(holds, self.clients))

    # Elements that were offered and that left a second, in the last minute.
    offered_a_second = property(lambda self: self._pace(lambda it: it.offered))
    left_a_second = property(lambda self: self._pace(lambda it: it.left))

    def _pace(self, count: Callable[[Traffic], int]) -> float | None:
        """None in the first seconds, in which one more or less would mean too much."""
        since = next((it for it in self.hour if it.at >= self.at - 60), None)
        if since is None or self.at - since.at < 5:
            return None
        return (count(self.traffic) - count(since.traffic)) / (self.at - since.at)

    @property
    def failed_a_second(self) -> float | None:
        """Over the last run that has ended in good order: only then is it known."""
        known = ((it.end.failed, it.lasted) for it in self.runs if it.end and it.end.failed is not None)
        return next((failed / max(lasted, 1.0) for failed, lasted in known), None)

    @property
    def is_up(self) -> bool:
        return self.phase is Phase.SERVING

    @property
    def is_healthy(self) -> bool:
        """Whether clients are served, or will be within seconds."""
        wrong = (DISK, STALE) if self.phase is Phase.ENDING else (DISK, STALE, CLOSED_LONG)  # those served go on
        return self.phase not in (Phase.STARTING, Phase.STOPPED) and not any(it.name in wrong for it in self.alerts)


class Board:
    """Holds the latest state. The service's own thread puts it there, and any may look at it."""

    token = ""  # which a form of the page sends that changes something. Without one nothing can be changed
    http: str | None = None  # where the page is served

    def __init__(self, port: int) -> None:
        self.asked: set[str] = set()  # what somebody asks of the service, which has not done it yet
        self.put(State(time.time(), port, Phase.STARTING, time.time(), time.time()))

    def put(self, state: State) -> None:
        self._put, self._state = time.monotonic(), state

    @property
    def state(self) -> State:
        """The latest, with an alert if the service has found nothing since for too long, and one if no new client is
        served for so long."""
        state, alerts = self._state, []
        if time.monotonic() - self._put > LONGEST:
            alerts.append(Alert(STALE, f"the service has told nothing new for {LONGEST:g} seconds", state.at))
        if state.closed_since is not None and time.time() - state.closed_since > CLOSED:
            alerts.append(Alert(CLOSED_LONG, f"no new client is served for {CLOSED:g} seconds", state.closed_since))
        return replace(state, alerts=(*state.alerts, *alerts)) if alerts else state
