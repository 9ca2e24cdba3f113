"""What a worker asks in one session, and what the answers make of its jobs. Nothing is sent, read or run here."""

import logging
import math
from collections import deque
from collections.abc import Callable
from functools import partial
from time import monotonic
from typing import Any

from .answers import Again, BrokerError, FullError, Job, OutOfMemoryError, Report, StoppedError
from .broker import Session
from .durations import Pauses
from .request import Request, demand
from .run import Run
from .servers import Servers

log = logging.getLogger("rb_broker_client.worker")

BESIDE = 5  # while jobs run a wait lasts this part: what ends meanwhile is told only behind it

Asked = tuple[Request[Any], Callable[[Any], None]]  # a request, and what takes its answer


class Work:
    """One session of a worker. In turns, `ask` says what is to be sent, `answered` takes each answer, in order, and
    `given` has the jobs to be run, which the caller takes out. `ended` takes each job whose handler has ended."""

    def __init__(self, session: Session, servers: Servers, wait: float, report: Report, pauses: Pauses, run: Run,
                 bury: Callable[[Job], object], attempts: float = math.inf) -> None:
        """`wait` is in seconds, while no job runs. `bury` is called with each job that failed in its last attempt."""
        self._servers, self._bury, self._attempts, self._is_lost = servers, bury, attempts, False
        self._wait, self._report, self._pauses, self._run = wait, report, pauses, run
        self.session, self.place = session, run.place  # the place is that of the server that serves it
        self._waits: list[Request[Any]] = [Request.poll_for(it) for it in (wait, wait / BESIDE)]  # one beside jobs
        self.is_served = False
        self._asked: deque[Callable[[Any], None]] = deque()  # what takes each answer that is due
        self._ended: list[Asked] = [(Request.greeting(), self._served)]  # what is to be sent
        self.held: dict[int, Job] = {}  # what the server gave, and has not said to have ended
        self._refused: list[Job] = []  # what failed, and could not come back for want of memory
        self._fails: dict[int, Job] = {}  # failures whose answer is due
        self.fetching = 0  # how many jobs are asked for
        self._is_waiting = False  # whether a wait is to be answered, behind which the server reads nothing
        self._found_one = self._more_are_due = False  # by the last wait, and by the last drain
        self._next_try = 0.0  # no job is fetched, and no failure told again, before this moment
        self._looked = 0.0  # when it was asked for the last time what is to be sent
        self.is_used_up = False  # whether nothing more comes of this session, or of this run
        self._is_leaving = self.is_left = False  # whether the server was told that it is left, and has read so
        self.given: list[Job] = []

    def ask(self, free: int, running: int, is_stopping: bool) -> list[Request[Any]]:
        """What is to be sent now. `free` is how many more jobs can be started at once, and `running` how many run. A
        session that is used up fetches no more, and is left once no job is in hand."""
        self._looked = monotonic()
        if self._refused and (is_stopping or self._looked >= self._next_try):
            self._try_again(is_stopping)
        asked, self._ended = self._ended, []
        if not self.is_served or self._is_leaving:
            pass  # a wait that a busy server has not read can't be taken back, and may cost a job an attempt
        elif (is_stopping or self.is_used_up) and not (self.held or self._asked):
            self._is_leaving = True
            asked.append((Request.quit(), self._left))
        elif free > 0 and not (is_stopping or self.is_used_up) and self._may_fetch():
            asked += self._fetch(free, running)
        self._asked.extend([take for _, take in asked])
        return [request for request, _ in asked]

    def answered(self, answer: Any) -> None:
        """Takes the answer to the first request that has none: a value, a refusal, or a wait that was given up."""
        self._asked.popleft()(answer)

    def ended(self, job: Job, is_done: bool | None) -> None:
        """A handler has ended or took too long, or broke off if this is None: then the session's end fails the job."""
        if is_done is None:
            self._report.unheard += self.held.pop(job.id, None) is not None
        elif is_done:
            self._ended.append((Request.done(job.id), partial(self._done, job)))
        else:
            self._fails[job.id] = job
            self._ended.append((Request.fail(job.id), partial(self._failed, job)))
            if self._is_lost:
                self._fail_unheard([job])

    def lost(self) -> None:
        """The session was lost. What the server made of the jobs that it gave is not known."""
        self._is_lost = True
        self._report.unheard += len(self.held)
        self.held.clear()
        self._fail_unheard([*self._fails.values(), *self._refused])

    def _fail_unheard(self, failed: list[Job]) -> None:
        # The end of the session has failed these, or will, of which no reply tells.
        for job in failed:
            if job.attempt >= self._attempts:
                log.error("job %s failed in its last attempt, %d, and its session was lost", job.payload, job.attempt)
                self._bury(job)

    def pause(self) -> float:
        """Within how many seconds something is to be done, though nothing happens, that was not at the last `ask`."""
        return max(self._next_try - monotonic(), 0) if self._next_try > self._looked else math.inf

    def _try_again(self, is_stopping: bool) -> None:
        refused, self._refused = self._refused, []
        for job in refused:
            if is_stopping:  # the end of the session fails it
                self.ended(job, None)
                self._fail_unheard([job])
            else:
                self.ended(job, False)

    def _may_fetch(self) -> bool:
        # A failure comes first: if the run is full nothing more is to be fetched, and without memory nothing yet.
        return not (self._is_waiting or self._fails or self._refused) and self._looked >= self._next_try

    def _fetch(self, free: int, running: int) -> list[Asked]:
        # As many as can be started. Where a drain found so many the next one follows, even if others are on their way.
        # Where it did not, one job is waited for; and where a wait has found one, others may be due, which come first.
        # A gateway that is to end gives a wait up, but by a drain the session ends, and its jobs with it. So where
        # another gateway can go on, nothing else than a wait is asked beside jobs.
        is_one_by_one = len(self._servers) > 1 and (self.held or self.fetching)
        if self._more_are_due and not is_one_by_one and (free > 1 or running or self.fetching):
            return [self._drain(free)]
        if self.fetching:
            return []
        if is_one_by_one or not self._found_one or free == 1:
            return [self._await_job(running > 0)]
        return [self._drain(free - 1), self._await_job(True)] if running else [self._drain(free)]

    def _await_job(self, is_brief: bool) -> Asked:
        self._is_waiting = True
        self.fetching += 1
        return self._waits[is_brief], partial(self._waited, self._looked)

    def _drain(self, most: int) -> Asked:
        self.fetching += most
        return Request.drain(most), partial(self._drained, most, self._looked)

    def _waited(self, asked: float, answer: Any) -> None:
        self._is_waiting, self._found_one = False, isinstance(answer, Job)
        self._fetched(1, asked, [answer] if self._found_one else answer or [])

    def _drained(self, most: int, asked: float, answer: Any) -> None:
        self._found_one, self._more_are_due = False, isinstance(answer, list) and len(answer) == most
        self._fetched(most, asked, answer)

    def _fetched(self, most: int, asked: float, answer: list[Job] | BrokerError) -> None:
        self.fetching -= most
        if isinstance(answer, BrokerError):
            self._not_fetched(answer, asked)
            return
        self._pauses.reset()
        if not self.is_used_up:
            self._servers.served()
        for job in answer:
            self._run.given(job.id)
            self.held[job.id] = job
        self.given += answer

    def _not_fetched(self, refused: BrokerError, asked: float) -> None:
        is_stopped = isinstance(refused, StoppedError)
        if is_stopped and self.session.greeting is not None and self._asked:
            pass  # the server looks what was sent behind a wait
        elif is_stopped and self.session.greeting is None and len(self._servers) > 1 and self.held:
            self.is_used_up = True  # a gateway that is to end lets these jobs be told, and another one gives more
        elif is_stopped or isinstance(refused, OutOfMemoryError):
            if asked < self._next_try:
                return  # one that was asked before it was refused, too
            # From one fetch to the next: a wait that was given up after a while needs no pause.
            self._next_try = asked + min(self._pauses.next(), self._wait)
            if monotonic() >= self._next_try:
                self._pauses.reset()
        elif isinstance(refused, FullError):  # the server can end only when its clients have left
            if not self.is_used_up:
                log.warning("left the session at %s: %s", self.place, refused)
            self.is_used_up = True
        else:
            raise refused

    def _served(self, answer: Any) -> None:
        demand(answer)
        self._run.served(self.session.greeting)
        self.is_served = True

    def _left(self, answer: Any) -> None:
        demand(answer)
        self.is_left = True

    def _done(self, job: Job, answer: Any) -> None:
        demand(answer)
        del self.held[job.id]
        self._report.done += 1

    def _failed(self, job: Job, answer: Any) -> None:
        del self._fails[job.id]
        if isinstance(answer, OutOfMemoryError):
            self._refused.append(job)
            self._next_try = monotonic() + self._pauses.next()
            return
        if isinstance(answer, FullError):
            self._report.lost += 1
            self.is_used_up = True
            log.error("job %s is lost: it failed in a full run", job.payload)
            self._bury(job)
        elif isinstance(demand(answer), Again):
            self._run.came_back(answer.id)
            self._report.again += 1
        else:
            self._report.dead += 1
            log.error("job %s failed in its last attempt, %d", job.payload, job.attempt)
            self._bury(job)
        del self.held[job.id]
