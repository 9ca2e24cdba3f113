"""A client that offers elements at its times, and takes jobs in between."""
import math
import random
import time
from dataclasses import dataclass
from fractions import Fraction
from typing import Callable

from loading.counts import SECOND, Counts
from rb_broker_client import Again, Broker, FullError, RefusedError, StoppedError, UnknownReplyError

PAUSE = 0.001  # seconds after a wait that the server gave up, since it may give up each at once
GRACE = 5 * SECOND  # that the clients have to leave after the end


@dataclass(frozen=True)
class Plan:
    """What the clients of a run do. Times are readings of the monotonic clock, in nanoseconds."""

    begin: int
    end: int
    clients: int
    rate: float  # offers a second of all clients together
    delay: int  # of each offer
    fail: float  # the share of jobs that fail

    def due(self, client: int, offer: int) -> int:
        """When a client makes its offer of this number. The clients take turns."""
        return self.begin + int((offer * self.clients + client) * SECOND / self.rate)

    @property
    def offers(self) -> int:
        """How many offers are due before the end."""
        return math.ceil((self.end - self.begin) * self.rate / SECOND)


class Client:
    """One client of a run, with a session and a thread of its own. It settles each job before it asks for the next."""

    def __init__(self, number: int, broker: Broker, plan: Plan):
        self.number, self.broker, self.plan, self.counts = number, broker, plan, Counts()
        self.choice = random.Random(number)

    def run(self) -> None:
        """Works until the end of the plan or a fault, which is counted."""
        try:
            self._be_patient()
            self.broker.await_service()
            self._work()
            self._be_patient()
            self.broker.quit()
        except TimeoutError:
            self.counts.errors["no reply at the end"] += 1
        except UnknownReplyError as fault:
            self.counts.errors[f"{str(fault)[:40]!a} is no reply"] += 1
        except (FullError, OSError) as fault:
            self.counts.errors[str(fault)] += 1
        finally:
            self.broker.close()

    def _be_patient(self) -> None:
        """Lets the next reply take until a while after the end."""
        self.broker.patience = max(self.plan.end + GRACE - time.monotonic_ns(), SECOND) / SECOND

    def _work(self) -> None:
        """Offers what is due, and asks for jobs until the next offer is due. It asks once even if that offer is late
        already, so that the queue does not only grow."""
        offers = 0
        while time.monotonic_ns() < self.plan.end:
            due = self.plan.due(self.number, offers)
            if due <= time.monotonic_ns():
                self._counted(self._offer, offers)
                offers += 1
                due = self.plan.due(self.number, offers)
            rest = max(min(due, self.plan.end) - time.monotonic_ns(), 0)
            self._counted(self._take, rest / SECOND)

    def _counted(self, step: Callable[..., None], *words: float) -> None:
        """Takes a step. A refusal is counted, but once the run is full no client goes on."""
        self._be_patient()
        try:
            step(*words)
        except FullError:
            raise
        except RefusedError as fault:
            self.counts.errors[str(fault)] += 1

    def _offer(self, number: int) -> None:
        before = time.monotonic_ns()
        delay = Fraction(self.plan.delay, SECOND)  # which is exact, as no float is
        offered = self.broker.offer(f"load-{self.number}-{number}", delay=delay)  # type: ignore[arg-type]
        self.counts.add_offer(offered.expires_at_ns - self.plan.delay, before, time.monotonic_ns())

    def _take(self, timeout: float) -> None:
        """Asks for a job, and finishes it or fails it."""
        try:
            job = self.broker.poll_for(timeout)
        except StoppedError:
            time.sleep(min(timeout, PAUSE))
            return
        if job is None:
            self.counts.numbers.update(["calls"])
            return
        self.counts.add_job(job.expires_at_ns, time.monotonic_ns())
        if self.choice.random() >= self.plan.fail:
            self.broker.done(job.id)
            self.counts.numbers.update(["done"])
        elif isinstance(self.broker.fail(job.id), Again):
            self.counts.numbers.update(["failed", "again", "calls"])
        else:
            self.counts.numbers.update(["failed", "dead"])
