"""What may become of a request: values, such as jobs, and exceptions.

A connection that is lost raises an `OSError`, of which `DisconnectedError` and `TimeoutError` are kinds. Anything else
is a `BrokerError`.
"""

import re
from collections.abc import Callable, Coroutine
from dataclasses import dataclass, field
from typing import TYPE_CHECKING, Any, ClassVar

from rb_broker_formats.protocol import GREETING, ErrorReply


@dataclass(frozen=True)
class Offered:
    """An element that the queue accepted: its id and its expiry. A producer adds what the server said of its run."""

    id: int
    expires_at_ns: int
    greeting: "Greeting | None" = field(default=None, compare=False, repr=False)


@dataclass(frozen=True)
class Greeting:
    """What a service says first in each session: its run's number, how many were lost before, and when it began."""

    run: int
    lost: int
    at_ns: int

    @classmethod
    def of(cls, line: bytes) -> "Greeting | None":
        """That of a line, or None if it is none."""
        found = re.fullmatch(GREETING.encode(), line)
        return cls(*map(int, found.groups())) if found else None


@dataclass(frozen=True)
class LostRun:
    """What a server accepted in this time of its clock is in doubt. An offer's moment is its expiry less its delay."""

    since_ns: int
    until_ns: int


@dataclass(frozen=True)
class Job:
    """An element of the queue that was given, or that `peek` shows. The first `attempt` is 1. `done` and `fail` raise
    `NotHeldError` if it isn't held, or its session has ended, and for a worker's jobs, of which it tells the server."""

    id: int
    expires_at_ns: int
    attempt: int
    payload: str
    _session: ClassVar[Any] = None  # of one that a broker took

    def done(self) -> Any:
        """The job is finished."""
        return self._holder().done(self.id)

    def fail(self) -> Any:
        """The job failed now. Gives `Again` or `Dead`."""
        return self._holder().fail(self.id)

    def _holder(self) -> Any:
        if self._session is None or self._session.is_lost():
            raise NotHeldError(f"job {self.payload} is not held: no broker took it, or its session has ended")
        return self._session


if TYPE_CHECKING:  # what `done` and `fail` give, by the kind of the broker that took the job
    class HeldJob(Job):
        done: Callable[[], None]
        fail: Callable[[], "Verdict"]

    class AsyncHeldJob(Job):
        done: Callable[[], Coroutine[Any, Any, None]]
        fail: Callable[[], Coroutine[Any, Any, "Verdict"]]
else:
    HeldJob = AsyncHeldJob = Job


@dataclass(frozen=True)
class Again(Offered):
    """A job that failed and was offered again: the id and the expiry of its next attempt."""


@dataclass(frozen=True)
class Dead:
    """A job that failed in its last attempt, and is gone."""

    id: int


Verdict = Again | Dead  # what became of a job that failed


@dataclass
class Report:
    """What became of the jobs that a worker took. `done`: the handler returned, and the server was told. `again`: it
    raised an exception, and the job was offered again. `dead`: it did in the last attempt. `lost`: it did in a full
    run, which takes no job back. `unheard`: there was no answer. A job comes back unless the server read it is done."""

    done: int = 0
    again: int = 0
    dead: int = 0
    lost: int = 0
    unheard: int = 0


class BrokerError(Exception):
    """The base of what this package raises."""


class DisconnectedError(BrokerError, ConnectionError):
    """The connection ended before the reply was complete."""


class EndedError(DisconnectedError):
    """It was the server that ended it, or what leads to the server, and no reset."""


class UnknownReplyError(BrokerError):
    """The server sent a line that answers no such request. The session is closed."""


class StoppedError(BrokerError):
    """The server gave up the wait of a `take` or a `poll_for`. No call was made; ask again."""


class NotOfferedError(BrokerError):
    """A producer found no server, or none with a free worker, in time. Nothing was offered."""


class InDoubtError(BrokerError):
    """A producer lost the connection between an offer and its reply. The job may have been offered or not."""


class RefusedError(BrokerError):
    """The server refused the request, as the text says: `ERR 2 number`. It changed nothing, and the session goes on."""


class NotHeldError(RefusedError):
    """`ERR 5`: the session holds no job of this id."""


class FullError(RefusedError):
    """`ERR 6`: the run has made as many calls as it has room for. Each further call will be refused too."""


class OutOfMemoryError(RefusedError):
    """`ERR 7`: the server has no memory for it now. The same request may be sent again."""


_REFUSALS = {ErrorReply.NOT_HELD: NotHeldError, ErrorReply.FULL: FullError, ErrorReply.MEMORY: OutOfMemoryError}
REFUSALS = {reply.value[:-1]: _REFUSALS.get(reply, RefusedError) for reply in ErrorReply}
