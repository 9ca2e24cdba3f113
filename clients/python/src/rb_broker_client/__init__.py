"""A client of `rb_broker serve`, of the standard library alone.

A `Broker` is one session with the server. A `Producer` offers jobs to a server that may be replaced by another. A
`Worker` takes jobs, runs a handler on each, and tells the server what came of it. Each has a twin for asyncio.

Delays, waits, timeouts and patience are seconds or a `timedelta`. Moments of the protocol are whole nanoseconds of the
server's clock, under names that end in `_ns`.
"""
from .answers import (
    Again, AsyncHeldJob, BrokerError, Dead, DisconnectedError, FullError, Greeting, HeldJob, InDoubtError, Job, LostRun,
    NotHeldError, NotOfferedError, Offered, OutOfMemoryError, RefusedError, Report, StoppedError, UnknownReplyError,
    Verdict,
)
from .broker import AsyncBroker, Broker
from .dead_letters import DeadLetters
from .durations import Duration, Pauses
from .producer import AsyncProducer, Producer
from .request import Request
from .worker import AsyncWorker, Worker

__version__ = "2.0.0"

__all__ = [
    "Again", "AsyncBroker", "AsyncHeldJob", "AsyncProducer", "AsyncWorker", "Broker", "BrokerError", "Dead",
    "DeadLetters", "DisconnectedError", "Duration", "FullError", "Greeting", "HeldJob", "InDoubtError", "Job",
    "LostRun", "NotHeldError", "NotOfferedError", "Offered", "OutOfMemoryError", "Pauses", "Producer", "RefusedError",
    "Report", "Request", "StoppedError", "UnknownReplyError", "Verdict", "Worker", "__version__",
]
