"""The requests of a client of servers, each with its line and the reader of its reply, which is as strict as the
protocol: what is not the reply that is due raises `UnknownReplyError`."""
from __future__ import annotations

import re
from collections.abc import Callable, Iterator, Mapping
from dataclasses import dataclass
from typing import Generic, NoReturn, TypeVar

from rb_broker_formats.protocol import ATTEMPT, GREATEST_NUMBER, LONGEST_PAYLOAD, MOST_HELD, NUMBER, PAYLOAD

from .answers import REFUSALS, Again, BrokerError, Dead, Job, Offered, StoppedError, UnknownReplyError, Verdict
from .durations import Duration, nanoseconds

Answer = TypeVar("Answer")
Reader = Callable[[Iterator[bytes]], Answer]  # of a reply, of which it takes as many lines as there are

_WORDS = {"#": NUMBER, "@": ATTEMPT, "%": "|".join(map(str, range(MOST_HELD + 1))), "*": PAYLOAD}
_WAITS: Mapping[bytes, type[BrokerError]] = {**REFUSALS, b"STOPPED": StoppedError}


def demand(answer: Answer | Exception) -> Answer:
    """The answer, which is to be a value: an exception is raised."""
    if isinstance(answer, Exception):
        raise answer
    return answer


def _unknown(line: bytes) -> NoReturn:
    raise UnknownReplyError(line.decode("ascii", "backslashreplace"))


def _number(word: bytes) -> int:
    number = int(word)
    return number if number <= GREATEST_NUMBER else _unknown(word)


def _form(text: str, make: Callable[..., Answer]) -> Callable[[bytes], Answer]:
    # Makes the answer of a line of this form, from the words that vary.
    pattern = re.compile("".join(f"({_WORDS[it]})" if it in _WORDS else it for it in text).encode())
    are_texts = [it == "*" for it in text if it in _WORDS]

    def read(line: bytes) -> Answer:
        found = pattern.fullmatch(line) or _unknown(line)
        return make(*[it.decode() if is_text else _number(it) for it, is_text in zip(found.groups(), are_texts)])

    return read


def _reader(form: Callable[[bytes], Answer] = _unknown, exact: Mapping[bytes, Answer] = {},
            refusals: Mapping[bytes, type[BrokerError]] = REFUSALS) -> Reader[Answer]:
    # Of a reply that is of this form, or one of these lines.
    def read(lines: Iterator[bytes]) -> Answer:
        line = next(lines)
        if line in exact:
            return exact[line]
        if line in refusals:
            raise refusals[line](line.decode())
        return form(line)

    return read


_item, _head, _offered = _form("ITEM # # @ *", Job), _form("HEAD # # @ *", Job), _form("OFFERED # #", Offered)
_again, _size, _count = _form("AGAIN # #", Again), _form("SIZE #", int), _reader(_form("DRAINED %", int))
_NONE = {b"NONE": None}


def _plain(line: bytes, read: Reader[Answer], about: str) -> Callable[[], Request[Answer]]:
    # What makes a request that is always the same.
    def make() -> Request[Answer]:
        return Request(line, read)

    make.__name__, make.__doc__ = line.decode().lower(), about
    return staticmethod(make)


@dataclass
class Request(Generic[Answer]):
    """A request: its line without the line feed, and what reads its reply. A broker has a method for each. They are
    values here so that several can be sent in one piece: `broker.ask_all([Request.offer("a"), Request.size()])`."""

    line: bytes
    read: Reader[Answer]

    def __str__(self) -> str:
        return self.line.decode("utf-8", "replace")

    @classmethod
    def offer(cls, payload: str, *, delay: Duration = 0) -> Request[Offered]:
        """Offers an element that expires this delay from now. Raises `ValueError` for a payload that is not 1 to 64
        characters of printable ASCII without a space."""
        return Request(b"OFFER %d %s" % (nanoseconds(delay), _checked(payload)), _reader(_offered))

    @classmethod
    def offer_at(cls, payload: str, *, expires_at_ns: int) -> Request[Offered]:
        """Offers an element that expires at this moment of the server's clock, even a past one."""
        return Request(b"OFFERAT %d %s" % (expires_at_ns, _checked(payload)), _reader(_offered))

    poll = _plain(b"POLL", _reader(_item, _NONE), "Takes a job that has expired, or gives None if there is none.")
    take = _plain(b"TAKE", _reader(_item, refusals=_WAITS), """Takes a job, and waits until there is one. Nothing
        cancels the wait, and a program that is killed meanwhile may cost the next job an attempt, so a loop of
        `poll_for(1)` is better in a service.""")
    peek = _plain(b"PEEK", _reader(_head, _NONE), "Shows an element of least expiry, expired or not, or gives None.")
    clear = _plain(b"CLEAR", _reader(exact={b"CLEARED": None}), "Takes all elements out of the queue, expired or not.")
    size = _plain(b"SIZE", _reader(_size), "Counts the elements in the queue, expired or not.")
    quit = _plain(b"QUIT", _reader(exact={b"BYE": None}), "Ends the session. Nothing after it is served.")
    greeting = _plain(b"AT 0", _reader(exact={b"ERR 1 syntax": None}),
                      """Waits until the server serves this session, for which one of its workers must be free. It asks
        what each server refuses, which is no call.""")

    @classmethod
    def poll_for(cls, timeout: Duration) -> Request[Job | None]:
        """Takes a job, waiting for one up to this timeout. Gives None if none has expired."""
        return Request(b"POLLFOR %d" % nanoseconds(timeout), _reader(_item, _NONE, _WAITS))

    @classmethod
    def drain(cls, most: int) -> Request[list[Job]]:
        """Takes up to so many jobs that have expired, and no more than the session may hold."""
        return Request(b"DRAIN %d" % most, lambda lines: [_item(next(lines)) for _ in range(_count(lines))])

    @classmethod
    def done(cls, id: int) -> Request[None]:
        """The job that is held under this id is finished."""
        return Request(line := b"DONE %d" % id, _reader(exact={line: None}))

    @classmethod
    def fail(cls, id: int) -> Request[Verdict]:
        """The job that is held under this id failed now. Gives `Again` or `Dead`."""
        return Request(b"FAIL %d" % id, _reader(_again, {b"DEAD %d" % id: Dead(id)}))

    @classmethod
    def remove(cls, id: int) -> Request[bool]:
        """Takes the element of this id out, expired or not. Gives whether it was there."""
        return Request(b"REMOVE %d" % id, _reader(exact={b"REMOVED yes": True, b"REMOVED no": False}))


def _checked(payload: str) -> bytes:
    if not isinstance(payload, str):  # as None, which could be written as a text all the same
        raise TypeError(f"a payload is a str, not {type(payload).__name__}")
    if not re.fullmatch(PAYLOAD, payload):
        raise ValueError(f"a payload is 1 to {LONGEST_PAYLOAD} characters of printable ASCII, no space: {payload!r}")
    return payload.encode()
