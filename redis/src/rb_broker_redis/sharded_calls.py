"""The calls of sessions at one name over several queues. docs/SCALING.md says what is then no longer true."""
from __future__ import annotations

import asyncio
from collections.abc import Iterable, Sequence
from itertools import groupby

from .calls import Calls
from .protocol import MOST_HELD, ErrorReply
from .shards import Rendezvous, inner_id, outer_id
from .turns import UNCOUNTED, Answered
from .waits import LATER, laters_in

BY_PAYLOAD = (b"OFFER", b"OFFERAT")
BY_ID = (b"DONE", b"FAIL", b"REMOVE")
OF_ALL = (b"PEEK", b"SIZE", b"CLEAR", b"END")
NOT_THERE = {b"DONE": ErrorReply.NOT_HELD, b"FAIL": ErrorReply.NOT_HELD, b"REMOVE": b"REMOVED no\n"}
NAMES_AN_ELEMENT = (b"OFFERED", b"ITEM", b"HEAD", b"DONE", b"AGAIN", b"DEAD")


class InDoubt(Exception):
    """It is not known whether calls were made."""


def word_of(request: bytes) -> bytes:
    """What a request asks for."""
    return request.partition(b" ")[0]


class ShardedCalls:
    """Takes the place of the calls of one queue."""

    def __init__(self, queues: Sequence[Calls], names: Sequence[str]) -> None:
        self.queues = queues
        self.rendezvous = Rendezvous(list(names))
        self._sessions: dict[bytes, _Session] = {}
        self._under_way: set[asyncio.Task[None]] = set()

    def submit(self, calls: list[bytes], answered: Answered) -> None:
        """Makes these calls of one session, one after the other."""
        session = self._session(calls[0].partition(b" ")[0])
        requests = [it.upper() if it.startswith(UNCOUNTED) else it for it in (call.partition(b" ")[2] for call in calls)]
        task = asyncio.ensure_future(self._carry_out(session, requests, answered))
        self._under_way.add(task)
        task.add_done_callback(self._under_way.discard)

    async def _carry_out(self, session: _Session, requests: list[bytes], answered: Answered) -> None:
        try:
            replies: list[bytes] | None = await session.replies_to(requests)
        except InDoubt:
            replies = None
        answered(replies)

    def withhold(self, front: bytes) -> None:
        """The session before whose calls this stands has left: nothing more is fetched for it."""
        if front.strip() in self._sessions:
            self._sessions[front.strip()].has_left = True
        for number, queue in enumerate(self.queues):
            queue.withhold(self.front_of(number, front))

    def seat_of(self, session: int) -> bytes:
        """What a session is called here. At each queue it has a seat of its own."""
        return b"%d" % session

    def front_of(self, queue: int, seat: bytes) -> bytes:
        """What stands before a session's calls at a queue, at which its gateway has a number of its own."""
        return self.queues[queue].seat_of(int(seat)) + b" "

    def seen(self, queue: int, seat: bytes, reply: bytes) -> bytes:
        """A reply of a queue as the session's client gets it."""
        return self._session(seat.strip()).seen(queue, reply)

    def forget(self, seat: bytes) -> None:
        """The session has ended."""
        self._sessions.pop(seat, None)

    def _session(self, seat: bytes) -> _Session:
        if seat not in self._sessions:
            self._sessions[seat] = _Session(self, seat)
        return self._sessions[seat]


class _Session:
    """Its calls are made in their order: those that concern one queue each go out together, up to one that concerns
    several."""

    def __init__(self, calls: ShardedCalls, seat: bytes) -> None:
        self._calls, self._seat = calls, seat
        self._held: set[bytes] = set()
        """The ids of the jobs that it holds."""
        self.has_left = False
        """Nobody gets the replies any more."""

    async def replies_to(self, requests: Iterable[bytes]) -> list[bytes]:
        """Makes the calls. Raises `InDoubt`."""
        replies: list[bytes] = []
        for have_one_queue, some in groupby(requests, lambda it: word_of(it) in (*BY_PAYLOAD, *BY_ID)):
            if have_one_queue:
                replies += await self._at_their_queues(list(some))
            else:
                replies += [await (self._of_all if word_of(it) in OF_ALL else self._fetch)(it) for it in some]
        return replies

    def seen(self, queue: int, reply: bytes) -> bytes:
        """A reply with the ids that the client sees. Keeps what the session holds."""
        return b"".join(self._seen_line(queue, line) for line in reply.splitlines(keepends=True))

    def _seen_line(self, queue: int, line: bytes) -> bytes:
        word, *rest = line[:-1].split(b" ")
        if word not in NAMES_AN_ELEMENT:
            return line
        rest[0] = b"%d" % outer_id(queue, int(rest[0]))
        if word == b"ITEM":
            self._held.add(rest[0])
        return b" ".join([word, *rest]) + b"\n"

    async def _at_their_queues(self, requests: list[bytes]) -> list[bytes]:
        """Makes calls that concern one queue each."""
        queues = [self._queue_of(it) for it in requests]
        by_queue: dict[int, list[bytes]] = {}
        for queue, request in zip(queues, requests):
            if queue is not None:
                by_queue.setdefault(queue, []).append(_inner(request))
        given = {queue: iter(it) for queue, it in (await self._ask(by_queue)).items()}
        return [NOT_THERE[word_of(request)] if queue is None else self._told(queue, request, next(given[queue]))
                for queue, request in zip(queues, requests)]

    def _queue_of(self, request: bytes) -> int | None:
        """The queue of a request that names a payload or an id, or None if there is no such queue."""
        word, argument, *payload = request.split(b" ")
        if word in BY_PAYLOAD:
            return self._calls.rendezvous.shard_of(payload[0])
        queue, _ = inner_id(int(argument))
        return queue if queue < len(self._calls.queues) else None

    def _told(self, queue: int, request: bytes, reply: bytes) -> bytes:
        """The reply to a call at its queue. A job that is done, fails, or is not held, is held no more."""
        word, argument, *_ = request.split(b" ")
        if word in (b"DONE", b"FAIL") and not reply.startswith((ErrorReply.MEMORY, ErrorReply.FULL)):
            self._held.discard(argument)
        return self.seen(queue, reply)

    async def _of_all(self, request: bytes) -> bytes:
        """Makes one call at every queue, and joins the replies."""
        replies = list((await self._ask_each(range(len(self._calls.queues)), request)).values())
        if request == b"CLEAR":
            return replies[0]
        if request == b"PEEK":
            heads = [(int(it.split()[2]), queue) for queue, it in enumerate(replies) if it.startswith(b"HEAD")]
            return self.seen(min(heads)[1], replies[min(heads)[1]]) if heads else replies[0]
        if request == b"END":
            self._calls.forget(self._seat)
        return b"%b %d\n" % (word_of(replies[0]), sum(int(it.split()[1]) for it in replies))

    async def _fetch(self, request: bytes) -> bytes:
        """POLL, TAKE, POLLFOR, DRAIN or WAIT: asks every queue whose node is there, or all if none is, when its
        earliest element expires, and then those that have one which has expired, the earliest first."""
        word = word_of(request)
        if self._free <= 0 and word != b"DRAIN":
            return ErrorReply.HELD
        there = [queue for queue, calls in enumerate(self._calls.queues) if calls.is_connected]
        told = await self._ask_each(there or range(len(self._calls.queues)), b"WAIT")
        refused = [it for it in told.values() if not it.startswith(LATER)]
        if refused:
            return refused[0]
        # Of a queue that is away no element is known, and a wait for it begins when others do.
        away = b"LATER - " + next(iter(told.values())).split(b" ", 2)[2]
        waits = [told.get(queue, away) for queue in range(len(self._calls.queues))]
        if word == b"WAIT" or self.has_left:
            return _joined(waits)
        laters = [laters_in(it)[0] for it in waits]
        due = sorted((it.head, queue) for queue, it in enumerate(laters) if it.head is not None and it.head <= it.now)
        queues = [queue for _, queue in due]
        if word == b"DRAIN":
            return await self._drain(queues or [0], min(int(request.split()[1]), self._free))
        if not queues and word == b"POLL" or request == b"POLLFOR 0":
            queues.append(0)  # it is a call of one queue all the same
        reply = b""
        for queue in queues:
            start = b" " + laters[queue].start if word == b"POLLFOR" else b""
            reply = await self._ask_one(queue, request + start)
            if not reply.startswith((LATER, b"NONE")):
                return self.seen(queue, reply)
            if reply.startswith(LATER):
                waits[queue] = reply
        return reply if word == b"POLL" or request == b"POLLFOR 0" else _joined(waits)

    async def _drain(self, queues: Iterable[int], most: int) -> bytes:
        items: list[bytes] = []
        for queue in queues:
            reply = await self._ask_one(queue, b"DRAIN %d" % (most - len(items)))
            if reply.startswith(b"DRAINED"):
                items += self.seen(queue, reply).splitlines(keepends=True)[1:]
            elif not items:
                return reply
            if len(items) >= most or not reply.startswith(b"DRAINED"):
                break
        items.sort(key=lambda it: int(it.split()[2]))
        return b"DRAINED %d\n" % len(items) + b"".join(items)

    @property
    def _free(self) -> int:
        """How many more jobs the session may hold."""
        return MOST_HELD - len(self._held)

    async def _ask(self, requests: dict[int, list[bytes]]) -> dict[int, list[bytes]]:
        """Makes calls at several queues at once. Gives the replies of each. Raises `InDoubt`."""
        loop, asked = asyncio.get_running_loop(), {}
        for queue, its_requests in requests.items():
            front, asked[queue] = self._calls.front_of(queue, self._seat), loop.create_future()
            self._calls.queues[queue].submit([front + it for it in its_requests], asked[queue].set_result)
        replies = {queue: await it for queue, it in asked.items()}
        if None in replies.values():
            raise InDoubt
        return replies

    async def _ask_each(self, queues: Iterable[int], request: bytes) -> dict[int, bytes]:
        """Makes one call at each of these queues."""
        return {queue: reply for queue, (reply,) in (await self._ask({it: [request] for it in queues})).items()}

    async def _ask_one(self, queue: int, request: bytes) -> bytes:
        return (await self._ask_each([queue], request))[queue]


def _inner(request: bytes) -> bytes:
    """The request with the id that its queue knows."""
    word, argument, *_ = request.split(b" ")
    return b"%b %d" % (word, inner_id(int(argument))[1]) if word in BY_ID else request


def _joined(laters: Iterable[bytes]) -> bytes:
    """The LATER of each queue as one."""
    return b"LATER %b\n" % b" ".join(it[len(b"LATER "):-1] for it in laters)
