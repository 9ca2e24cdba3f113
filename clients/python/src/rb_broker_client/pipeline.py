"""A session that threads or tasks share: their requests go out as they come, and each is handed its reply."""

import threading
import time
from collections import deque
from collections.abc import Callable
from typing import Any

from .answers import DisconnectedError, UnknownReplyError
from .broker import Session
from .request import Answer, Request, demand


class _Call:
    """A request that was sent, and who waits for its reply."""

    def __init__(self, take: Callable[[Any], object]) -> None:
        self.take = take  # what is called with the answer
        self.answer: Any = None  # or an exception
        self.is_answered = self.is_given_up = False
        self.bell: Any = None  # where it sleeps while another reads

    def settle(self, answer: Any) -> None:
        """Its reply has come, or never will."""
        if not isinstance(answer, Exception):
            self.take(answer)
        self.answer, self.is_answered = answer, True
        self.wake()

    def wake(self) -> bool:
        """Wakes who sleeps. Gives whether somebody does."""
        bell, self.bell = self.bell, None
        if bell is not None:
            bell.release()
        return bell is not None


class Pipeline:
    """The requests of several callers in one session, which is served. One of those that wait reads for all until its
    own reply has come; then another goes on. Once nobody waits for the replies that are due the session is closed."""

    def __init__(self, session: Session) -> None:
        self.session, self._kind = session, session._kind
        self._lock = threading.Lock()  # in which nobody waits
        self._calls: deque[_Call] = deque()  # whose replies have not come
        self._is_read = self.is_left = False  # whether somebody reads, and whether it takes no request any more
        self.end = self._kind.bell()  # which can be acquired once it has hung up

    async def ask(self, request: Request[Answer], deadline: float, take: Callable[[Answer], object]) -> Answer | None:
        """Sends a request, and gives its answer, or None if it was not sent. `take` is called with each that is no
        exception, in the order of the requests. Raises `TimeoutError` at the deadline, and `OSError` if it is lost."""
        call, sent = _Call(take), time.monotonic()
        with self._lock:
            if not self._is_read:
                self._hear()  # who reads knows first if the session is lost
            if self.is_left:
                return None
            self._calls.append(call)
            self._send(request)
        try:
            while not call.is_answered:
                if not await self._wait(call, deadline):
                    raise TimeoutError(f"no reply came within {time.monotonic() - sent:.1f} seconds")
        finally:
            with self._lock:
                call.is_given_up = not call.is_answered
                self._pass_on()
        return demand(call.answer)

    def leave(self) -> None:
        """Takes no request any more, and hangs up once nobody waits."""
        with self._lock:
            self.is_left = True
            self._pass_on()

    async def _wait(self, call: _Call, deadline: float) -> bool:
        with self._lock:
            if call.is_answered:
                return True
            reads, self._is_read = not self._is_read, True
            if not reads:
                call.bell = bell = self._kind.bell()
        if not reads:
            return await self._kind.acquire(bell, max(deadline - time.monotonic(), 0))
        try:
            while not call.is_answered and await self.session.is_ready(deadline):
                with self._lock:
                    self._hear()
            return call.is_answered
        finally:
            self._is_read = False  # whereupon `ask` wakes another

    def _hear(self) -> None:
        self.session.receive()
        self._send()

    def _send(self, *requests: Request[Any]) -> None:
        try:
            self._hand_out()  # what came before the session was lost
            self.session.post(*requests)
            self._hand_out()
        except (OSError, UnknownReplyError) as fault:
            self._lose(fault)

    def _hand_out(self) -> None:
        while self._calls and self.session.answers:
            answer = self.session.take_answer()
            self._calls.popleft().settle(answer)

    def _lose(self, fault: Exception) -> None:
        self.is_left = True
        while self._calls:
            self._calls.popleft().settle(fault)
            if isinstance(fault, UnknownReplyError):  # which answers the first
                fault = DisconnectedError(f"the server sent a line that answers no request: {fault}")

    def _pass_on(self) -> None:
        # Somebody is to read for those that wait, or, if nobody does, the session is to end in which something is due.
        if self._is_read:
            return
        if not all(it.is_given_up for it in self._calls):
            any(it.wake() for it in self._calls if not it.is_given_up)
        elif self.is_left or self._calls:
            self.is_left = True
            self.session.close()
            self.end.release()
