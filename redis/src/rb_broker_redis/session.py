"""The session of one client: its lines go to the queue in their order, and their replies come back in it."""
from __future__ import annotations

import asyncio
import socket
from collections import deque
from typing import TYPE_CHECKING, cast

from rb_broker_formats.requests import Kind, LineCutter, kind_of_usual, read_request, refused

from .protocol import MOST_HELD, SECOND, ErrorReply
from .turns import FETCHES
from .waits import LATER, STOPPED, Wait

if TYPE_CHECKING:
    from .gateway import Gateway

MOST_AT_ONCE = 256
"""How many lines of a session go out together, at most."""

MOST_WAITING_LINES = 1_024
"""A client that has sent this many lines ahead is not read from until they are carried out."""

SECONDS_BETWEEN_ENDS = 0.1

KEPT_ALIVE = (
    ((socket.SOL_SOCKET, socket.SO_KEEPALIVE), 1), ((socket.IPPROTO_TCP, socket.TCP_KEEPIDLE), 60),
    ((socket.IPPROTO_TCP, socket.TCP_KEEPINTVL), 15), ((socket.IPPROTO_TCP, socket.TCP_KEEPCNT), 4),
)
"""The session of a client whose machine has vanished ends after two minutes."""

BYE = b"BYE\n"
NO_WAIT = b"POLLFOR 0"
TRUNCATED = refused(ErrorReply.LINE)


NO_PLAN: list[bytes | None] = []
"""Of lines to which the queue gives all replies."""

CALL, WAIT, QUIT, AT = Kind.CALL, Kind.WAIT, Kind.QUIT, Kind.AT

MORE_HELD = {b"ITEM": 1, b"DONE": -1, b"AGAI": -1, b"DEAD": -1, b"DRAI": 0}
"""How many more jobs a session holds behind a reply, by its first bytes. DRAINED says by itself how many it gave."""


class Session(asyncio.Protocol):
    """A connection of a client. While calls of it are under way it is busy, and further lines wait."""

    def __init__(self, gateway: Gateway) -> None:
        self._gateway = gateway
        self._submit, self._who_wait = gateway.calls.submit, gateway.waits.order
        self._cutter = LineCutter()
        self._lines: deque[bytes | None] = deque()
        """None is a line that the end of input has cut off."""
        self._transport: asyncio.Transport
        self._seat = b""
        """What stands before each of its calls: its number at the queue, and a space. Its lines wait for it."""
        self._plan = NO_PLAN
        """The replies to the lines that are carried out, with None for those that the queue gives; empty if it gives all."""
        self._wait_request = b""
        """The request of a plan that may have to wait."""
        self._wait: Wait | None = None
        self._is_busy = False
        self._has_called = False
        self._held = 0
        """How many jobs it holds."""
        self._is_retiring = False
        """It fetches nothing more, and ends once it holds nothing."""
        self._is_at_end = False
        """No further line comes: its client has closed its side, or it is to end."""
        self._is_gone = False
        """No reply can be sent any more."""
        self._is_over = False
        """Its end was sent to the queue."""
        self._is_full = False
        """Its client doesn't read its replies."""
        self._is_paused = False
        """Its client is not read from."""

    def connection_made(self, transport: asyncio.BaseTransport) -> None:
        self._transport = cast(asyncio.Transport, transport)
        for option, value in KEPT_ALIVE:
            transport.get_extra_info("socket").setsockopt(*option, value)
        self._gateway.begin(self)

    def sit(self, seat: bytes) -> None:
        """Gives it its seat."""
        self._seat = seat
        self._go_on()

    def data_received(self, data: bytes) -> None:
        if self._is_at_end or not self._is_busy and not self._cutter.rest and self._call_alone(data):
            return
        self._lines += self._cutter.cut(data)
        if not self._is_busy:
            self._go_on()
        if len(self._lines) > MOST_WAITING_LINES and not self._is_paused:
            self._is_paused = True
            self._transport.pause_reading()

    def eof_received(self) -> bool:
        if self._cutter.rest and not self._is_at_end:
            self._lines.append(None)
        self._come_to_end()
        # Replies are still sent. TLS has no such half of a connection.
        return self._transport.get_extra_info("sslcontext") is None

    def connection_lost(self, fault: Exception | None) -> None:
        self._leave()

    def pause_writing(self) -> None:
        self._is_full = self._is_paused = True
        self._transport.pause_reading()

    def resume_writing(self) -> None:
        self._is_full = False
        if not self._is_busy:
            self._go_on()

    def retire(self) -> None:
        """Fetches nothing more, and ends in good order once it holds nothing."""
        self._is_retiring = True
        if self._wait:
            self._gateway.waits.give_up(self._wait)
        elif not self._is_busy:
            self._go_on()

    def stop(self) -> None:
        """Ends it in good order: what is under way is answered, and no further line is carried out. If it has ended at
        the queue, what is under way is refused there."""
        self._lines.clear()
        self._come_to_end()

    def close(self) -> None:
        """Closes the connection: it is in doubt what became of a request, and no reply is made up."""
        self._transport.close()
        self._leave()

    def _come_to_end(self) -> None:
        """No further line comes: gives a wait up."""
        self._is_at_end = True
        if self._wait:
            self._gateway.waits.give_up(self._wait)
        elif not self._is_busy:
            self._go_on()

    def _go_on(self) -> None:
        """Carries out the next lines, up to one that may wait."""
        if self._is_retiring and not self._held:
            self._come_to_rest()
        if self._lines and self._seat and not self._is_full:
            self._is_busy = True
            calls = self._calls_of_next()
            if self._wait_request and not calls:  # it fetches nothing more
                seconds = self._gateway.waits.longest / SECOND
                asyncio.get_running_loop().call_later(seconds, self._wait_ended, STOPPED)
            elif calls:
                self._has_called = True
                self._submit(calls, self._answered)
            elif self._lines:  # other sessions come before more refusals of this one
                asyncio.get_running_loop().call_soon(self._answered, [])
            else:
                self._answered([])
            return
        if self._is_paused and not self._lines and not self._is_full:
            self._is_paused = False
            self._transport.resume_reading()
        if self._is_at_end and not self._lines:
            self._end()

    def _come_to_rest(self) -> None:
        """No further line is carried out."""
        self._lines.clear()
        self._is_at_end = True

    def _call_alone(self, data: bytes) -> bool:
        """Carries out what came if it is one line that nothing waits before, as it is most often, and needs only a
        call."""
        if self._lines or self._is_retiring or self._is_full or not self._seat or data[-1:] != b"\n":
            return False
        line = data[:-1]
        kind = kind_of_usual(line)
        if kind is WAIT:
            line = self._call_that_may_wait(line, True)
        elif kind is not CALL:
            return False
        self._is_busy = self._has_called = True
        self._submit([self._seat + line], self._answered)
        return True

    def _calls_of_next(self) -> list[bytes]:
        lines, seat, is_retiring = self._lines, self._seat, self._is_retiring
        calls: list[bytes] = []
        plan: list[bytes | None] = []
        while lines and len(plan) < MOST_AT_ONCE:
            line = lines.popleft()
            kind, text = read_request(line) if line is not None else TRUNCATED
            if is_retiring and text.startswith(FETCHES):
                if kind is not WAIT:
                    # To end the session would cost its jobs an attempt, and no job is hidden by a reply that denies it.
                    plan.append(ErrorReply.MEMORY)
                    continue
                if plan:
                    lines.appendleft(line)
                else:
                    self._wait_request = text
                break
            if kind is CALL:
                calls.append(seat + text)
                plan.append(None)
            elif kind is WAIT:
                calls.append(seat + self._call_that_may_wait(text, not plan))
                break
            elif kind is QUIT:
                self._come_to_rest()
                plan.append(BYE)
                break
            else:
                plan.append(ErrorReply.SYNTAX if kind is AT else text)
        self._plan = plan if any(plan) else NO_PLAN
        return calls

    def _call_that_may_wait(self, request: bytes, is_first: bool) -> bytes:
        """The call of a TAKE or a POLLFOR. What calls before it let the session hold is not known yet."""
        self._wait_request = request
        call = b"WAIT" if self._who_wait and request != NO_WAIT else request
        return call.lower() if is_first and self._held < MOST_HELD else call

    def _answered(self, replies: list[bytes] | None) -> None:
        """The calls that were under way are answered: sends the replies."""
        self._is_busy = False
        if replies is None:
            self.close()
            return
        later = None
        if self._wait_request:
            if replies[-1].startswith(LATER):
                later = replies.pop()
            else:
                self._wait_request = b""
        for reply in replies:
            more = MORE_HELD.get(reply[:4])
            if more is not None:
                self._held += more or int(reply.partition(b"\n")[0].split(b" ")[1])
        if self._plan:
            given, plan, self._plan = iter(replies), self._plan, NO_PLAN
            replies = [next(given) if reply is None else reply for reply in plan] + list(given)
        if replies and not self._is_gone:
            self._transport.write(replies[0] if len(replies) == 1 else b"".join(replies))
        if later:
            self._begin_wait(later)
        elif self._lines or self._is_at_end or self._is_paused or self._is_retiring:
            self._go_on()

    def _begin_wait(self, later: bytes) -> None:
        request, self._wait_request = self._wait_request, b""
        if self._is_at_end:
            self._wait_ended(STOPPED)
            return
        self._is_busy = True
        self._wait = self._gateway.waits.begin(self._seat, request, later, self._wait_ended)

    def _wait_ended(self, reply: bytes | None) -> None:
        self._wait = None
        self._answered(None if reply is None else [reply])

    def _leave(self) -> None:
        """Its client gets no further reply: fetches nothing more for it, and ends."""
        self._lines.clear()
        self._is_gone = self._is_at_end = True
        if self._wait:
            self._gateway.waits.give_up(self._wait)
        elif self._is_busy:
            self._gateway.calls.withhold(self._seat)
        else:
            self._end()

    def _end(self) -> None:
        """Ends the session at the queue, and then closes the connection."""
        if self._is_over:
            return
        self._is_over = True
        if self._has_called:
            self._submit_end()
        else:
            self._ended([b"ENDED 0\n"])

    def _submit_end(self) -> None:
        self._submit([self._seat + b"END"], self._ended)

    def _ended(self, replies: list[bytes] | None) -> None:
        if replies is None:  # a seat's end may be made twice
            asyncio.get_running_loop().call_later(SECONDS_BETWEEN_ENDS, self._submit_end)
            return
        self._transport.close()
        self._gateway.end(self, int(replies[0].split()[1]))
