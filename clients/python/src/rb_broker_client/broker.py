"""Sessions with a server: `Broker` blocks, and `AsyncBroker` is for asyncio."""

import json
import logging
import math
import os
import socket
import ssl
import threading
import time
import uuid
from collections import deque
from collections.abc import Callable, Coroutine, Iterable
from contextlib import AbstractContextManager, ExitStack
from functools import wraps
from operator import length_hint
from typing import Any, ClassVar, Concatenate, Generic, Self, TextIO

from rb_broker_formats.protocol import LONGEST_REPLY

from .answers import AsyncHeldJob, BrokerError, DisconnectedError, EndedError, Greeting, HeldJob, Job, UnknownReplyError
from .durations import Duration, seconds
from .request import Answer, Request, demand
from .servers import LOOPBACK, Address, Servers
from .waiting import Blocking, Kind, Looping, Words, blocking, run

log = logging.getLogger(__name__)

_NOT_NOW = (BlockingIOError, ssl.SSLWantReadError, ssl.SSLWantWriteError)
_RECORDING = threading.Lock()  # clients of several threads may write to one file, and one of these may fork
if hasattr(os, "register_at_fork"):
    os.register_at_fork(before=_RECORDING.acquire, after_in_parent=_RECORDING.release,
                        after_in_child=_RECORDING.release)


class Session:
    _kind: ClassVar[Kind]
    _socket: socket.socket  # once it is connected

    def __init__(self, port: int | str, host: str = LOOPBACK, patience: Duration | None = None, *,
                 tls: ssl.SSLContext | None = None, record: TextIO | None = None) -> None:
        """`port` may be `"gateway-1:7011,gateway-2:7011"`: the session is at the first that accepts it. A reply that
        does not come within `patience` raises `TimeoutError`. With `tls` the connection is encrypted.
        To `record`, a text file, a line is added for each request once it has its answer, or at the end: when it was
        sent, when its reply had come (null if that never came), its line, and the reply's lines."""
        self._servers, self._tls = Servers(port, host), tls
        self.patience = None if patience is None else seconds(patience)
        self._fault: Exception | None = RuntimeError("the broker is not connected")
        self._record, self._name = record, uuid.uuid4().hex
        self.unsent = bytearray()  # of the requests, what the connection has not taken yet
        self._due: deque[tuple[Request[Any], int]] = deque()  # requests without an answer, with when each was sent
        self._lines: deque[bytes] = deque()  # that came, and are not taken for a reply
        self._rest, self._came = b"", 0  # of a line of which more is to come, and when that came
        self._is_asking = False  # whether a thread or task waits for answers
        self._is_unclear = False  # which line answers which request, after an unknown reply
        self._has_begun = False  # whether a line has come
        self.greeting: Greeting | None = None  # what the server said first, if it is one that greets
        self.answers: deque[Any] = deque()  # those that nobody has taken, each refusal in its place
        self.at_end = ExitStack()
        if not self._kind.is_async:
            run(self._connect())

    @property
    def due_since(self) -> float:
        """Since when a reply is due and nothing came, by the monotonic clock, or infinity."""
        return max(self._due[0][1], self._came) / 1e9 if self._due else math.inf

    def fileno(self) -> int:
        """The descriptor of the connection, for a selector that waits until something comes."""
        return self._socket.fileno()

    def is_lost(self) -> bool:
        """Whether the session is known to have ended. This looks at what has come, and takes nothing of it."""
        try:
            return self._fault is not None or not socket.socket.recv(self._socket, 1, socket.MSG_PEEK)
        except _NOT_NOW:
            return False
        except ConnectionError:
            return True

    def receive(self) -> None:
        """Reads what has come."""
        try:
            while self._fault is None:
                piece = self._socket.recv(65_536)
                if not piece:
                    raise EndedError("the server closed the connection")
                self._came = time.monotonic_ns()
                *lines, self._rest = (self._rest + piece).split(b"\n")
                if len(self._rest) >= LONGEST_REPLY:
                    lines.append(self._rest)  # which is no reply, however it goes on
                self._lines.extend(lines)
                self._read()
                if self._tls is None:
                    break  # a selector tells of what is left, as it can't of what is decrypted
        except _NOT_NOW:
            pass
        except OSError as fault:
            self._fault = fault

    def close(self) -> None:
        """Hangs up. After that the session is of no more use."""
        self._fault = self._fault or DisconnectedError("this side hung up")
        self.at_end.close()
        for request, sent in self._due:  # what has no answer never gets one
            self._note(sent, None, request, [*self._lines])
            self._lines.clear()
        self._due.clear()
        self.answers.clear()

    def post(self, *requests: Request[Any]) -> None:
        """Sends requests in one piece, as far as the connection takes it now. The rest is sent with what follows."""
        sent = time.monotonic_ns()
        self._due.extend([(it, sent) for it in requests])
        self._read()
        self.unsent += b"".join([it.line + b"\n" for it in requests])
        self._demand()
        try:
            while self.unsent:
                del self.unsent[:self._socket.send(self.unsent)]
        except (*_NOT_NOW, BrokenPipeError):
            pass  # if the server has ended it, what came before is read first, and then the end

    def received(self) -> list[Any]:
        """The answers to what has come, each refusal in its place."""
        if not self.answers:
            self._demand()
        return [self.take_answer() for _ in range(len(self.answers))]

    async def _connect(self) -> None:
        if isinstance(self._fault, RuntimeError):
            self._socket = await self._kind.apart(self._connected)
            self.at_end.callback(self._socket.close)
            self._fault = None

    def _connected(self) -> socket.socket:
        while True:
            try:
                return self._connected_to(self._servers.current)
            except OSError:
                if self._servers.move_on():
                    raise  # of the last one

    def _connected_to(self, address: Address) -> socket.socket:
        made = socket.create_connection((address.host, address.port), timeout=self.patience)
        if made.getsockname() == made.getpeername():
            # Nobody listens, and the system gave this side the very port that it looks for: it found itself. To stay
            # connected would keep the port from the next server.
            made.close()
            raise ConnectionRefusedError(f"nobody listens at {address.name}")
        made.setsockopt(socket.IPPROTO_TCP, socket.TCP_NODELAY, 1)
        if self._tls is not None:
            made = self._tls.wrap_socket(made, server_hostname=address.host)
        made.setblocking(False)
        return made

    async def _ask(self, request: Request[Answer]) -> Answer:
        (answer,) = await self._ask_all([request])
        return demand(answer)

    async def _ask_all(self, requests: Iterable[Request[Any]]) -> list[Any]:
        """Sends any number of requests in one piece, and gives their answers: a refusal is one, and is not raised."""
        self._demand()
        if self._is_asking:
            raise RuntimeError("another thread or task waits for a reply in this session, which is for one at a time")
        if self._due or self.answers:
            raise RuntimeError("the wait for a reply was broken off, so that the session can only be closed")
        self._is_asking, answers = True, []
        try:
            self.post(*requests)
            while self._due or self.answers:
                deadline = math.inf if self.patience is None else time.monotonic() + self.patience
                while not self.answers:
                    self._demand()
                    if not await self.is_ready(deadline):
                        raise TimeoutError(f"the server did not answer within {self.patience} seconds")
                    self.receive()
                    if self.unsent:
                        self.post()
                answers.append(self._own(self.take_answer()))
        finally:
            self._is_asking = False
        return answers

    def _own(self, answer: Any) -> Any:
        for it in answer if isinstance(answer, list) else [answer]:
            if isinstance(it, Job):
                vars(it)["_session"] = self  # past the lock of a frozen class
        return answer

    async def _quit(self) -> None:
        """Ends the session, waits until the server has read so, and hangs up."""
        await self._ask(Request.quit())
        self.close()

    def _read(self) -> None:
        if self._lines and not self._has_begun:
            self._has_begun, self.greeting = True, Greeting.of(self._lines[0])
            if self.greeting is not None:
                self._lines.popleft()
        while self._lines and self._due and not self._is_unclear:
            request, sent = self._due[0]
            lines = iter(self._lines)
            try:
                answer = request.read(lines)
            except StopIteration:
                return  # lines of this reply are to come
            except BrokerError as instead:
                answer = instead
                self._is_unclear = isinstance(instead, UnknownReplyError)
            self._due.popleft()
            reply = [self._lines.popleft() for _ in range(len(self._lines) - length_hint(lines))]
            self._note(sent, self._came, request, reply)
            self.answers.append(answer)

    def _note(self, sent: int, came: int | None, request: Request[Any], reply: list[bytes]) -> None:
        if self._record is None:
            return
        told = [it.decode("utf-8", "backslashreplace") for it in reply]
        line = {"session": self._name, "sent": sent, "received": came, "request": str(request), "reply": told}
        try:
            with _RECORDING:
                self._record.write(json.dumps(line) + "\n")
                self._record.flush()  # in one piece: other processes may add to the file
        except (OSError, ValueError) as fault:  # a file that was closed is a ValueError
            log.error("the record can't be written, and ends here: %s", fault)
            self._record = None

    def take_answer(self) -> Any:
        """The first answer that was not taken, which there is. A reply that is none is raised."""
        answer = self.answers.popleft()
        if isinstance(answer, UnknownReplyError):
            self.close()  # which line answers which request is no longer known
            raise answer
        return answer

    def _demand(self) -> None:
        if self._fault is not None:
            raise self._fault

    async def is_ready(self, deadline: float) -> bool:
        """Waits until something can be read or, if something is to be, sent. Gives whether it can, by this deadline."""
        # A server reads no further while its replies are not read, so they are read while there is more to send.
        left = None if deadline == math.inf else max(deadline - time.monotonic(), 0)
        return await self._kind.ready(self._socket, bool(self.unsent), left)


_Method = Callable[Concatenate[Session, Words], Coroutine[Any, Any, Answer]]


def _asks(make: Callable[Words, Request[Answer]]) -> _Method[Words, Answer]:
    # The method that asks what this one makes.
    @wraps(make)
    async def ask(session: Session, /, *words: Words.args, **options: Words.kwargs) -> Answer:
        return await session._ask(make(*words, **options))

    return ask


class _Gives(Generic[Answer]):
    """What a method gives whose request gives jobs: those of its broker."""

    def by(self, make: Callable[Words, Request[Any]]) -> _Method[Words, Answer]:
        return _asks(make)


class AsyncBroker(Session):
    """A `Broker` for asyncio: `async with AsyncBroker(7011) as broker`. Its methods are coroutine functions."""

    _kind = Looping()

    offer = _asks(Request.offer)
    offer_at = _asks(Request.offer_at)
    poll = _Gives[AsyncHeldJob | None]().by(Request.poll)
    poll_for = _Gives[AsyncHeldJob | None]().by(Request.poll_for)
    take = _Gives[AsyncHeldJob]().by(Request.take)
    peek = _asks(Request.peek)
    drain = _Gives[list[AsyncHeldJob]]().by(Request.drain)
    done = _asks(Request.done)
    fail = _asks(Request.fail)
    remove = _asks(Request.remove)
    clear = _asks(Request.clear)
    size = _asks(Request.size)
    await_service = _asks(Request.greeting)
    ask_all = Session._ask_all
    quit = Session._quit

    async def __aenter__(self) -> Self:
        await self._connect()
        return self

    async def __aexit__(self, *fault: object) -> None:
        self.close()


class Broker(Session, AbstractContextManager["Broker"]):
    """One session with `rb_broker serve`, from the connection to its end. One thread or task at a time may use it.

    There is a method for each request, which gives its reply as a value. A refusal is raised as a kind of
    `RefusedError`, a lost connection as an `OSError`. If the wait for a reply is broken off, by `patience` or by the
    exception of a signal handler, the session can only be closed. The jobs that it holds fail when it ends."""

    _kind = Blocking()

    offer = blocking(AsyncBroker.offer)
    offer_at = blocking(AsyncBroker.offer_at)
    poll = blocking(_Gives[HeldJob | None]().by(Request.poll))
    poll_for = blocking(_Gives[HeldJob | None]().by(Request.poll_for))
    take = blocking(_Gives[HeldJob]().by(Request.take))
    peek = blocking(AsyncBroker.peek)
    drain = blocking(_Gives[list[HeldJob]]().by(Request.drain))
    done = blocking(AsyncBroker.done)
    fail = blocking(AsyncBroker.fail)
    remove = blocking(AsyncBroker.remove)
    clear = blocking(AsyncBroker.clear)
    size = blocking(AsyncBroker.size)
    await_service = blocking(AsyncBroker.await_service)
    ask_all = blocking(Session._ask_all)
    quit = blocking(Session._quit)

    def __exit__(self, *fault: object) -> None:
        self.close()
