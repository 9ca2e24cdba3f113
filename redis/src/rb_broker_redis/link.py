"""One connection to a Redis."""
from __future__ import annotations

import asyncio
import contextlib
import ssl
from collections import deque
from collections.abc import Awaitable, Callable, Iterator
from typing import TypeVar, cast

from .address import Address
from .resp import Answer, ErrorAnswer, command, reader

Answered = TypeVar("Answered")


class Link(asyncio.Protocol):
    """Answers come in the order of what was sent. Once the connection is lost, `lost` is set, and no further answer
    comes. A Redis that does not answer for `patience` seconds is given up. `heard` gets what it sends unasked, to a
    connection that subscribes."""

    def __init__(self, patience: float, heard: Callable[[bytes], None] | None = None) -> None:
        self.lost, self._patience, self._heard = asyncio.Event(), patience, heard
        self.place = ("", 0)
        """The host and the port to which it leads."""
        self._answers: deque[Callable[[Answer], None]] = deque()
        self._asked: set[asyncio.Future[Answer]] = set()
        self._reader = reader()
        self._transport: asyncio.Transport

    def connection_made(self, transport: asyncio.BaseTransport) -> None:
        self._transport = cast(asyncio.Transport, transport)

    def data_received(self, data: bytes) -> None:
        gets = self._reader.gets
        self._reader.feed(data)
        while (answer := gets()) is not False:
            if self._heard and isinstance(answer, list) and answer[0] == b"message":
                self._heard(answer[2])
            else:
                self._answers.popleft()(answer)

    def connection_lost(self, fault: Exception | None) -> None:
        self.lost.set()
        for asked in self._asked:
            if not asked.done():
                asked.set_exception(ConnectionError("the connection is lost"))

    def send(self, data: bytes, *answers: Callable[[Answer], None]) -> None:
        """Sends commands; each answer is handed to its function."""
        self._answers.extend(answers)
        self._transport.write(data)

    async def ask(self, *words: bytes | str | int) -> Answer:
        """Makes one command. Raises its `ErrorAnswer`, or a `ConnectionError` if no answer comes, or none in time."""
        if self.is_closed:  # what uvloop says of it is no `OSError`
            raise ConnectionError("the connection is closed")
        asked: asyncio.Future[Answer] = asyncio.get_running_loop().create_future()
        self._asked.add(asked)
        asked.add_done_callback(self._asked.discard)
        self.send(command(*words), lambda answer: None if asked.done() else asked.set_result(answer))
        answer = await answer_of(asked, self._patience)
        if isinstance(answer, ErrorAnswer):
            raise answer
        return answer

    @property
    def is_closed(self) -> bool:
        """Whether nothing can be sent any more."""
        return self._transport.is_closing()

    def close(self) -> None:
        """Closes the connection at once, so that it is lost."""
        self._transport.abort()


@contextlib.contextmanager
def closed_on_failure(link: Link) -> Iterator[None]:
    """Closes the connection if something fails here."""
    try:
        yield
    except BaseException:
        link.close()
        raise


async def answer_of(asked: Awaitable[Answered], patience: float) -> Answered:
    """What was asked for. Raises a `ConnectionError` if that does not come in so many seconds."""
    try:
        async with asyncio.timeout(patience):
            return await asked
    except TimeoutError:
        raise ConnectionError("it does not answer") from None


async def is_set_in_time(event: asyncio.Event, seconds: float) -> bool:
    """Waits until something has come about, or for so long. Whether it has."""
    with contextlib.suppress(TimeoutError):
        async with asyncio.timeout(seconds):
            await event.wait()
    return event.is_set()


async def connect(
    host: str, port: int, address: Address, patience: float, heard: Callable[[bytes], None] | None = None
) -> Link:
    """A connection to this node, with the login and the TLS of the address. Raises `OSError` or `ErrorAnswer`."""
    loop = asyncio.get_running_loop()
    opening = loop.create_connection(lambda: Link(patience, heard), host, port, ssl=tls_of(address))
    _, link = await answer_of(opening, patience)
    link.place = (host, port)
    with closed_on_failure(link):
        if address.password:
            await link.ask("AUTH", *([address.username] if address.username else []), address.password)
        if address.database:
            await link.ask("SELECT", address.database)
    return link


def tls_of(address: Address) -> ssl.SSLContext | None:
    """What a TLS connection to this address needs: the options of its URL are redis-py's."""
    if not address.is_tls:
        return None
    context = ssl.create_default_context(cafile=address.options.get("ssl_ca_certs"))
    certificate = address.options.get("ssl_certfile")
    if certificate:
        context.load_cert_chain(certificate, address.options.get("ssl_keyfile"))
    context.check_hostname = address.checks_name
    return context
