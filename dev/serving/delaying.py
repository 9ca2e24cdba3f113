"""A proxy that delays, as a network does: what comes is passed on later, each way, in the order in which it came.

As a program it serves until it is ended: delaying.py PORT MILLISECONDS, which are those of a round trip.
"""
import asyncio
import ssl
import sys
import threading
from collections.abc import Awaitable, Callable


class DelayingProxy:
    """Leads from a free port of 127.0.0.1 to this port of it. A round trip takes so many seconds more. With a context
    its own port has TLS."""

    def __init__(self, port: int, round_trip: float, tls: ssl.SSLContext | None = None) -> None:
        self._to, self._delay, self._tls = port, round_trip / 2, tls
        self._loop, self._listens = asyncio.new_event_loop(), threading.Event()
        self._thread = threading.Thread(target=self._loop.run_until_complete, args=[self._serve()], daemon=True)
        self._thread.start()
        self._listens.wait()

    def close(self) -> None:
        self._loop.call_soon_threadsafe(self._is_over.set)
        self._thread.join()
        self._loop.close()

    def wait(self) -> None:
        """Serves until it is closed."""
        self._thread.join()

    async def _serve(self) -> None:
        self._is_over = asyncio.Event()
        server = await asyncio.get_running_loop().create_server(
            lambda: _Side(self._connect, self._delay), "127.0.0.1", ssl=self._tls)
        self.port = server.sockets[0].getsockname()[1]
        self._listens.set()
        await self._is_over.wait()
        server.close()

    async def _connect(self, near: "_Side") -> None:
        connect = asyncio.get_running_loop().create_connection
        await connect(lambda: _Side(lambda far: near.lead_to(far), self._delay), "127.0.0.1", self._to)


class _Side(asyncio.Protocol):
    """One side of a connection. What comes before the other side is there waits for it."""

    def __init__(self, meet: Callable[["_Side"], Awaitable[None] | None], delay: float) -> None:
        self._meet, self._delay = meet, delay
        self._other: _Side | None = None
        self._came: list[bytes | None] = []  # before the other side was there

    def connection_made(self, transport: asyncio.BaseTransport) -> None:
        self.transport = transport
        asyncio.ensure_future(self._made())

    async def _made(self) -> None:
        try:
            if waits := self._meet(self):
                await waits
        except OSError:
            self.transport.abort()

    def lead_to(self, far: "_Side") -> None:
        """From now on each side leads to the other."""
        self._other, far._other = far, self
        for data in self._came:
            self._pass_on(data)

    def data_received(self, data: bytes) -> None:
        self._pass_on(data) if self._other else self._came.append(data)

    def connection_lost(self, _: Exception | None) -> None:
        self._pass_on(None) if self._other else self._came.append(None)

    def _pass_on(self, data: bytes | None) -> None:
        other = self._other.transport
        asyncio.get_running_loop().call_later(self._delay, *((other.close,) if data is None else (other.write, data)))


if __name__ == "__main__":
    proxy = DelayingProxy(int(sys.argv[1]), float(sys.argv[2]) / 1_000)
    print(proxy.port, flush=True)
    proxy.wait()
