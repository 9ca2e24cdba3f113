"""Where a server is, or several that serve one queue, such as the gateways of a queue in a Redis."""

import re
from collections.abc import Callable
from typing import Any, NamedTuple, TypeVar

LOOPBACK = "127.0.0.1"
Made = TypeVar("Made")

_ADDRESS = re.compile(r"(?:\[([^][,\s]+)\]|([^][:,\s]+)):([0-9]{1,5})")


class Address(NamedTuple):
    """A host and a port, and what a log or an error calls them."""

    host: str
    port: int
    name: str


def read_addresses(text: str) -> list[Address]:
    """Those of `HOST:PORT,HOST:PORT`. Raises `ValueError` with a part that is wrong, as is one that stands twice."""
    addresses: list[Address] = []
    for part in text.split(","):
        found = _ADDRESS.fullmatch(part)
        if found is None or not 1 <= int(found[3]) <= 65_535:
            raise ValueError(f"{part!r} is no address, such as gateway-1:7011 or [::1]:7011")
        address = Address(found[1] or found[2], int(found[3]), part)
        if any(it[:2] == address[:2] for it in addresses):
            raise ValueError(f"the address {part} stands twice")
        addresses.append(address)
    return addresses


class Servers:
    """The addresses of a client. One is used until it serves no more, then the next, and after the last the first."""

    def __init__(self, port: int | str, host: str = LOOPBACK, **options: Any) -> None:
        """`port` may be a text of addresses. Raises `ValueError`, or `TypeError` if it is neither one nor a number."""
        if isinstance(port, str) and re.search("[:,]", port):
            self._all = read_addresses(port)
            if host != LOOPBACK:
                raise ValueError(f"the addresses {port} name their hosts, so {host} can't be one")
        elif not isinstance(port, int):
            raise TypeError(f"a port is a whole number, not {port!r}")
        elif not 1 <= port <= 65_535:
            raise ValueError(f"a port is from 1 to 65535, not {port}")
        else:
            self._all = [Address(host, port, f"{host}:{port}")]
        self._options, self._index, self._failed = options, 0, 0

    def __len__(self) -> int:
        return len(self._all)

    @property
    def current(self) -> Address:
        """The one that serves, or is tried next."""
        return self._all[self._index]

    def served(self) -> None:
        """The current one has served: the others are tried at once when it does no more."""
        self._failed = 0

    def move_on(self) -> bool:
        """The current one does not serve, or no more. Gives whether none has since `served`, so that a pause is due."""
        self._index = (self._index + 1) % len(self._all)
        self._failed = (self._failed + 1) % len(self._all)
        return self._failed == 0

    def session(self, kind: Callable[..., Made], patience: float) -> Made:
        return kind(self.current.port, self.current.host, patience, **self._options)
