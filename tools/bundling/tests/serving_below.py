"""Runs of an installed service."""
from contextlib import contextmanager
from pathlib import Path
from typing import Iterator

from servicing.tests.process import Client, Service

FEW = ("--workers", "4", "--sessions", "40", "--calls", "1000")


@contextmanager
def serving(root: Path, folder: Path, *options: str, library: Path | None = None) -> Iterator[Service]:
    """A service that is installed below a root, as the unit runs it with these options. A library may be loaded before
    its own. At the end it is stopped as systemd does."""
    before = ["env", f"LD_PRELOAD={library}"] if library else []
    service = Service(str(folder), *options, command=[*before, f"{root}/usr/bin/rb_broker_service"])
    try:
        service.wait("serving")
        yield service
    finally:
        if service.process.poll() is None:
            service.stop()


def talk(port: int, *requests: str) -> str:
    """The replies to a client that sends all its requests, of which the last is QUIT."""
    with Client(port) as client:
        client.greeted().send(*requests)
        return client.rest().decode("ascii")
