"""The keys of a queue, in the order in which every function of broker.lua takes them."""
from __future__ import annotations

import re

PARTS = ("due", "ids", "held", "state", "history", "dead", "gateways", "opening")

MOST_NAME_BYTES = 64

_NAME = re.compile(r"[A-Za-z0-9_.:-]{1,%d}" % MOST_NAME_BYTES)


def checked_name(name: str) -> str:
    """The name of a queue. Raises `ValueError` if it is none: it is a part of keys, of folders and of messages."""
    if not _NAME.fullmatch(name):
        raise ValueError(f"{name!r} is no name of a queue: 1 to 64 letters, digits and any of _ . : -")
    return name


def keys_of(name: str) -> list[str]:
    """The eight keys. They have one hash tag, so that they are on one node of a cluster."""
    return [f"{{{checked_name(name)}}}:{part}" for part in PARTS]


def channel_of(name: str) -> str:
    """The channel at which an earlier head is published."""
    return f"{{{checked_name(name)}}}:head"
