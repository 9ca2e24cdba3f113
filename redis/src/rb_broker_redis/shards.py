"""One name over several queues: which of them gets a payload, and the ids that a client sees.

Each shard is a queue of its own: `jobs` with three shards is `jobs.0`, `jobs.1` and `jobs.2`.
"""
from __future__ import annotations

import hashlib

MOST_SHARDS = 64


def shard_names(queue: str, count: int) -> list[str]:
    """The names of the queues. A queue of one shard is the queue itself."""
    if not 1 <= count <= MOST_SHARDS:
        raise ValueError(f"there are 1 to {MOST_SHARDS} shards")
    return [queue] if count == 1 else [shard_name(queue, it) for it in range(count)]


def shard_name(queue: str, shard: int) -> str:
    """The name of one of several."""
    return f"{queue}.{shard}"


class Rendezvous:
    """Picks the queue of each payload: the one whose score for it is the greatest.

    So a shard that is added takes over only the payloads that it gets. The score is the first 8 bytes, as a big-endian
    number, of the SHA-256 of the queue's name, a line feed, and the payload. It must stay as it is: jobs would change
    their queues otherwise. SHA-256 is part of every language's library, so other programs can pick the same queue.
    """

    def __init__(self, names: list[str]) -> None:
        self._prefixes = [f"{name}\n".encode() for name in names]

    def shard_of(self, payload: bytes) -> int:
        """The index of the queue that gets this payload."""
        return max(range(len(self._prefixes)), key=lambda it: hashlib.sha256(self._prefixes[it] + payload).digest()[:8])


def outer_id(shard: int, id: int) -> int:
    """The id that a client sees. It stays the same whatever the number of shards, and is below 2^46."""
    return id * MOST_SHARDS + shard


def inner_id(outer: int) -> tuple[int, int]:
    """The shard, and the id in its queue, of an id that a client sends."""
    id, shard = divmod(outer, MOST_SHARDS)
    return shard, id
