"""How a command ends that can't go on."""
from __future__ import annotations

import sys

import redis
from redis.exceptions import RedisClusterException

from rb_broker_formats.faults import Damaged, Wrong

NAME = "rb_broker_redis"


class Failed(Exception):
    """Why a command can't go on, in a line, and the status with which it ends."""

    def __init__(self, why: str, status: int = 1) -> None:
        super().__init__(why)
        self.status = status


REDIS_FAULTS = (redis.RedisError, RedisClusterException)
"""What redis-py raises; that of a Cluster, as where a slot has no node, is no `RedisError`."""

FAULTS = (Failed, Damaged, Wrong, *REDIS_FAULTS, OSError)
"""What may keep a command from going on."""


def fail(fault: Exception) -> int:
    """Says in a line what keeps a command from going on. Gives the status with which it ends."""
    why = f"{fault.filename}: {fault.strerror}" if isinstance(fault, OSError) and fault.filename else fault
    print(f"{NAME}: {why}", file=sys.stderr, flush=True)
    if isinstance(fault, Failed):
        return fault.status
    return 3 if isinstance(fault, REDIS_FAULTS) else 1 if isinstance(fault, (Damaged, Wrong)) else 2
