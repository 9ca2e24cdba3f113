"""The number of shards of a name, which stands in the Redis: with fewer, the jobs of the others would wait for ever."""
from __future__ import annotations

from .address import Address
from .keys import MOST_NAME_BYTES, keys_of
from .library import load_functions, name_of
from .link import Link
from .place import connect_to_queue
from .resp import ErrorAnswer
from .shards import shard_name


async def claim_shards(address: Address, queue: str, count: int, patience: float) -> None:
    """Lets this number stand there. Raises an `ErrorAnswer` SHARDS with the one that does, if it is another."""
    link = await connect_to_queue(address, queue, patience)
    try:
        await load_functions(link)
        there = int(await _shards(link, queue) or await _left_out(address, queue, count, patience))
        if there not in (0, count):
            raise ErrorAnswer(f"SHARDS {there}")
        await _shards(link, queue, count)
    finally:
        link.close()


async def _shards(link: Link, queue: str, *count: int) -> bytes:
    keys = keys_of(queue)
    return bytes(await link.ask("FCALL", name_of("rb_shards"), len(keys), *keys, *count))


async def _left_out(address: Address, queue: str, count: int, patience: float) -> int:
    """The number of shards of which this one leaves some out, or 0 if it does not. Version 2 set no number."""
    first = 0 if count == 1 else count
    shards = first
    while len(name := shard_name(queue, shards)) <= MOST_NAME_BYTES and await _exists(address, name, patience):
        shards += 1
    return shards if shards > first else 0


async def _exists(address: Address, queue: str, patience: float) -> bool:
    link = await connect_to_queue(address, queue, patience)
    try:
        return bool(await link.ask("EXISTS", keys_of(queue)[3]))
    finally:
        link.close()
