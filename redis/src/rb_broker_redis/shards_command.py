"""The command `shards`, for another number of queues under one name."""
from __future__ import annotations

import argparse
import os
from collections.abc import Sequence
from typing import NamedTuple

import redis

from rb_broker_formats.element import Element

from .ending import Failed
from .keys import checked_name
from .queue import Queue, connect
from .queue_events import members_of
from .shards import MOST_SHARDS, Rendezvous, shard_names
from .words import Parser, add_command, add_redis_word, address_in, sentence_of, whole

ABOUT = """changes how many queues share a name, and moves their jobs

The queues have to be at rest: stop the gateways in good order, and let `archive` take the events. No gateway serves
them before everything is moved. A job keeps its expiry and its attempt, and gets another id if its queue is removed;
dead jobs move too. If the number grows from two or more, no job moves, and new offers are spread over all queues. After
a kill, start the same command again: it goes on.

The history of a queue that has received jobs begins anew with what is then in it, in the next file of its archive.

Status: 0; 1 if the queues are not at rest or there are none; 2 if a word is wrong; 3 if the Redis can't be reached.
"""


class Left(NamedTuple):
    """What is in a queue."""

    next_id: int
    last: int
    elements: list[Element]
    dead: list[bytes]
    """Members of its set of dead jobs, without the id at their front."""


def add_to(commands: argparse._SubParsersAction[Parser]) -> None:
    """Adds the command."""
    parser = add_command(commands, "shards", ABOUT, run)
    parser.add_argument("count", metavar="N", type=whole(1, MOST_SHARDS), help="the new number of queues")
    add_redis_word(parser)
    parser.add_argument("--queue", metavar="NAME", required=True, type=sentence_of(checked_name),
                        help="the name of the queues")


def run(asked: argparse.Namespace) -> int:
    """Changes the number."""
    client = connect(address_in(asked))
    named = Queue(client, asked.queue)
    named.load_functions()
    before = named.shards()
    if not before:
        raise Failed(f"there is no queue {asked.queue}")
    before, token = _begin(named, before, asked.count)
    old, new = (shard_names(asked.queue, it) for it in (before, asked.count))
    queues = {it: Queue(client, it) for it in (*old, *new)}
    for it in queues.values():
        it.load_functions()
    _freeze(named, list(queues.values()), token)
    named.command("HSET", named.state, "shards", asked.count)
    going = [] if before > 1 and asked.count > before else [queues[it] for it in old if it not in new]
    policy = queues[old[0]].command("HMGET", queues[old[0]].state, "pace", "period", "attempts")
    if policy[0] is None:  # it was loaded, and nobody has served it
        policy = []
    moved = _moved(going, Rendezvous(new), len(new))
    for shard, name in enumerate(new):
        count = _take_in(queues[name], moved[shard], token, policy)
        print(f"{name}: {count} jobs, of which {len(moved[shard].elements)} were moved", flush=True)
    for it in going:
        it.call("rb_empty", token)
    named.command("HDEL", named.state, "moving")
    return 0


def _begin(named: Queue, before: int, count: int) -> tuple[int, str]:
    """The number before, and the token of this move or of the one that was broken off."""
    named.command("HSETNX", named.state, "moving", f"{before} {count} {os.urandom(8).hex()}")
    first, to, token = named.command("HGET", named.state, "moving").decode().split(" ")
    if int(to) != count:
        raise Failed(f"{named.name}: a move to {to} shards has not ended: end it first, by shards {to}")
    return int(first), f"shards {token}"


def _freeze(named: Queue, queues: Sequence[Queue], token: str) -> None:
    """From now on nobody joins them. Raises a `Failed` if one is not at rest: then the move has not begun."""
    try:
        for it in queues:
            it.call("rb_freeze", token, "test")
    except redis.ResponseError as fault:
        if not any(it.command("HGET", it.state, "loading") == token.encode() for it in queues):
            named.command("HDEL", named.state, "moving")
        raise Failed(f"{it.name}: {str(fault).removeprefix('INUSE ')}") from None
    for it in queues:
        it.call("rb_freeze", token)


def _left(queue: Queue) -> Left:
    """What is in a queue. What has been moved into it since it is frozen is not counted."""
    next_id, last = (int(it or 0) for it in queue.command("HMGET", queue.state, "next", "at"))
    elements = []
    for member in members_of(queue, queue.due):
        place, rest = member.split(b" ", 1)
        expiry, id = map(int, place.split(b":"))
        if id < next_id:
            elements.append(Element.of(b"%d %d %b" % (id, expiry, rest)))
    dead = [rest for id, rest in (it.split(b" ", 1) for it in members_of(queue, queue.dead)) if int(id) < next_id]
    return Left(next_id, last, sorted(elements), dead)


def _moved(going: Sequence[Queue], rendezvous: Rendezvous, count: int) -> list[Left]:
    """What each of so many queues gets of those that go."""
    moved = [Left(0, 0, [], []) for _ in range(count)]
    for queue in going:
        left = _left(queue)
        for element in left.elements:
            moved[rendezvous.shard_of(element.payload.encode())].elements.append(element)
        for member in left.dead:
            moved[rendezvous.shard_of(member.rpartition(b" ")[2])].dead.append(member)
    return moved


def _take_in(queue: Queue, moved: Left, token: str, policy: Sequence[bytes]) -> int:
    """Lets a queue have what is moved to it, and serve again. Gives how many elements it has."""
    if queue.command("HGET", queue.state, "loaded") == token.encode():
        return int(queue.command("ZCARD", queue.due))
    left = _left(queue)
    ids = _Ids(left.next_id)
    elements = [*left.elements, *(ids.renamed(it) for it in moved.elements)]
    queue.add([it.words() for it in elements], token)
    for member in moved.dead:
        queue.command("ZADD", queue.dead, 0, b"%020d %b" % (ids.take(), member))
    queue.call("rb_loaded", token, ids.next, left.last, *policy)
    return len(elements)


class _Ids:
    """The ids of what comes to a queue."""

    def __init__(self, first: int) -> None:
        self.next = first

    def take(self) -> int:
        self.next += 1
        return self.next - 1

    def renamed(self, element: Element) -> Element:
        """The element as the queue knows it. The first attempt of its job has an id of its own."""
        origin = self.take()
        return element._replace(id=origin if element.attempt == 1 else self.take(), origin=origin)
