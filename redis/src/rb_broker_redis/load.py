"""The command `load`, which loads what the runs of servers left into a queue."""
from __future__ import annotations

import argparse
import hashlib
import json
import os
import sys
from collections.abc import Sequence
from pathlib import Path

import redis

from rb_broker_formats.dates import date_text, nanoseconds_of
from rb_broker_formats.element import Element
from rb_broker_formats.grammar import GREATEST_OPENING_ID, MOST_OPENING_ELEMENTS
from rb_broker_formats.queue import FollowedQueue

from .ending import Failed
from .judged import read_judged
from .protocol import GREATEST_NUMBER
from .queue import Queue
from .shards import Rendezvous
from .words import Parser, add_command, add_queue_words, queues_in, sentence_of

DATES = "dates"

ABOUT = """loads what a server's run left into a queue

HISTORY is a text that `rb_broker` wrote with --history, in any version, or compressed by gzip if its name ends in .gz;
check it with `rb_broker replay` first. Each element keeps its job and its attempt. A server's moments begin with its
run, and --began says when that was: a date such as 2026-11-26T08:00:00Z, in UTC unless it names a zone, or seconds
since 1970, such as @1795680000. Say `--began dates` for a file of `archive`, whose moments are dates.

Nobody may have used the queue before. It is loaded once: the same command changes nothing the second time, and goes on
after a kill. No gateway serves the queue before everything is there. Several histories, each with a --began in the same
order, become one queue. The elements of a single history keep their ids; otherwise the ids of each history begin behind
those of the one before.

Status: 0; 1 if a history is damaged or the queue is in use; 2 if a word is wrong or a file can't be read; 3 if the
Redis can't be reached.
"""

ABANDON = """
if redis.call('HEXISTS', ARGV[1], 'loading') == 0 then return 0 end
redis.call('UNLINK', unpack(KEYS))
return 1
"""


class NotLoaded(Failed):
    """Why nothing, or not everything, was loaded."""


def left_by(runs: Sequence[FollowedQueue], began: Sequence[int]) -> FollowedQueue:
    """What these runs left, of which each began at that date; its moments are nanoseconds since 1970. If there are
    several, the ids of each begin behind those of the one before. Raises a `NotLoaded`."""
    left = FollowedQueue()
    for run, date in zip(runs, began):
        shift = date - run.opened_at
        for it in map(Element.of, run.elements.values()):
            left.elements[it.id + left.next_id] = _moved(it, left.next_id, shift).words()
        left.next_id += run.next_id
        left.last = max(left.last, run.last + shift)
    if len(left.elements) > MOST_OPENING_ELEMENTS or left.next_id > GREATEST_OPENING_ID:
        raise NotLoaded(f"a history begins with at most {MOST_OPENING_ELEMENTS:,} elements, and an id of at most 2^40")
    return left


def _moved(element: Element, ids: int, shift: int) -> Element:
    """The element with its ids and moments moved by that much. No moment passes the greatest one."""
    expiry, first = (min(max(it + shift, 0), GREATEST_NUMBER) for it in (element.expiry, element.first))
    return element._replace(id=element.id + ids, expiry=expiry, origin=element.origin + ids, first=first)


def split(left: FollowedQueue, names: list[str]) -> list[FollowedQueue]:
    """The part of each of these shards."""
    rendezvous, parts = Rendezvous(names), [FollowedQueue(left.next_id, left.last) for _ in names]
    for id, words in left.elements.items():
        parts[rendezvous.shard_of(words.rpartition(b" ")[2])].elements[id] = words
    return parts


def token_of(left: FollowedQueue) -> str:
    """What tells this load from every other one."""
    return hashlib.sha256(b"%d %d\n%b" % (left.next_id, left.last, b"".join(left.kept()))).hexdigest()


def load(queue: Queue, left: FollowedQueue) -> bool:
    """Loads what is left into a queue that nobody has used. Gives whether that was not done before.

    It may be killed at any moment: started again, it goes on, and no element is there twice. Nobody is served from the
    queue before it has all. Raises a `NotLoaded`.
    """
    token = token_of(left)
    if queue.command("HGET", queue.state, "loaded") == token.encode():
        return False
    seconds, microseconds = map(int, queue.command("TIME"))
    if left.last > (seconds * 1_000_000 + microseconds) * 1_000:
        raise NotLoaded(f"by --began the run would have ended at {date_text(left.last)}, which is in the future")
    try:
        queue.load(token, left)
    except redis.ResponseError as fault:
        if not str(fault).startswith("USED "):
            raise
        raise NotLoaded(f"{queue.name}: {str(fault)[len('USED '):]}") from None
    return True


def abandon(queue: Queue) -> bool:
    """Empties a queue into which a load has begun and not ended. Gives whether there was one."""
    return bool(queue.command("EVAL", ABANDON, len(queue.keys), *queue.keys, queue.state))


def add_to(commands: argparse._SubParsersAction[Parser]) -> None:
    """Adds the command."""
    parser = add_command(commands, "load", ABOUT, run)
    parser.add_argument("histories", metavar="HISTORY", type=Path, nargs="*", help="the text of a history")
    parser.add_argument("--began", metavar="TIME", type=sentence_of(_began), action="append", default=[],
                        help="when the run of HISTORY began, or `dates`")
    add_queue_words(parser)
    what = parser.add_mutually_exclusive_group()
    what.add_argument("--show", action="store_true", help="prints the elements as JSON lines, and loads nothing")
    what.add_argument("--abandon", action="store_true", help="empties a queue whose load has begun and not ended")


def run(asked: argparse.Namespace) -> int:
    """Loads, or shows what would be loaded."""
    if asked.abandon:
        for it in queues_in(asked):
            print(f"{it.name}: {'emptied' if abandon(it) else 'there is no unfinished load'}")
        return 0
    if not asked.histories or len(asked.histories) != len(asked.began):
        asked.parser.error("name at least one HISTORY, and a --began for each")
    runs = [read_judged(it) for it in asked.histories]
    left = left_by(runs, [run.opened_at if it is None else it for run, it in zip(runs, asked.began)])
    if asked.show:
        _show(left)
        return 0
    queues = queues_in(asked)
    Queue(queues[0].client, asked.queue).shards(asked.shards)
    for queue, part in zip(queues, split(left, [it.name for it in queues])):
        is_new = load(queue, part)
        print(f"{queue.name}: {len(part.elements)} elements {'loaded' if is_new else 'were loaded before'}")
    return 0


def _show(left: FollowedQueue) -> None:
    """Prints a line of JSON for each element, the one that expires first comes first."""
    try:
        for it in sorted(map(Element.of, left.elements.values()), key=lambda it: (it.expiry, it.id)):
            print(json.dumps({**it._asdict(), "due": date_text(it.expiry)}))
        sys.stdout.flush()
    except OSError as fault:
        os.dup2(os.open(os.devnull, os.O_WRONLY), sys.stdout.fileno())  # for the last flush
        why = "cannot write output" if isinstance(fault, BrokenPipeError) else f"output: {fault.strerror}"
        raise Failed(why, 2) from None


def _began(word: str) -> int | None:
    """The date, or nothing where moments are dates."""
    if word == DATES:
        return None
    try:
        return nanoseconds_of(word)
    except ValueError as fault:
        raise ValueError(f"{word!r} is no TIME: {fault}") from None
