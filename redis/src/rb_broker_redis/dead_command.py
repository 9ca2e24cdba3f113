"""The command `dead`, for jobs whose last attempt has failed, which stay until somebody decides about them."""
from __future__ import annotations

import argparse
from collections.abc import Iterator, Sequence

from rb_broker_formats.dates import date_text

from .ending import Failed, fail
from .protocol import GREATEST_NUMBER
from .queue import Queue
from .shards import inner_id, outer_id
from .words import Parser, add_command, add_queue_words, duration, queues_in, whole

CHUNK = 1_000  # dead jobs that are read at a time

ABOUT = """lists the jobs whose last attempt failed, offers them again or drops them

Without --offer or --drop the command prints a line for each job: the id of its last attempt, when that attempt failed,
its number, and the payload. A job that is offered again is a new one: it gets a new id, and begins with its first
attempt.

Status: 0; 1 if an ID is that of no dead job, or an offer is refused; 2 if a word is wrong; 3 if the Redis can't be
reached.
"""


def add_to(commands: argparse._SubParsersAction[Parser]) -> None:
    """Adds the command."""
    parser = add_command(commands, "dead", ABOUT, run)
    parser.add_argument("ids", metavar="ID", type=whole(0, GREATEST_NUMBER), nargs="*", help="a job to offer or to drop")
    add_queue_words(parser)
    what = parser.add_mutually_exclusive_group()
    what.add_argument("--offer", action="store_true", help="offers the jobs again")
    what.add_argument("--drop", action="store_true", help="forgets the jobs")
    parser.add_argument("--all", action="store_true", help="offers or drops all dead jobs, instead of those of ids")
    parser.add_argument("--delay", metavar="TIME", type=duration, default=0,
                        help="how long after the offer the jobs expire, such as 30s (default: 0s)")


def run(asked: argparse.Namespace) -> int:
    """Lists the jobs, or does something with them."""
    if not asked.offer and not asked.drop:
        if asked.ids or asked.all:
            asked.parser.error("ids and --all need --offer or --drop")
        return _list(asked)
    if bool(asked.ids) == asked.all:
        asked.parser.error("name the jobs by their ids, or write --all")
    return _change(asked)


def dead_jobs(queue: Queue) -> Iterator[tuple[int, str]]:
    """The id of each job's last attempt, and what is told of the job. Those that die or leave meanwhile may be missing
    or not."""
    after = "-"
    while members := queue.command("ZRANGEBYLEX", queue.dead, after, "+", "LIMIT", 0, CHUNK):
        for member in members:
            id, died, _, _, _, attempt, payload = member.decode("ascii").split(" ")
            yield int(id), f"{date_text(int(died))} attempt {attempt} {payload}"
        after = f"({members[-1].decode()}"


def _list(asked: argparse.Namespace) -> int:
    for shard, queue in enumerate(queues_in(asked)):
        for id, told in dead_jobs(queue):
            print(_shown(asked, shard, id), told)
    return 0


def _change(asked: argparse.Namespace) -> int:
    status, queues = 0, queues_in(asked)
    for shard, id in _chosen(asked, queues):
        shown, request = _shown(asked, shard, id), f"REVIVE {id} {asked.delay}" if asked.offer else f"DROP {id}"
        reply = queues[shard].request(request) if shard < len(queues) else "NONE"
        if reply.startswith("OFFERED "):
            print(f"{shown}: offered as {_shown(asked, shard, int(reply.split(' ')[1]))}")
        elif reply.startswith("DROPPED "):
            print(f"{shown}: dropped")
        elif reply != "NONE" or not asked.all:
            status = fail(Failed(f"{shown}: {'no such dead job' if reply == 'NONE' else reply}"))
    return status


def _chosen(asked: argparse.Namespace, queues: Sequence[Queue]) -> Iterator[tuple[int, int]]:
    """The shard and the id of each job that the command line names."""
    if asked.all:
        return ((shard, id) for shard, queue in enumerate(queues) for id, _ in dead_jobs(queue))
    return (inner_id(it) if asked.shards > 1 else (0, it) for it in asked.ids)


def _shown(asked: argparse.Namespace, shard: int, id: int) -> int:
    """The id that clients see."""
    return outer_id(shard, id) if asked.shards > 1 else id
