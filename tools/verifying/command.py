"""Compares a history with what its clients sent and received: tools/verify HISTORY .. RECORD .. [OPTION ..]

A HISTORY is the text that a server wrote with --history, compressed if its name ends in .gz. Several are files, each of
which continues the one named before it. A RECORD has what clients sent and received, one JSON object on each line, as
`tools/load --record` and the Python package write it. docs/HISTORY.md describes both. All records must come from the
machine on which the server ran, and from that run alone. `rb_broker replay` says whether the history is legal; this
tool says whether it is the history of these clients:

  - each reply is one that its request may get, and its call is in the history once;
  - a session's calls are all at one seat, in the order of its requests, with nothing between them;
  - the history keeps the order of real time: a call whose reply had come before another was sent comes before it.

A session whose replies name no element may fit at several places in the history. The tool tries up to 500 places for
each such session before it reports a fault. If very many such sessions run at the same time, a reported fault may be
false. So may a fault of the kinds `return`, `unrecorded` and `time` at a seat where such a session follows a request
without a reply.

With --shards the HISTORY files are those of an archive of one name over N queues on Redis, NAME.K-NUMBER.txt; the tool
then does not compare replies that name no element which came or left. With --leases a session may end before its client
leaves.

The tool prints the first ten faults of each kind, each with its record, line and session, then how much it compared,
and a sentence for each kind with the number of its faults. It counts events of clients without a record; with --all
they are faults.

1,000,000 events take half a minute and 250 MB. Exit status: 0 if there is no fault, 1 if there is one, 2 if an argument
is wrong, or if a file can't be read or is neither a history nor a record; one line then says which file, and where.
"""
import argparse
import os
import sys
from typing import Iterator

from common.words import number, parser_of, exit_status
from rb_broker_formats.faults import Damaged
from rb_broker_formats.files import open_history
from verifying.history import History
from verifying.judge import Verdict
from verifying.record import Exchange, read_record
from verifying.shards import MOST_SHARDS, shard_of_file

BEGINNING = b"history "  # of each history, and of no record


class Unfit(Exception):
    """Why files can't be judged."""


def exchanges(paths: list[str]) -> Iterator[tuple[str, Exchange]]:
    """What the records say, each line with the path of its record."""
    for path in paths:
        with open_history(path) as file:
            for exchange in read_record(file):
                yield path, exchange


def histories_of(paths: list[str]) -> int:
    """How many of the paths are those of histories: the first one, and those of files behind it that begin as such."""
    for count, path in enumerate(paths[1:], 1):
        if not os.path.isfile(path):  # a pipe can be read only once
            return count
        with open_history(path) as file:
            if file.read(len(BEGINNING)) != BEGINNING:
                return count
    raise Unfit("there is no RECORD")


def read_histories(paths: list[str], shards: int) -> list[History]:
    """The history in these files, or that of each shard."""
    histories = [History()] if shards == 1 else [History(shard) for shard in range(shards)]
    for path in paths:
        shard = 0 if shards == 1 else shard_of_file(os.path.basename(path))
        if shard is None or shard >= shards:
            raise Unfit(f"{path}: with --shards {shards} a history is named NAME.K-NUMBER.txt, with K below {shards}")
        with open_history(path) as file:
            histories[shard].read(file)
    return histories


def verify(options: argparse.Namespace) -> int:
    """Judges, prints, and returns the status."""
    try:
        paths = [options.history, *options.records]
        count = histories_of(paths)
        histories = read_histories(paths[:count], options.shards)
        verdict = Verdict(histories, exchanges(paths[count:]), options.all, options.leases)
    except (Damaged, Unfit) as fault:
        print(f"verify: {fault}", file=sys.stderr)
        return 2
    print("\n".join(verdict.lines()), flush=True)
    return 1 if verdict.faults.total else 0


def main() -> int:
    parser = parser_of("tools/verify", __doc__)
    add = parser.add_argument
    add("history", metavar="HISTORY", help="a history; histories that continue it may follow")
    add("records", metavar="RECORD", nargs="+", help="what clients sent and received")
    add("--all", action="store_true", help="the records are those of all clients of the run")
    add("--leases", action="store_true", help="a session may end with the lease of its gateway on Redis")
    add("--shards", metavar="N", type=number(int, 1, MOST_SHARDS), default=1,
        help="the histories are those of N queues")
    options = parser.parse_args()
    return exit_status("verify", lambda: verify(options))
