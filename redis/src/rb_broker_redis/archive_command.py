"""The command `archive`."""
from __future__ import annotations

import argparse
import contextlib
import signal
import sys
import time
from collections.abc import Sequence
from pathlib import Path

from rb_broker_formats.grammar import MOST_EVENTS

from .archive import Archive
from .archive_folder import ArchiveFolder
from .ending import FAULTS, REDIS_FAULTS, fail
from .protocol import SECOND
from .queue_events import QueueEvents
from .words import Parser, add_command, add_queue_words, duration, queues_in, whole

SOON = 10.0  # seconds after which something is tried again that failed

ABOUT = """moves the events of a queue from the Redis into files

A file NAME-NUMBER.txt is a history: NUMBER is that of its first event, and it begins with the elements that the file
before it left. The file is written and synced before its events are taken out of the Redis, so a kill at any moment
loses none. Leave the last file in the folder: the next one begins where it ends. Only one process at a time writes to a
folder.

A job in hand may still come back, and its return belongs in the file with the event that gave it. So the latest events
stay in the Redis until it is known what becomes of their jobs. If twice --events are there without a good place to cut,
the file ends at the best place there is, and a line says that only `judge` accepts the next file. `judge` and `replay
--chains` take one policy, so they refuse a file within which --change-policy changed it: before such a change take the
events out, while no job is in hand.

If the Redis comes back without events that are already in a file, that file is renamed to NAME-NUMBER.lost-1, and the
history goes on with what the Redis has. If the Redis, or a replica that takes over, has lost only that a job was done,
the job comes back behind the file with the event that gave it: then, too, only `judge` accepts the file of its return.

Without --every the command ends once it has taken the events that are there. With --every it goes on until SIGTERM; if
something goes wrong, it says so and tries again.

Status: 0; 1 if the files and the Redis do not fit together, or another process writes to the folder; 2 if a word is
wrong or a file can't be written; 3 if the Redis can't be reached.
"""


def add_to(commands: argparse._SubParsersAction[Parser]) -> None:
    """Adds the command."""
    parser = add_command(commands, "archive", ABOUT, run)
    parser.add_argument("folder", metavar="FOLDER", type=Path,
                        help="the folder of the files, which is made if it is missing")
    add_queue_words(parser)
    parser.add_argument("--events", metavar="N", type=whole(1, MOST_EVENTS), default=MOST_EVENTS,
                        help=f"how many events a file has at most, 1 to {MOST_EVENTS} (default: {MOST_EVENTS})")
    parser.add_argument("--every", metavar="TIME", type=duration,
                        help="takes the events again and again, this often, such as 10m")
    parser.add_argument("--anew", action="store_true",
                        help="gives up the events that are there, and begins new files with the queue as it is")


def run(asked: argparse.Namespace) -> int:
    """Takes the events once, or again and again."""
    with contextlib.closing(ArchiveFolder(asked.folder)) as folder:
        if asked.every is None:
            return _take(_archives(asked, folder))
        signal.signal(signal.SIGTERM, _end)
        seconds = asked.every / SECOND
        archives: list[Archive] = []
        while True:
            try:
                archives = archives or _archives(asked, folder)
            except REDIS_FAULTS as fault:  # there may be no Redis yet
                fail(fault)
            time.sleep(seconds if archives and _take(archives) == 0 else min(seconds, SOON))


def _end(*_: object) -> None:
    """Ends at a signal; the next one ends at once."""
    signal.signal(signal.SIGTERM, signal.SIG_DFL)
    sys.exit(0)


def _archives(asked: argparse.Namespace, folder: ArchiveFolder) -> list[Archive]:
    """That of each queue, which begins anew if it is to."""
    sources = [QueueEvents(it) for it in queues_in(asked)]
    if asked.anew:
        for it in sources:
            print(f"{it.name}: {it.begin_anew()} events are given up", flush=True)
    return [Archive(it, folder, asked.events) for it in sources]


def _take(archives: Sequence[Archive]) -> int:
    """Takes what is there. A queue with which something is wrong does not keep the others waiting."""
    status = 0
    for it in archives:
        try:
            for line in it.take():
                print(line, flush=True)
        except FAULTS as fault:
            status = fail(fault)
    return status
