"""The command `judge`, which lets the proved checker judge the files of an archive as one history."""
from __future__ import annotations

import argparse
import shutil
import subprocess
import tempfile
from collections.abc import Iterator, Sequence
from itertools import chain
from pathlib import Path

from rb_broker_formats.grammar import HEADER, MOST_EVENTS
from rb_broker_formats.queue import FollowedQueue

from .cuts import Cuts
from .ending import Failed
from .pieces import Given, Text, text_of
from .words import Parser, add_command, add_policy_words, policy_in, whole

ABOUT = """lets `rb_broker replay --chains` judge the files of an archive as one history

Name the FILEs of one queue, in any order; each has to begin with what the one before it left. The command puts them
together and has them judged in as few pieces as `replay` can take, of 1,000,000 events each. It cuts where the fewest
jobs cross.

If a job was given before its piece and comes back in it, the piece begins by giving it once more. Where another element
would have to be given first, that is impossible: then the chains of the piece are not judged, and a line says so. If
the queue has more than 1,000,000 elements, the piece leaves out those that none of its events names, except the
earliest, which shows whatever is wrong because of a later one; sizes are counted without them. So the text of a piece
is legal exactly if the piece is.

Status: 0; 1 if a history is refused, or the files do not continue one another; 2 if a word is wrong or a file can't be
read; 3 if there is no `rb_broker`.
"""


def add_to(commands: argparse._SubParsersAction[Parser]) -> None:
    """Adds the command."""
    parser = add_command(commands, "judge", ABOUT, run)
    parser.add_argument("files", metavar="FILE", type=Path, nargs="+", help="a file of the archive")
    add_policy_words(parser, "30s", 20)
    parser.add_argument("--events", metavar="N", type=whole(1, MOST_EVENTS), default=MOST_EVENTS,
                        help=f"how many events a piece has at most, 1 to {MOST_EVENTS} (default: {MOST_EVENTS})")
    parser.add_argument("--program", metavar="FILE", default="rb_broker",
                        help="the program that judges (default: rb_broker, on the path)")


def run(asked: argparse.Namespace) -> int:
    """Judges piece by piece."""
    program = shutil.which(asked.program)
    if program is None:
        raise Failed(f"{asked.program}: there is no such program", 3)
    pace, period, attempts = policy_in(asked)
    chains = ["--chains", f"--{pace}", str(int(period)), "--attempts", attempts]
    paths: list[Path] = asked.files
    files = sorted(paths, key=lambda it: it.name)
    queue, given, first = _opening_of(files[0]), Given(), 0
    for events in _pieces(queue.copy(), files, asked.events):
        for some, text in _texts(queue, given, events):
            said = _judged([program, "replay"], chains if text.are_chained else [], text.opening, text.events)
            print(f"events {first} to {first + len(some) - 1}: {said}{_more(text)}", flush=True)
            first += len(some)
    return 0


def _texts(queue: FollowedQueue, given: Given, events: Sequence[bytes]) -> Iterator[tuple[Sequence[bytes], Text]]:
    """The texts of these events, and what events each is of: half of them, where `replay` can't take all. Follows
    them."""
    text = text_of(queue, events, given.gifts)
    if text.is_too_large and len(events) > 1:
        yield from _texts(queue, given, events[:len(events) // 2])
        yield from _texts(queue, given, events[len(events) // 2:])
        return
    yield events, text
    for it in events:
        queue.follow(it)
        given.follow(it, queue)


def _more(text: Text) -> str:
    """What else is to be said of a text."""
    return "".join((
        f"; {text.given_before} jobs in them were given before" if text.given_before else "",
        "" if text.are_chained else ", so their chains are not judged",
        f"; {text.left_out} elements that stay are left out" if text.left_out else ""))


def _opening_of(path: Path) -> FollowedQueue:
    with open(path, "rb") as file:
        return FollowedQueue.of_opening(_opening_lines(path, file))


def _opening_lines(path: Path, lines: Iterator[bytes]) -> list[bytes]:
    """The lines with which a file begins, up to its first event."""
    if next(lines, b"") != HEADER:
        raise Failed(f"{path}: it is no file of an archive")
    head = next(lines).rstrip(b"\n")
    return [head, *(next(lines).rstrip(b"\n") for _ in range(int(head.split(b" ")[3])))]


def _pieces(queue: FollowedQueue, files: Sequence[Path], most: int) -> Iterator[list[bytes]]:
    """The events of each piece. `queue` is that in front of all."""
    waiting: list[bytes] = []
    at_cut = queue.copy()  # the queue in front of those that wait
    for path in files:
        with open(path, "rb") as file:
            if next(file, b"") != HEADER or any(next(file, b"") != it for it in queue.opening()):
                raise Failed(f"{path}: it does not begin with what the file before it left")
            for line in file:
                if line.startswith(b"end "):
                    break
                queue.follow(line[:-1])
                waiting.append(line[:-1])
        while len(waiting) > 2 * most:
            yield _cut(at_cut, waiting, most)
    while len(waiting) > most:
        yield _cut(at_cut, waiting, most)
    yield waiting


def _cut(queue: FollowedQueue, waiting: list[bytes], most: int) -> list[bytes]:
    """Takes the next piece off the front."""
    cuts = Cuts(queue.copy())
    for it in waiting:
        cuts.follow(it)
    cut = cuts.best((), most, len(waiting), must_cut=True)
    piece, waiting[:cut.count] = waiting[:cut.count], []
    for it in piece:
        queue.follow(it)
    return piece


def _judged(command: list[str], chains: list[str], opening: list[bytes], events: list[bytes]) -> str:
    """What the program says of these events behind this opening. Raises a `Failed` if it refuses them."""
    with tempfile.NamedTemporaryFile(prefix="rb_judge-") as file:
        lines = (it + b"\n" for it in events)
        file.writelines(chain([HEADER], opening, lines, [b"end %d\n" % len(events)]))
        file.flush()
        ran = subprocess.run([*command, file.name, *chains], capture_output=True, text=True, check=False)
    said = (ran.stdout or ran.stderr).strip()
    if ran.returncode:
        raise Failed(said.replace(file.name, "the files"))
    return said
