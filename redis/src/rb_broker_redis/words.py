"""The words of the command line that several commands take, and what they name."""
from __future__ import annotations

import argparse
from collections.abc import Callable
from typing import NoReturn

from rb_broker_formats.durations import read_duration

from .address import DEFAULT, VARIABLE, Address, address_of
from .ending import NAME, Failed
from .keys import checked_name
from .protocol import MOST_ATTEMPTS
from .queue import Queue, connect
from .shards import MOST_SHARDS, shard_names

NO_POLICY = ("", "", "")
"""The words of the policy that the queue has, as `rb_join` of broker.lua takes them."""


class Parser(argparse.ArgumentParser):
    """A parser that says in one line what is wrong."""

    def error(self, message: str) -> NoReturn:
        self.exit(2, f"{NAME}: {message}\n")


def add_command(
    commands: argparse._SubParsersAction[Parser], name: str, about: str, run: Callable[[argparse.Namespace], int]
) -> Parser:
    """Adds a command. What it is about begins with a sentence, which an empty line ends."""
    sentence, _, rest = about.partition("\n\n")
    described = f"{sentence[0].upper()}{sentence[1:]}." if rest else None
    parser = commands.add_parser(name, help=sentence, description=described, epilog=rest,
                                 allow_abbrev=False, formatter_class=argparse.RawDescriptionHelpFormatter)
    parser.set_defaults(run=run, parser=parser)
    return parser


def sentence_of(read: Callable[[str], object]) -> Callable[[str], object]:
    """Reads a word, with the `ValueError`'s or `OSError`'s own sentence if it is wrong."""

    def checked(word: str) -> object:
        try:
            return read(word)
        except (ValueError, OSError) as fault:
            raise argparse.ArgumentTypeError(str(fault)) from None

    return checked


duration = sentence_of(read_duration)


def whole(least: int, most: int) -> Callable[[str], int]:
    """Reads a whole number in this range."""

    def read(word: str) -> int:
        if not (word.isascii() and word.isdigit() and least <= int(word) <= most):
            raise argparse.ArgumentTypeError(f"{word!r} is no whole number from {least} to {most}")
        return int(word)

    return read


def add_redis_word(parser: argparse.ArgumentParser) -> None:
    """--redis."""
    parser.add_argument("--redis", metavar="URL", default=None, type=sentence_of(address_of),
                        help=f"the URL of the Redis, or @FILE, which has the URL (default: ${VARIABLE}, or {DEFAULT})")


def address_in(asked: argparse.Namespace) -> Address:
    """The address that --redis names, or the environment."""
    try:
        return asked.redis or address_of(None)
    except (ValueError, OSError) as fault:
        raise Failed(f"{VARIABLE}: {fault}", 2) from None


def add_queue_words(parser: argparse.ArgumentParser) -> None:
    """--redis, --queue and --shards."""
    add_redis_word(parser)
    parser.add_argument("--queue", metavar="NAME", required=True, type=sentence_of(checked_name),
                        help="the name of the queue")
    parser.add_argument("--shards", metavar="N", type=whole(1, MOST_SHARDS), default=1,
                        help="how many queues share that name (default: 1)")


def queues_in(asked: argparse.Namespace) -> list[Queue]:
    """The queue, or its shards, with the functions that they need. Raises a `Failed` if there is another number."""
    client = connect(address_in(asked))
    queues = [Queue(client, name) for name in shard_names(asked.queue, asked.shards)]
    named = Queue(client, asked.queue)
    for it in (named, *queues):
        it.load_functions()
    there = named.shards()
    if there not in (0, asked.shards):
        raise Failed(f"queue {asked.queue} has {there} shards: say --shards {there}")
    return queues


def add_policy_words(
    parser: argparse.ArgumentParser, delay: str, attempts: int, read: Callable[[str], object] = duration
) -> None:
    """--delay, --rate and --attempts, with what the first and the last are without a word. `read` reads a time."""
    pace = parser.add_mutually_exclusive_group()
    pace.add_argument("--delay", metavar="TIME", type=read,
                      help=f"a failed job comes back this long after it failed (default: {delay})")
    pace.add_argument("--rate", metavar="TIME", type=read,
                      help="instead of --delay: it comes back this long after its first expiry for each attempt so far")
    parser.add_argument("--attempts", metavar="N", type=whole(1, MOST_ATTEMPTS),
                        help=f"a job has N attempts in all, 1 to {MOST_ATTEMPTS} (default: {attempts})")
    parser.set_defaults(default_delay=read_duration(delay), default_attempts=attempts)


def names_policy(asked: argparse.Namespace) -> bool:
    """Whether the words name something of a policy."""
    return (asked.delay, asked.rate, asked.attempts) != (None, None, None)


def policy_in(asked: argparse.Namespace) -> tuple[str, str, str]:
    """The policy that the words name, as `rb_join` of broker.lua takes it. What they leave out is as it was said to
    `add_policy_words`."""
    pace, period = ("delay", asked.delay) if asked.rate is None else ("rate", asked.rate)
    period = asked.default_delay if period is None else period
    return pace, f"{period:020}", str(asked.attempts or asked.default_attempts)
