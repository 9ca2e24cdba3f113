"""The line protocol of rb_broker, over queues in a Redis: python3 -m rb_broker_redis COMMAND .."""
from __future__ import annotations

import logging

from . import __version__, archive_command, dead_command, judge_command, load, script, serve, shards_command
from .ending import FAULTS, NAME, fail
from .words import Parser

COMMANDS = (serve, script, archive_command, judge_command, load, dead_command, shards_command)
"""Each is a module with `add_to`, which adds its words and says what runs them."""


def parser() -> Parser:
    """The parser of all words."""
    made = Parser(f"python3 -m {NAME}", description=__doc__.partition(":")[0], allow_abbrev=False)
    made.add_argument("--version", action="version", version=f"{NAME} {__version__}",
                      help="prints the version, and does nothing else")
    commands = made.add_subparsers(metavar="COMMAND", required=True, parser_class=Parser)
    for command in COMMANDS:
        command.add_to(commands)
    return made


def main(words: list[str] | None = None) -> int:
    """Runs the command that these words ask for. Returns the exit status."""
    asked = parser().parse_args(words)
    logging.getLogger("redis").addHandler(logging.NullHandler())  # whose word on a fault is a traceback
    try:
        return int(asked.run(asked))
    except FAULTS as fault:
        return fail(fault)
    except KeyboardInterrupt:
        return 130
