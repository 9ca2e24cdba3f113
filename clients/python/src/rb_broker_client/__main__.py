"""Asks a server, or works for it: rb-broker COMMAND .. --port P, or python3 -m rb_broker_client

`worker` calls a function with each job, until SIGTERM or Ctrl-C; a second signal ends it at once.
It logs to standard error, looks for a server until it is stopped, and at the end prints what
became of its jobs. It also looks for the module in the current folder, and runs a coroutine
function in an event loop. `dead` reads the file that DeadLetters wrote. `tasks` is about an app of
rb_broker_client.tasks. The other commands print the server's replies as docs/PROTOCOL.md has them,
such as `SIZE 3`. COMMAND --help has an example.

Exit status: 0; 1 if there is no server, if it refuses, or if something else fails; 2 if a word is
wrong, or an option names a file that can't be used. Standard error says why.
"""

import argparse
import asyncio
import inspect
import io
import logging
import os
import pkgutil
import signal
import ssl
import sys
from collections.abc import Callable, Iterable, Iterator
from contextlib import contextmanager
from functools import partial
from types import ModuleType
from typing import Any

from rb_broker_formats.durations import SECOND, read_duration
from rb_broker_formats.protocol import MOST_HELD

from . import __version__
from .answers import BrokerError
from .broker import Broker
from .dead_letters import payload_of, read_letters, take_letters
from .durations import seconds
from .producer import Producer
from .request import Request
from .servers import LOOPBACK, Servers
from .tasks import Tasks
from .waiting import run
from .worker import AsyncWorker, Worker

NAME, SCRIPT = "rb_broker_client", "rb-broker"  # the module, and the command that pip installs
FORM = argparse.RawDescriptionHelpFormatter
Asked = argparse.Namespace


def main(words: list[str] | None = None) -> int:
    """Runs the command that these words ask for. Gives the exit status."""
    asked = _parser().parse_args(words)
    try:
        for line in asked.run(asked):
            print(line, flush=True)
        return 0
    except KeyboardInterrupt:
        status, text = 1, "it was broken off"
    except (BrokerError, OSError, ArithmeticError) as fault:
        place = asked.port if isinstance(asked.port, str) else f"{asked.host}:{asked.port}"
        status, text = 1, f"{place}: {fault}" if asked.port else str(fault)
    except ValueError as fault:  # a payload that is none, a host that is none
        status, text = 2, str(fault)
    print(f"{NAME}: {text}", file=sys.stderr)
    return status


def _command(commands: Any, name: str, help: str, run: Callable[..., Any], example: str = "") -> Callable[..., Any]:
    """Adds a command, with the words that each has. Gives what adds others to it."""
    added = commands.add_parser(name, help=help, description=help, allow_abbrev=False, formatter_class=FORM)
    added.epilog = f"example: {added.prog} {example}--port 7011"
    added.set_defaults(run=run)
    add: Callable[..., Any] = added.add_argument
    add("--port", type=_port, required=name != "dead", metavar="P",
        help="the server's port, or HOST:PORT,HOST:PORT,.. of a queue's gateways, which are used one at a time")
    add("--host", default=LOOPBACK, metavar="H", help=f"the server's host (default: {LOOPBACK})")
    add("--patience", type=_time, default=5.0, metavar="TIME",
        help="how long to look for a server, and to wait for a reply (default: 5s)")
    add("--record", type=argparse.FileType("a"), metavar="FILE", help="appends each request and its reply to this file")
    add("--tls", action="store_true",
        help="uses TLS, as the next three options do; the server's certificate must be for --host")
    add("--ca", metavar="FILE", help="trusts the certificates in this file (default: those of the system)")
    add("--cert", metavar="FILE", help="shows this certificate to the server")
    add("--key", metavar="FILE", help="the key of --cert, if it is in another file")
    return add


def _parser() -> argparse.ArgumentParser:
    about, _, rest = (__doc__ or "").partition("\n\n")
    command_name = SCRIPT if os.path.basename(sys.argv[0]) == SCRIPT else f"python3 -m {NAME}"
    parser = argparse.ArgumentParser(command_name, description=about, epilog=rest, allow_abbrev=False,
                                     formatter_class=FORM)
    parser.add_argument("--version", action="version", version=f"{NAME} {__version__}")
    commands = parser.add_subparsers(metavar="COMMAND", required=True)
    command = partial(_command, commands)
    add = command("worker", "calls a function with each job", _work, "letters:deliver --concurrency 8 ")
    add("handler", type=_function, metavar="MODULE:FUNCTION", help="the function to call with each job")
    add("--concurrency", type=_whole(1, MOST_HELD), default=1, metavar="N",
        help=f"how many jobs run at the same time, 1 to {MOST_HELD} (default: 1)")
    add("--timeout", type=_time, metavar="TIME", help="fails a job that takes longer, such as 30s")
    add("--on-dead", type=_function, metavar="MODULE:FUNCTION",
        help="a function to call with each job that failed and won't come back")
    add("--attempts", type=_whole(1, 1_000), metavar="N",
        help="the server's --attempts, so that --on-dead also gets jobs whose last attempt ended with a session")
    add = command("offer", "offers jobs that expire after a delay", _offer, "2s letter-17 letter-18 ")
    add("delay", type=_delay, metavar="DELAY", help="a time such as 5s, 2m or 1.5h (units: ns us ms s m h d)")
    add("payloads", nargs="*", metavar="PAYLOAD",
        help="1 to 64 characters of printable ASCII, no space (default: the lines of standard input)")
    command("size", "counts the elements in the queue, expired or not", partial(_ask, lambda _: [Request.size()]))
    command("peek", "shows an element of least expiry, expired or not", partial(_ask, lambda _: [Request.peek()]))
    command("clear", "removes all elements, expired or not", partial(_ask, lambda _: [Request.clear()]))
    add = command("remove", "removes the elements of these ids, expired or not",
                  partial(_ask, lambda asked: map(Request.remove, asked.ids)), "17 18 ")
    add("ids", nargs="+", type=_whole(0, 2**64 - 1), metavar="ID", help="an id from an `OFFERED` reply")
    add = command("drain", "takes the jobs that have expired, prints and finishes each", _drain, "10 ")
    add("most", nargs="?", type=_whole(1, 10**9), default=10**9, metavar="MOST",
        help="how many jobs to take (default: all)")
    add = command("dead", "shows dead letters, or offers them again", _dead, "dead.jsonl --offer ")
    add("file", metavar="FILE", help="the file that DeadLetters wrote")
    add("--offer", action="store_true", help="offers each again, and removes it from the file; needs --port")
    added = commands.add_parser("tasks", help="runs the tasks of an app, shows its dead tasks, or offers them again")
    added.set_defaults(run=_tasks, host=None, port=None)
    added.add_argument("action", choices=["run", "dead", "again"])
    added.add_argument("app", type=partial(_named, Tasks, "APP"), metavar="MODULE:APP",
                       help="the app, an object of the class Tasks")
    added.add_argument("ids", nargs="*", metavar="ID",
                       help="the dead tasks to offer again, by the ids that `dead` shows (default: all)")
    added.add_argument("--threads", type=_whole(1, MOST_HELD), default=4, metavar="N",
                       help="how many threads `run` has in each process, 1 to 64 (default: 4)")
    added.add_argument("--processes", type=_whole(0, 1_000), default=0, metavar="N",
                       help="runs tasks in N processes, of which one ends with a task that hangs (default: 0, in this one)")
    return parser


def _client(kind: Callable[..., Any], asked: Asked, *words: Any, **options: Any) -> Any:
    tls = None
    if asked.tls or asked.ca or asked.cert or asked.key:
        try:
            tls = ssl.create_default_context(cafile=asked.ca)
            if asked.cert:
                tls.load_cert_chain(asked.cert, asked.key)
        except OSError as fault:  # which names no file
            raise ValueError(f"--ca, --cert or --key can't be used: {fault}") from None
    return kind(*words, asked.port, asked.host, patience=asked.patience, tls=tls, record=asked.record, **options)


def _work(asked: Asked) -> Iterator[str]:
    is_async = inspect.iscoroutinefunction(asked.handler)
    if inspect.iscoroutinefunction(asked.on_dead) and not is_async:
        raise ValueError("--on-dead can be a coroutine function only if the handler is one")
    worker = _client(AsyncWorker if is_async else Worker, asked, asked.handler, concurrency=asked.concurrency,
                     timeout=asked.timeout, on_dead=asked.on_dead, attempts=asked.attempts)
    yield _until_signals(worker.stop, lambda: asyncio.run(worker.run()) if is_async else worker.run())


def _until_signals(stop: Callable[[], object], work: Callable[[], Any]) -> str:
    def hear(number: int, _: Any) -> None:
        signal.signal(number, signal.SIG_DFL)  # whoever asks twice does not want to wait
        stop()

    if isinstance(sys.stdout, io.TextIOWrapper):  # a test may have another
        sys.stdout.reconfigure(line_buffering=True)  # what functions print is seen at once, in a file too
    logging.basicConfig(level=logging.INFO, format="%(asctime)s %(levelname)s %(message)s")
    for number in (signal.SIGINT, signal.SIGTERM):
        signal.signal(number, hear)
    return ", ".join(f"{name} {count}" for name, count in vars(work()).items())


def _tasks(asked: Asked) -> Iterator[str]:
    app: Tasks = asked.app
    if asked.action == "run":
        yield _until_signals(app.stop, partial(app.run, asked.threads, asked.processes))
    elif asked.action == "again":
        yield f"offered {app.again(*(asked.ids or [it.id for it in app.dead()]))}"
    else:
        for it in app.dead():
            yield f"{it.id} {it.name} {it.arguments} {it.failures} {it.error.strip().splitlines()[-1]}"


def _offer(asked: Asked) -> Iterator[str]:
    with _client(Producer, asked) as producer:
        for payload in asked.payloads or (it.rstrip("\r\n") for it in sys.stdin):
            offered = producer.offer(payload, delay=asked.delay)
            yield f"OFFERED {offered.id} {offered.expires_at_ns}"


@contextmanager
def _broker(asked: Asked) -> Iterator[Broker]:
    """A session, which is left with `QUIT` if nothing went wrong."""
    with _client(Broker, asked) as broker:
        broker.await_service()  # a question that is given up before that costs no call
        yield broker
        broker.quit()


def _ask(requests: Callable[[Asked], Iterable[Request[Any]]], asked: Asked) -> Iterator[str]:
    """Shows the line of the reply to each of these requests."""
    with _broker(asked) as broker:
        for request in requests(asked):
            def read(lines: Iterator[bytes]) -> str:
                line = next(lines)
                request.read(iter([line]))
                return line.decode()

            yield run(broker._ask(Request(request.line, read)))


def _drain(asked: Asked) -> Iterator[str]:
    left = asked.most
    with _broker(asked) as broker:
        while left and (jobs := broker.drain(min(left, MOST_HELD))):
            for job in jobs:
                yield f"ITEM {job.id} {job.expires_at_ns} {job.attempt} {job.payload}"
                job.done()  # once it is printed
            left -= len(jobs)


def _dead(asked: Asked) -> Iterator[str]:
    if not asked.offer:
        for it in read_letters(asked.file):
            payload_of(it)
            yield it.decode()
        return
    if asked.port is None:
        raise ValueError("--offer needs --port")
    with _client(Producer, asked) as producer:
        yield f"offered {take_letters(asked.file, producer.offer)}"


def _whole(least: int, most: int) -> Callable[[str], int]:
    def read(word: str) -> int:
        if not word.isascii() or not word.isdecimal() or not least <= int(word) <= most:
            raise argparse.ArgumentTypeError(f"{word} is not from {least} to {most}")
        return int(word)

    return read


def _told(read: Callable[[str], Any], word: str) -> Any:
    try:
        return read(word)
    except (TypeError, ValueError) as fault:
        raise argparse.ArgumentTypeError(str(fault)) from None


def _address(word: str) -> int | str:
    port: int | str = int(word) if word.isascii() and word.isdecimal() else word
    Servers(port)
    return port


_port = partial(_told, _address)
_delay = partial(_told, lambda word: read_duration(word) / SECOND)
_time = partial(_told, lambda word: seconds(read_duration(word) / SECOND))


def _named(kind: Any, what: str, word: str) -> Any:
    try:
        found = pkgutil.resolve_name(word)
    except Exception as fault:  # whatever goes wrong in a module of the caller
        raise argparse.ArgumentTypeError(f"{word} can't be imported: {type(fault).__name__}: {fault}") from None
    if isinstance(found, ModuleType) and ":" not in word:
        raise argparse.ArgumentTypeError(f"{word} is a module: write {word}:{what}")
    if not isinstance(found, kind):
        raise argparse.ArgumentTypeError(f"{word} is a {type(found).__name__}, which can't be used here")
    return found


_function = partial(_named, Callable, "FUNCTION")


if __name__ == "__main__":
    sys.exit(main())
