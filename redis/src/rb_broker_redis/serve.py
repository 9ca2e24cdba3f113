"""The command serve: a gateway."""
from __future__ import annotations

import argparse
import asyncio
import ipaddress
import logging
import os
import resource
import signal
import socket
import ssl

from rb_broker_formats.grammar import MOST_EVENTS

from .address import Kind
from .ending import Failed
from .gateway import Gateway
from .protocol import SECOND
from .queue import Queue, connect
from .replicas import MOST_REPLICAS
from .resp import ErrorAnswer
from .shards import shard_names
from .site import Site
from .watching.http import HttpServer
from .words import (
    NO_POLICY, Parser, add_command, add_policy_words, add_queue_words, address_in, duration, names_policy, policy_in,
    sentence_of, whole,
)

LOOPBACK = "127.0.0.1"

ABOUT = """serves clients from a queue

A TIME is a number with ns, us, ms, s, m, h or d, such as 30s. Once clients can connect, a line `listening HOST:PORT`
appears on standard output. SIGTERM and Ctrl-C end the gateway in good order, and a second signal ends it at once.

Status: 0 after an end in good order; 2 if a word is wrong; 3 if the Redis can't be reached, the queue can't be served,
or nothing can listen at the port. One line on standard error then says why.
"""

REFUSALS = {
    "POLICY": "queue {queue} has --{1} {2}ns --attempts {3}: say the same, or nothing, or --change-policy",
    "FORMAT": "queue {queue} has format {1}, of a later version of this package, which knows format {2}",
    "SHARDS": "queue {queue} has {1} shards: say --shards {1}, or move its jobs by the command shards",
    "LOADING_QUEUE": "a load into queue {queue} has not ended",
    "EVICTS": "{address}: its maxmemory-policy {1} may throw queues away: set noeviction there, or say --allow-eviction",
}
"""Why a queue can't be served, by the words of the error."""


def add_to(commands: argparse._SubParsersAction[Parser]) -> None:
    """Adds the command."""
    parser = add_command(commands, "serve", ABOUT, run)
    add_queue_words(parser)
    add = parser.add_argument
    add("--port", type=whole(0, 65_535), required=True, metavar="P", help="the port, or 0 for a free one")
    add("--bind", default=LOOPBACK, metavar="A", type=sentence_of(ipaddress.ip_address),
        help=f"where to listen; an address that other machines reach needs --cert or --plain (default: {LOOPBACK})")
    add_policy_words(parser, "30s", 20)
    add("--change-policy", action="store_true",
        help="gives the queue these --delay, --rate and --attempts if it has others")
    add("--wait", metavar="TIME", type=duration, default=SECOND,
        help="the longest that a TAKE or POLLFOR waits (default: 1s)")
    add("--lease", metavar="TIME", type=duration, default=15 * SECOND,
        help="how long after a gateway died its sessions end, 1s or more (default: 15s)")
    add("--grace", metavar="TIME", type=duration, default=30 * SECOND,
        help="how long after SIGTERM a session may finish jobs that it holds; it fetches no others (default: 30s)")
    add("--timeout", metavar="TIME", type=duration, default=5 * SECOND,
        help="a Redis that does not answer for this long counts as away (default: 5s)")
    add("--replicas", metavar="N", type=replicas_of, default=0,
        help="sends a reply once N replicas have what was done; `all` means all that a Sentinel reaches, which with the"
        " primary must be a majority (default: 0)")
    kept = parser.add_mutually_exclusive_group()
    kept.add_argument("--no-history", dest="mode", action="store_const", const="silent", default="",
                      help="a new queue keeps no events")
    kept.add_argument("--brief-history", dest="mode", action="store_const", const="brief",
                      help="a new queue keeps no event of a POLL, POLLFOR or DRAIN that found nothing; tools/verify calls"
                      " those missing")
    add("--history-events", metavar="N", type=whole(0, 10**9),
        help=f"the queue keeps at most N events of about 100 bytes; 0 for no limit (default: {MOST_EVENTS}, if new)")
    add("--history-end", choices=("drop", "refuse"),
        help="at N events drops the oldest, or refuses offers until an archive takes some (default: drop)")
    add("--http", metavar="HOST:PORT", type=sentence_of(place_of),
        help="serves a page, /metrics and /health at this address, such as 127.0.0.1:7080")
    add("--allow-changes", action="store_true", help="lets anyone who sees the page offer dead jobs again or drop them")
    add("--allow-eviction", action="store_true",
        help="serves from a Redis whose maxmemory-policy is not noeviction, which may throw the queue away")
    add("--cert", metavar="FILE", help="serves clients over TLS with this certificate")
    add("--key", metavar="FILE", help="the certificate's key, if it is in another file")
    add("--client-ca", metavar="FILE", help="serves only clients whose certificate one of these authorities signed")
    add("--plain", action="store_true",
        help="serves other machines without TLS, and lets in anyone who reaches the port")


def run(asked: argparse.Namespace) -> int:
    """Serves until SIGTERM or SIGINT. Returns the exit status."""
    check(asked)
    logging.basicConfig(level=logging.WARNING, format="%(asctime)s %(levelname)s %(message)s")
    raise_limit_of_files()
    use_uvloop()
    try:
        return asyncio.run(serve(asked))
    except (OSError, ErrorAnswer) as caught:
        raise Failed(sentence_about(caught, asked), 3) from None


def check(asked: argparse.Namespace) -> None:
    """Ends with what is wrong with the words together."""
    refuse = asked.parser.error
    if asked.lease < SECOND:
        refuse("--lease is at least 1s")
    if asked.key and not asked.cert or asked.client_ca and not asked.cert:
        refuse("--key and --client-ca need --cert")
    if asked.plain and asked.cert:
        refuse("--plain serves without TLS and --cert with it: say one of them")
    if not ipaddress.ip_address(asked.bind).is_loopback and not asked.cert and not asked.plain:
        refuse(f"other machines reach {asked.bind}: serve them over TLS with --cert, or say --plain")
    if asked.replicas is None and address_in(asked).kind is not Kind.SENTINEL:
        refuse("--replicas all needs Sentinels, redis+sentinel://HOST:PORT,../MASTER, which say which are up")
    if asked.allow_changes and not asked.http:
        refuse("--allow-changes needs --http")
    if asked.change_policy and not names_policy(asked):
        refuse("--change-policy needs --delay, --rate or --attempts")


def tls_of(asked: argparse.Namespace) -> ssl.SSLContext | None:
    """What clients are served with, if that is TLS."""
    if not asked.cert:
        return None
    try:
        context = ssl.create_default_context(ssl.Purpose.CLIENT_AUTH, cafile=asked.client_ca)
        context.load_cert_chain(asked.cert, asked.key)
    except OSError as fault:  # which names no file
        raise Failed(f"--cert, --key or --client-ca: {fault}", 2) from None
    if asked.client_ca:
        context.verify_mode = ssl.CERT_REQUIRED
    return context


async def serve(asked: argparse.Namespace) -> int:
    """Serves until a signal comes."""
    stopped = asyncio.Event()
    loop = asyncio.get_running_loop()
    for number in (signal.SIGTERM, signal.SIGINT):
        loop.add_signal_handler(number, end_at_next, loop, stopped)
    tls = tls_of(asked)
    gateway = Gateway(
        shard_names(asked.queue, asked.shards), wait=asked.wait, patience=asked.timeout, replicas=asked.replicas)
    mode = "change" if asked.change_policy else asked.mode
    policy = policy_in(asked) if names_policy(asked) else NO_POLICY
    await gateway.join(
        address_in(asked), asked.queue, asked.lease, policy, mode, most_in(asked), asked.allow_eviction)
    at = f"cannot listen at {asked.bind}:{asked.port}"
    try:
        port = await gateway.listen(str(asked.bind), asked.port, tls)
        if asked.http:
            at = "--http: cannot listen at {}:{}".format(*asked.http)
            site = show(gateway, asked, port)
    except OSError as fault:  # the port is in use, or may not be used
        await gateway.leave()
        raise Failed(f"{at}: {reason_of(fault)}", 3) from None
    if asked.plain:
        logging.warning("PLAIN: whoever reaches %s:%d is let in, and reads what others send", asked.bind, port)
    print(f"listening {asked.bind}:{port}", flush=True)
    if asked.http:
        print("page http://{}:{}/".format(asked.http[0], site.server_address[1]), flush=True)
    await stopped.wait()
    count, lost = await gateway.stop(asked.grace)
    print(f"sessions {count} lost {lost}", flush=True)
    return 0


def most_in(asked: argparse.Namespace) -> tuple[str, ...]:
    """How many events there may be, as `rb_join` of broker.lua takes it."""
    is_asked = (asked.history_events, asked.history_end) != (None, None)
    events = MOST_EVENTS if asked.history_events is None else asked.history_events
    return f"{events} {asked.history_end if events and asked.history_end else 'drop'}", *(["set"] if is_asked else [])


def show(gateway: Gateway, asked: argparse.Namespace, port: int) -> HttpServer:
    """Begins the page. Raises an `OSError`."""
    client = connect(address_in(asked))
    queues = [Queue(client, it) for it in shard_names(asked.queue, asked.shards)]
    return Site(gateway, asked.queue, port, queues, asked.allow_changes).begin(*asked.http)


def replicas_of(word: str) -> int | None:
    """A number, or None for `all`."""
    return None if word == "all" else whole(0, MOST_REPLICAS)(word)


def place_of(word: str) -> tuple[str, int]:
    """The host and the port of `HOST:PORT`. Raises a `ValueError`."""
    host, _, port = word.rpartition(":")
    host = str(ipaddress.ip_address(host.strip("[]")))
    if not port.isdecimal() or int(port) > 65_535:
        raise ValueError(f"{port!r} is no port")
    return host, int(port)


def end_at_next(loop: asyncio.AbstractEventLoop, stopped: asyncio.Event) -> None:
    """Ends in good order; the next signal ends at once."""
    stopped.set()
    for each in (signal.SIGTERM, signal.SIGINT):
        loop.remove_signal_handler(each)
        signal.signal(each, signal.SIG_DFL)


def sentence_about(fault: Exception, asked: argparse.Namespace) -> str:
    """Why it can't serve, in one line."""
    if isinstance(fault, ErrorAnswer) and fault.code in REFUSALS:
        return REFUSALS[fault.code].format(*str(fault).split(), queue=asked.queue, address=address_in(asked))
    if isinstance(fault, OSError) and fault.filename:
        return f"{fault.filename}: {fault.strerror}"
    return f"{address_in(asked)}: {reason_of(fault)}"


def reason_of(fault: Exception) -> str:
    """The system's word for it, if there is one: a loop wraps it. TLS and the search for a host have their own."""
    number = getattr(fault, "errno", None)
    return os.strerror(number) if number and not isinstance(fault, (ssl.SSLError, socket.gaierror)) else str(fault)


def raise_limit_of_files() -> None:
    """Each client is a file: as many as the system allows."""
    _, most = resource.getrlimit(resource.RLIMIT_NOFILE)
    resource.setrlimit(resource.RLIMIT_NOFILE, (most, most))


def use_uvloop() -> None:
    """The loop of uvloop, where it is installed."""
    try:
        import uvloop
    except ImportError:
        return
    uvloop.install()
