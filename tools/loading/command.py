"""Puts a running server under load: tools/load --port P [OPTION ..]

Each client is one session. Together the clients offer `--rate` elements a second. Between two offers a client asks for
jobs, fails a share of them (`--fail`) and finishes the others. A client whose replies come late offers late, but skips
no offer. After `--seconds` the clients leave, and the elements that are still in the queue stay there.

The server needs as many `--workers` and `--sessions` as there are clients: a client beyond the workers does nothing
until another one leaves. It also needs `--calls`: one for each offer, each job, each failed job that comes back, and
each time that no job came before the next offer was due. The clients take any job they find, so the server should have
no other clients.

At the end the tool prints a summary: how many of the due offers were made, the rates, what became of the jobs, how late
they were (from their expiry until the client had them), the calls as the server's audit counts them, and the errors by
kind. It measures lateness by the server's clock, which the replies to offers show.

With --record the tool writes a line for each request, with its reply and the times of both, for `tools/verify` to read.
The clients then make fewer requests a second.

Exit status: 0 if there was no error, 1 if there was one or nothing listens on the port, 2 if an argument is wrong.
"""
import argparse
import signal
import sys
import threading
import time
from contextlib import ExitStack
from typing import TextIO

from common.words import give_up_output, number, parser_of, span
from loading.client import Client, Plan
from loading.counts import summary, total
from rb_broker_client import Broker
from rb_broker_formats.durations import SECOND

CONNECTING = 5  # seconds in which a connection has to be made


def connected(port: int, record: TextIO | None) -> Broker:
    """A session. The record gets a line for each request, as tools/verify reads it."""
    try:
        return Broker(port, patience=CONNECTING, record=record)
    except OSError as fault:
        raise OSError(f"no connection to 127.0.0.1:{port}: {fault.strerror or fault}") from None


def run(given: argparse.Namespace) -> int:
    """Runs the clients, prints the summary, and returns the status."""
    with ExitStack() as last:
        record = last.enter_context(open(given.record, "w", encoding="ascii")) if given.record else None
        brokers = [connected(given.port, record) for _ in range(given.clients)]
        begin = time.monotonic_ns()
        plan = Plan(begin, begin + int(given.seconds * SECOND), given.clients, given.rate, given.delay, given.fail)
        clients = [Client(number, broker, plan) for number, broker in enumerate(brokers)]
        threads = [threading.Thread(target=client.run, daemon=True) for client in clients]
        for thread in threads:
            thread.start()
        for thread in threads:
            thread.join()
    counts = total(client.counts for client in clients)
    seconds = min((time.monotonic_ns() - begin) / SECOND, given.seconds)
    print("\n".join(summary(counts, plan.offers, seconds)), flush=True)
    return 1 if counts.errors else 0


def main() -> int:
    parser = parser_of("tools/load", __doc__, "%(prog)s --port P [OPTION ..]")
    add = parser.add_argument
    add("--port", type=number(int, 1, 65_535), required=True, metavar="P", help="the server's port on 127.0.0.1")
    add("--clients", type=number(int, 1, 100), default=4, metavar="N", help="how many clients, 1 to 100 (default: 4)")
    add("--rate", type=number(float, 0.01, 1_000_000), default=100.0, metavar="N",
        help="offers a second of all clients together, 0.01 to 1,000,000 (default: 100)")
    add("--delay", type=span, default=0, metavar="TIME",
        help="how long after its offer an element expires, such as 2s (default: 0s)")
    add("--fail", type=number(float, 0, 1), default=0.0, metavar="SHARE",
        help="the share of the jobs that fail, 0 to 1 (default: 0)")
    add("--seconds", type=number(float, 0.1, 86_400), default=10.0, metavar="N",
        help="how many seconds the clients stay, 0.1 to 86,400 (default: 10)")
    add("--record", metavar="FILE", help="writes each request and its reply to this file")
    given = parser.parse_args()
    try:
        return run(given)
    except OSError as fault:
        print(f"load: {fault}", file=sys.stderr)
        give_up_output()
        return 1
    except KeyboardInterrupt:
        return 128 + signal.SIGINT
