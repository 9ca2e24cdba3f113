"""The page, the metrics and the health of a gateway, over HTTP:

    /         the page
    /metrics  the numbers, as Prometheus reads them
    /health   the status as text: 200 while clients are served, and otherwise 503
    /dead     by POST, if changes are allowed: offers a dead job again, or drops it

They are answered from what a thread sees of the Redis now and then: whoever asks costs the gateway's clients nothing.
"""
from __future__ import annotations

import dataclasses
import hmac
import logging
import secrets
import threading
import time
from collections import deque
from collections.abc import Iterable, Sequence
from html import escape
from http import HTTPStatus
from typing import TYPE_CHECKING
from urllib.parse import parse_qs

from .ending import FAULTS
from .looks import QueueSeen, look
from .queue import Queue
from .shards import inner_id
from .watched import State, attention, dead_table, headline, numbers, since, tables, text
from .watching.http import Answer, HttpServer, is_loopback
from .watching.metrics import metrics_of
from .watching.page import Shown, page_of, section

if TYPE_CHECKING:
    from .gateway import Gateway

LOG = logging.getLogger(__name__)

SECONDS_BETWEEN_LOOKS = 2.0
A_WHILE = 60.0
"""Seconds over which paces are told."""

REQUESTS = {"offer": "REVIVE {} 0", "drop": "DROP {}"}


class Site:
    """Shows a gateway of these queues, which are one or the shards of one."""

    def __init__(self, gateway: Gateway, name: str, port: int, queues: Sequence[Queue], may_change: bool) -> None:
        self._gateway, self._queues = gateway, queues
        self._token = secrets.token_urlsafe(24) if may_change else ""
        """What a form of the page has and a page of others has not."""
        began = time.time()
        self._state = State(name, port, began, began, None, (), frozenset(), False, 0, 0, "")
        self._counts: deque[tuple[float, tuple[int, int, int]]] = deque()
        self._looking = threading.Lock()

    def begin(self, host: str, port: int) -> HttpServer:
        """Answers there from now on. Raises an `OSError`."""
        served = HttpServer((host, port), self.answer, self.posted)
        if not is_loopback(host):
            LOG.warning("PLAIN: whoever reaches %s:%d reads the page%s", host, served.server_address[1],
                        ", and may offer and drop dead jobs" if self._token else "")
        threading.Thread(target=self._look_always, name="looks", daemon=True).start()
        return served

    def answer(self, path: str) -> Answer | None:
        """The answer to a path. None if there is nothing."""
        state, status = self.state, HTTPStatus.OK
        if path == "/":
            return Answer(status, "text/html", self._page(state))
        if path == "/metrics":
            label = f'port="{state.port}",queue="{state.queue}"'
            told = metrics_of(
                label, state.is_healthy, state.is_healthy, (it.name for it in state.alerts()), numbers(state))
            return Answer(status, "text/plain; version=0.0.4", told)
        if path == "/health":
            return Answer(status if state.is_healthy else HTTPStatus.SERVICE_UNAVAILABLE, "text/plain", text(state))
        return None

    def posted(self, path: str, body: bytes) -> Answer | None:
        """Does something with a dead job. None where nothing may be done."""
        if path != "/dead" or not self._token:
            return None
        words = {name: values[0] for name, values in parse_qs(body.decode("ascii", "replace")).items()}
        if not hmac.compare_digest(words.get("token", "").encode(), self._token.encode()):
            return Answer(HTTPStatus.FORBIDDEN, "text/plain", "this form is not of this page: load the page again\n")
        if words.get("what") not in REQUESTS or not words.get("job", "").isdecimal():
            return Answer(HTTPStatus.BAD_REQUEST, "text/plain", "this names no job, or nothing to do with it\n")
        return self._do(words["what"], int(words["job"]))

    def _do(self, what: str, job: int) -> Answer:
        shard, id = inner_id(job) if len(self._queues) > 1 else (0, job)
        try:
            reply = self._queues[shard].request(REQUESTS[what].format(id)) if shard < len(self._queues) else "NONE"
            self._look()
        except FAULTS as fault:
            return Answer(HTTPStatus.SERVICE_UNAVAILABLE, "text/plain", f"{fault}\n")
        LOG.warning("dead job %d: %s, by the page: %s", job, what, reply)
        if reply.startswith("ERR"):
            return Answer(HTTPStatus.CONFLICT, "text/plain", f"{reply}\n")
        return Answer(HTTPStatus.SEE_OTHER, text="./")

    @property
    def state(self) -> State:
        """What was seen last, as it is now."""
        gateway = self._gateway
        return dataclasses.replace(
            self._state, at=time.time(), own=frozenset(gateway.numbers), is_joined=gateway.is_joined,
            clients=gateway.client_count, replicas_asked=gateway.replicas, clock_fault=gateway.clock_fault)

    def _page(self, state: State) -> str:
        kind = "bad" if not state.is_healthy else "fair" if any(state.alerts()) else "good"
        return page_of(Shown(
            f"rb_broker, queue {state.queue} at port {state.port}", f"{headline(state)}: {state.queue} {state.port}",
            kind, since(state), attention(state),
            [*map(section, tables(state)), section(dead_table(state), self._with_form)],
            "'self'" if self._token else "'none'"))

    def _with_form(self, row: Sequence[str]) -> Iterable[str]:
        """The cells of a dead job."""
        cells = [escape(it) for it in row[:-1]]
        return [*cells, (
            f'<form method="post" action="dead"><input type="hidden" name="token" value="{self._token}">'
            f'<input type="hidden" name="job" value="{cells[0]}">'
            '<button name="what" value="offer">Offer again</button> '
            '<button name="what" value="drop">Drop</button></form>'
        ) if self._token else ""]

    def _look_always(self) -> None:
        told = ""
        while True:
            try:
                self._look()
                told = ""
            except FAULTS as fault:
                if str(fault) != told:
                    LOG.warning("the page sees nothing of the Redis: %s", fault)
                told = str(fault)
            time.sleep(SECONDS_BETWEEN_LOOKS)

    def _look(self) -> None:
        with self._looking:
            queues = tuple(map(look, self._queues))
            offered, given, failed = self._paces(queues)
            self._state = dataclasses.replace(
                self._state, queues=queues, seen_at=time.time(), offered_a_second=offered, given_a_second=given,
                failed_a_second=failed)

    def _paces(self, queues: Sequence[QueueSeen]) -> tuple[float, float, float] | tuple[None, None, None]:
        """How much a second was offered, given and failed in the last while."""
        counts = (sum(it.total_offered for it in queues), sum(it.total_given for it in queues),
                  sum(it.total_returned + it.total_died for it in queues))
        now = time.monotonic()
        if self._counts and any(one < other for one, other in zip(counts, self._counts[-1][1])):
            self._counts.clear()  # the Redis has lost what it knew
        self._counts.append((now, counts))
        while now - self._counts[0][0] > A_WHILE:
            self._counts.popleft()
        began, before = self._counts[0]
        if now == began:
            return None, None, None
        offered, given, failed = ((one - other) / (now - began) for one, other in zip(counts, before))
        return offered, given, failed
