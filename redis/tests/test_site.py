"""The page, the metrics and the health of a gateway."""
from __future__ import annotations

import dataclasses
import re
import unittest
import urllib.error
import urllib.parse
import urllib.request
from pathlib import Path
from types import SimpleNamespace
from typing import Any

from gateway_test import GatewayTest
from gateways import Gateway
from nodes import wait_until
from rb_broker_redis.looks import DeadJob, GatewaySeen, QueueSeen, RedisSeen
from rb_broker_redis.site import Site
from rb_broker_redis.watched import State
from rb_broker_redis.watching.http import HttpServer
from reporting.tests.support import PageTest
from servicing.tests.test_browser import HOSTILE
from servicing.tests.test_metrics import PROMTOOL, promtool

ALERTS = Path(__file__).parents[2] / "examples" / "alerts_redis.yml"
AT = 1_795_680_000.5  # 2026-11-26 08:00:00 UTC
LONG = "a-payload-of-sixty-four-bytes-that-no-narrow-page-can-hold-whole"


def queue(name: str = "jobs", lags: tuple[float, ...] = (0, 1), **told: Any) -> QueueSeen:
    """A queue of two gateways, with two replicas."""
    usual = QueueSeen(name, 1_204, 3.25, 3, 0, 70_000, 1_000_000, False, 600_000, 590_000, 1_000, 25, [
        GatewaySeen(1_795_670_000, 15, 4, 2), GatewaySeen(1_795_670_001, 15, None, 1)], [],
        RedisSeen("master", [*lags], 5_000_000, 0))
    return usual._replace(**told)


def state(**told: Any) -> State:
    usual = State(
        "jobs", 7011, AT, AT - 4_000, AT - 1, (queue(),), frozenset({1_795_670_000}), True, 4, 1, "", 12.5, 11, 0.25)
    return dataclasses.replace(usual, **told)


DEAD = [DeadJob(17, 1_795_680_000_000_000_000, 20, LONG), DeadJob(23, 1_795_680_001_000_000_000, 20, HOSTILE)]


def troubled() -> State:
    """All that may be wrong."""
    wrong = queue(dead=130, dead_jobs=DEAD, lags=(7,), late=90, refuses=True, events=900_000,
                  redis=RedisSeen("master", [7], 95_000_000, 100_000_000))
    return state(seen_at=AT - 8, queues=(wrong,), replicas_asked=2, clock_fault="the clock was set back by 60.0 s")


class Shown(Site):
    """A site of a state that was written by hand."""

    def __init__(self, shown: State, may_change: bool = False) -> None:
        super().__init__(SimpleNamespace(), shown.queue, shown.port, [], may_change)
        self.shown = shown

    @property
    def state(self) -> State:
        return self.shown


class StateTest(unittest.TestCase):
    def metrics(self, shown: State) -> dict[str, float]:
        """The metrics of a state, which promtool takes if it is there."""
        told = Shown(shown).answer("/metrics").text
        if PROMTOOL:
            self.assertEqual(promtool("metrics", told), (0, ""))
        label = 'port="7011",queue="jobs"'
        return {(name + more).replace(f"{{{label}}}", "").replace(f"{label},", ""): float(value)
                for name, more, value in re.findall(r"^rb_broker_(\w+)(\{.*\}) (\S+)$", told, re.M)}

    def test_all_metrics(self) -> None:
        self.assertEqual(self.metrics(state(queues=(queue(), queue(late=-5, lags=(0.5,))))), {
            "up": 1, "healthy": 1, "elements": 2_408, "head_late_seconds": 3.25, "queue_time_seconds": AT - 1,
            "jobs_held": 6, "jobs_dead": 0, "clients_served": 4, "clients_of_all": 4, "gateways": 2,
            "offered_total": 1_200_000, "given_total": 1_180_000, "failed_total": 2_050, "died_total": 50,
            "history_events": 140_000, "history_events_limit": 2_000_000, "replicas": 1, "replica_lag_seconds": 1,
            "redis_memory_bytes": 5_000_000})

    def test_what_is_not_known_is_left_out(self) -> None:
        first = state(queues=(), seen_at=None, is_joined=False)
        self.assertEqual(self.metrics(first), {
            "up": 0, "healthy": 0, 'alert{name="no-redis"}': 1, "clients_served": 4})
        self.assertEqual(Shown(first).answer("/health").status, 503)

    def test_what_is_wrong(self) -> None:
        told = self.metrics(troubled())
        self.assertEqual([it for it in told if it.startswith("alert")], [f'alert{{name="{it}"}}' for it in (
            "clock", "dead-jobs", "few-replicas", "history-full", "memory", "no-redis", "overdue", "replica-lags")])
        health = Shown(troubled()).answer("/health")
        self.assertEqual(health.status, 503)
        self.assertTrue(health.text.startswith(
            "queue jobs, port 7011: 8 alerts, no Redis, 1,204 elements, the first 90.0 s late, 130 dead jobs, 4 clients"))
        self.assertEqual(health.text.count("\n! "), 8)
        self.assertIn("128 more are not listed", health.text)

    @unittest.skipUnless(PROMTOOL, "there is no promtool")
    def test_the_example_of_alerts(self) -> None:
        """Each metric that it names is one that is told."""
        named = set(re.findall(r"\brb_broker_(\w+)", ALERTS.read_text())) - {"redis"}
        self.assertTrue(named and named <= {*self.metrics(troubled())}, named)
        self.assertEqual(promtool("rules", "", str(ALERTS))[0], 0)
        status, said = promtool("rules", "", str(Path(__file__).with_name("alerts.yml")), does="test")
        self.assertEqual(status, 0, said)

    def test_what_is_right(self) -> None:
        self.assertEqual([*state().alerts()], [])
        for it in (state(is_joined=False), state(seen_at=AT - 6)):
            self.assertEqual([alert.name for alert in it.alerts()], ["no-redis"])


class SiteTest(GatewayTest):
    def url_of(self, served: Gateway) -> str:
        wait_until(lambda: "page " in served.said, "there is no page")
        return re.search("^page (.*)$", served.said, re.M)[1]

    def get(self, url: str, **words: str) -> tuple[int, str]:
        """The answer to a path, or to a form with these words."""
        data = urllib.parse.urlencode(words).encode() if words else None
        try:
            with urllib.request.urlopen(url, data) as answer:
                return answer.status, answer.read().decode()
        except urllib.error.HTTPError as fault:
            return fault.code, fault.read().decode()

    def test_dead_jobs_are_offered_and_dropped_by_a_form(self) -> None:
        served = self.gateway("--attempts", 1, "--http", "127.0.0.1:0", "--allow-changes", "--lease", "3s")
        talker = self.talker(served)
        for it in range(3):
            self.assert_talk(talker, f"OFFER 0 job-{it} = OFFERED .*", "POLL = ITEM .*", f"FAIL {it} = DEAD {it}")
        url = self.url_of(served)
        wait_until(lambda: "job-2" in self.get(url)[1], "the page does not show it")
        page = self.get(url)[1]
        token = re.search('name="token" value="([^"]{20,})"', page)[1]
        self.assertIn("form-action &#x27;self&#x27;", page)
        for words in ({"token": "x", "what": "drop", "job": "0"}, {"what": "drop", "job": "0"}):
            self.assertEqual(self.get(f"{url}dead", **words)[0], 403)
        for words in ({"what": "drop"}, {"what": "drop", "job": "-1"}, {"what": "keep", "job": "1"}):
            self.assertEqual(self.get(f"{url}dead", token=token, **words)[0], 400)
        self.assertEqual(self.node.ask("ZCARD", self.queue().dead), 3)
        status, page = self.get(f"{url}dead", token=token, what="offer", job="0")
        self.assertEqual((status, "job-0" in page, "job-1" in page), (200, False, True))
        status, page = self.get(f"{url}dead", token=token, what="drop", job="1")
        self.assertEqual((status, "job-1" in page), (200, False))
        self.assert_talk(talker, "POLL = ITEM 3 .* 1 job-0")
        wait_until(lambda: 'rb_broker_clients_of_all{port="' in self.get(f"{url}metrics")[1], "no clients are told")
        self.assertRegex(self.get(f"{url}metrics")[1], r"died_total\{.*\} 3\n")

    def test_nothing_is_changed_unless_that_is_allowed(self) -> None:
        url = self.url_of(served := self.gateway("--attempts", 1, "--http", "127.0.0.1:0", "--shards", 2))
        self.assertEqual(served.ask("OFFER 0 a", "POLL")[-1].split()[0], "ITEM")
        wait_until(lambda: "rb_broker_jobs_dead" in self.get(f"{url}metrics")[1], "the page sees nothing")
        page = self.get(url)[1]
        self.assertNotIn("<form", page)
        self.assertIn("form-action &#x27;none&#x27;", page)
        self.assertEqual(self.get(f"{url}dead", token="", what="drop", job="0")[0], 501)
        self.assertEqual(self.get(f"{url}none")[0], 404)

    def test_wrong_words(self) -> None:
        self.assert_wrong_words(
            "serve", (["--port", 0, "--allow-changes"], "--allow-changes needs --http"),
            (["--port", 0, "--http", "7080"], "--http"), (["--port", 0, "--http", "127.0.0.1:x"], "'x' is no port"),
            (["--port", 0, "--history-end", "stop"], "--history-end"))


class BrowserTest(PageTest):
    """The page in a browser, which asks for states that were written by hand."""

    def setUp(self) -> None:
        self.browser.go("about:blank")  # or the page of the test before asks a server that is gone
        self.browser.complaints.clear()

    def show(self, site: Site) -> None:
        """Opens a page."""
        server = HttpServer(("127.0.0.1", 0), site.answer, site.posted)
        self.addCleanup(server.server_close)
        self.addCleanup(server.shutdown)
        self.browser.go(f"http://127.0.0.1:{server.server_address[1]}/")

    def test_every_width_and_scheme(self) -> None:
        first = state(queues=(), seen_at=None, is_joined=False)
        for name, shown in (("usual", state()), ("first", first), ("troubled", troubled())):
            self.show(Shown(shown, may_change=True))
            self.assert_is_seen_well(name)
        self.assertEqual(self.browser.complaints, [])

    def test_a_form_is_sent_and_texts_stay_text(self) -> None:
        site = Shown(troubled(), may_change=True)
        did: list[tuple[str, int]] = []
        site._do = lambda what, job: did.append((what, job))
        self.show(site)
        cells = self.browser.value("[...document.querySelectorAll('#dead td')].map((it) => it.textContent)")
        self.assertEqual(cells[3::5], [LONG, HOSTILE])
        self.assertEqual(self.browser.value("[document.images.length, document.scripts.length]"), [0, 1])
        self.assertEqual(self.browser.complaints, [])
        self.browser.value("document.querySelectorAll('#dead button')[3].click(), null")
        wait_until(lambda: did, "the form is not sent")
        self.assertEqual(did, [("drop", 23)])
