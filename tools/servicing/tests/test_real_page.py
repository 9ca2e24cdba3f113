"""The page of a service that really runs, in a browser. RB_BROKER_DAY is for how many seconds it does, and
RB_BROKER_PICTURE names a file that gets a picture of the page: docs/service.png is one of half an hour.

    RB_BROKER_DAY=1800 RB_BROKER_PICTURE=docs/service.png dev/check service --only test_real_page
"""
import contextlib
import os
import random
import re
import shutil
import subprocess
import threading
import time
from pathlib import Path

from reporting.tests.support import PageTest
from serving.server import free_port
from servicing.reports import MOST_SECONDS
from servicing.tests.process import Client, ServiceTest

SECONDS = float(os.environ.get("RB_BROKER_DAY", "24"))
WIDTH, HEIGHT, COLORS = 1100, 1500, "64"

# What the charts, the tables and the form show.
CHARTS = "[...document.querySelectorAll('#hour svg')].map((it) => it.getAttribute('aria-label'))"
CLIENTS = "document.querySelectorAll('#clients tbody tr').length"
LINKS = "[...document.querySelectorAll('#runs a')].map((it) => it.getAttribute('href'))"
LIVE = "document.querySelector('#attention').getAttribute('aria-live')"
TEXT = "document.body.innerText"


def asked(it: Client, request: str) -> str:
    """The reply. Raises an `EOFError` when the run has ended."""
    it.send(request)
    return it.line()


class RealPageTest(PageTest, ServiceTest):
    def test_a_run_and_what_is_asked_of_it(self) -> None:
        """Reminders that are due after a while, workers that fail one in twenty, and a client that says nothing."""
        page, every = free_port(), max(SECONDS / 6, 4)
        options = "--every", f"{every:.0f}s", "--delay", "2s", "--http", f"127.0.0.1:{page}", "--allow-changes"
        service, is_over = self.begin(*options), threading.Event()
        them = self.offers, self.works, self.works
        threads = [threading.Thread(target=it, args=(is_over,), daemon=True) for it in them]
        for thread in threads:
            thread.start()
        with Client(self.port):
            time.sleep(SECONDS)
            self.browser.prefer("light")
            self.browser.go("about:blank")
            self.browser.go(f"http://127.0.0.1:{page}/")
            self.looks_right(len(service.all("saved")))
            self.take_picture()
        is_over.set()
        for thread in threads:
            thread.join()
        self.asks_for_a_job()
        self.assertEqual(self.browser.complaints, [])
        self.browser.go("about:blank")
        self.ends(service)

    def offers(self, is_over: threading.Event) -> None:
        chance, number = random.Random(1), 0
        while not is_over.is_set():
            with contextlib.suppress(OSError, EOFError), Client(self.port) as it:
                it.greeted()
                while not is_over.wait(chance.expovariate(3)):
                    number += 1
                    asked(it, f"OFFER {int(chance.triangular(0, 20, 2) * 1e9)} reminder-{number}")

    def works(self, is_over: threading.Event) -> None:
        chance = random.Random(2)
        while not is_over.is_set():
            with contextlib.suppress(OSError, EOFError), Client(self.port) as it:
                it.greeted()
                while not is_over.is_set():
                    words = asked(it, "TAKE").split(" ")
                    if words[0] == "ITEM":
                        asked(it, f"{'FAIL' if chance.random() < 0.05 else 'DONE'} {words[1]}")

    def looks_right(self, ended: int) -> None:
        self.shows(f"{CHARTS}.map((it) => it.split(':')[0])", [
            "Offered a second", "Given, removed or cleared a second", "Failures a second, told when a run ends",
            "Elements in the queue", "Lateness of the first"])
        charts = self.browser.value(CHARTS)
        self.assertRegex(charts[0], r": \d+\.\d\d, at most [1-9]")
        # None of this is so between two runs, which the page then shows.
        self.shows(f"{CLIENTS} > 0 && /^serving, run \\d+, .*: rb_broker {self.port}$/.test(document.title)", True)
        self.shows(f"{LINKS}.length >= {ended}", True)  # once the page has loaded itself again
        self.assertLessEqual({f"runs/{it}" for it in range(1, ended + 1)}, {*self.browser.value(LINKS)})
        self.assertEqual(self.browser.value(LIVE), "polite")

    def take_picture(self) -> None:
        path = os.environ.get("RB_BROKER_PICTURE")
        if path:
            made = self.browser.picture(WIDTH, HEIGHT)
            if shutil.which("pngquant"):
                made = subprocess.run(["pngquant", COLORS, "-"], input=made, stdout=subprocess.PIPE, check=True).stdout
            Path(path).write_bytes(made)

    def asks_for_a_job(self) -> None:
        """By the page's form, as somebody who types a payload."""
        self.browser.value("document.querySelector('#jobs input').focus()")
        self.browser.type("reminder-1")
        end = time.monotonic() + MOST_SECONDS  # others come first
        while not (told := self.browser.value(TEXT)).startswith("Jobs of ended runs of payload or id reminder-1\n"):
            self.assertLess(time.monotonic(), end, told)
            time.sleep(0.1)
        self.assertTrue(re.search(r"^ +1 .* 1 +reminder-1$", told, re.M), told)
