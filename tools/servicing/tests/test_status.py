"""What a service that runs shows over HTTP and in a terminal, through rollovers and a killed server, and what it tells
systemd."""
import contextlib
import http.client
import os
import re
import signal
import socket
import subprocess
import threading
from pathlib import Path
from unittest import mock

from checking.testing import run_tool
from common.program import tested_program
from servicing.reports import MOST_SECONDS
from servicing.saying import notify
from servicing.tests.process import Client, ServiceTest, until
from servicing.tests.test_metrics import PROMTOOL, promtool
from serving.server import free_port

FAR = 3_600_000_000_000


class StatusTest(ServiceTest):
    def setUp(self) -> None:
        super().setUp()
        self.page = free_port()

    def get(self, path: str) -> tuple[int, str]:
        with contextlib.closing(http.client.HTTPConnection("127.0.0.1", self.page, timeout=MOST_SECONDS)) as connection:
            connection.request("GET", path)
            answer = connection.getresponse()
            return answer.status, answer.read().decode()

    def status(self) -> subprocess.CompletedProcess[str]:
        return run_tool("service", "--status", "--folder", self.path("runs"))

    def metric(self, name: str) -> float:
        """The value of a metric, which promtool takes if it is there."""
        text = self.get("/metrics")[1]
        if PROMTOOL:
            self.assertEqual(promtool("metrics", text), (0, ""))
        found = re.search(rf'^rb_broker_{name}{{port="{self.port}"[^}}]*}} (\S+)$', text, re.M)
        return float(found[1]) if found else -1.0

    def test_what_is_counted_goes_on_through_rollovers_and_a_lost_run(self) -> None:
        service = self.begin("--every", "1h", "--allow-changes", "--http", f"127.0.0.1:{self.page}")
        self.assertEqual(self.get("/health")[0], 200)
        self.offer(20)
        until(lambda: self.metric("offered_total") == 20 and self.metric("elements") == 20, "20 offers")
        self.assertEqual(self.post("/end", f"token={self.token}")[0], 303)
        service.wait("serving", 2)
        until(lambda: self.metric("runs_total") == 2, "another run")
        status, report = self.get("/runs/1")
        self.assertEqual((status, "<h1>" in report), (200, True), report[:200])
        identity = Path(self.path("runs/id")).read_text("utf-8").strip()
        self.assertIn(f',run="{identity}-2"}} 1\n', self.get("/metrics")[1])
        self.assertEqual(self.metric("offered_total"), 20)
        self.assertEqual(self.metric("lost_runs_total"), 0)
        os.kill(service.server, signal.SIGKILL)
        until(lambda: self.metric("lost_runs_total") == 1 and self.get("/health")[0] == 200, "a lost run")
        self.assertEqual(self.metric("lost_run_opening_elements"), 20)
        self.assertEqual(self.metric("offered_total"), 20)
        shown = self.status()
        self.assertEqual((shown.returncode, shown.stderr), (0, ""))
        # On a busy machine a second one is that new clients wait.
        says = rf"^port {self.port}: [12] alerts?, serving, run 3, 20 elements, .*1 lost run"
        self.assertRegex(shown.stdout, says)
        self.assertEqual(service.stop(), 0)
        self.assertRaises(ConnectionRefusedError, self.get, "/health")
        self.assertEqual(self.status().returncode, 1)

    def post(self, path: str, body: str) -> tuple[int, str]:
        """The status, and where the answer leads."""
        with contextlib.closing(http.client.HTTPConnection("127.0.0.1", self.page, timeout=MOST_SECONDS)) as it:
            it.request("POST", path, body)
            answer = it.getresponse()
            return answer.status, answer.getheader("Location", "")

    @property
    def token(self) -> str:
        """What the page's form has."""
        return re.findall('name="token" value="([^"]+)"', self.get("/")[1])[0]

    def test_a_run_is_ended_on_the_page(self) -> None:
        """And then a client that holds it up, whose job comes back in the next run. What is asked twice, or at another
        time, does nothing to that."""
        options = "--allow-changes", "--http", f"127.0.0.1:{self.page}", "--delay", "0s", "--stop-within", "1h"
        with self.serving(*options) as service, Client(self.port) as it:
            self.assertRegex(it.greeted().ask("OFFER 0 held"), "^OFFERED ")
            self.assertRegex(it.ask("TAKE"), "^ITEM ")
            token = self.token
            self.assertEqual([self.post(it, f"token={token}") for it in ("/cut", "/end")], [(303, "/")] * 2)
            service.wait("ending")
            until(lambda: 'action="cut"' in self.get("/")[1], "the end can be hastened")
            self.assertEqual((self.post("/end", f"token={token}"), it.ask("SIZE")), ((303, "/"), "SIZE 0"))
            self.assertEqual((self.post("/cut", f"token={token}"), it.rest()), ((303, "/"), b""))
            service.wait("serving", 2)
            self.assertEqual([it["why"] for it in service.all("ending")], ["page"])
            self.assertEqual(service.all("cut")[0]["clients"], f"client {it.own_port}")
            self.assertRegex(self.ask("TAKE")[0], "^ITEM [0-9]+ [0-9]+ 2 held$")
            self.assertEqual(len(service.all("ending")), 1)
        self.assertEqual(len(service.all("saved")), 2)

    def test_jobs_of_ended_runs(self) -> None:
        with self.serving("--http", f"127.0.0.1:{self.page}", "--every", "1s") as service:
            self.offer(3, delay=FAR, name="mail")
            service.wait("serving", 2)
            self.assertEqual(self.post("/jobs", "word=mail-1"), (303, "/jobs/mail-1"))
            until(lambda: " mail-1" in self.get("/jobs/mail-1")[1].partition("\n")[2], "the job is found")
            status, text = self.get("/jobs/mail-1")
            self.assertRegex(text.splitlines()[-1], "^  1 .* 1  +mail-1$")
            self.assertEqual((status, self.get("/jobs/mail")[1].splitlines()[1:]), (200, ["  none"]))

    def test_where_the_page_is(self) -> None:
        """It is said, whatever was left to the service or the system, and nothing where there is none."""
        for options, says in (((), r"None"), (("--http", self.page), rf"127\.0\.0\.1:{self.page}"),
                              (("--http", "127.0.0.1:0"), r"127\.0\.0\.1:[1-9]\d+")):
            with self.serving(*options) as service:
                told = service.all("service")[0].get("http")
                self.assertRegex(str(told), f"^{says}$")
                if told:
                    self.page = int(told.rpartition(":")[2])
                    self.assertEqual(self.get("/health")[0], 200)

    def test_an_address_that_can_not_be_had(self) -> None:
        self.enterContext(socket.create_server(("127.0.0.1", self.page)))
        ran = run_tool("service", "--port", self.port, "--folder", self.path("other"), "--program", tested_program(),
                       "--http", f"127.0.0.1:{self.page}")
        says = f"service: --http: cannot listen at 127.0.0.1:{self.page}: Address already in use\n"
        self.assertEqual((ran.returncode, ran.stderr), (1, says))


SERVING = "STATUS=serving, run 1, 0 elements, 0 clients served"


class NotifyingTest(ServiceTest):
    def test_where_nobody_is_told(self) -> None:
        for address in ("", self.path("none")):
            with mock.patch.dict(os.environ, NOTIFY_SOCKET=address):
                notify(READY=1)

    def read(self, notified: socket.socket, told: list[str]) -> None:
        while "END=1" not in told:
            told += notified.recv(4096).decode().splitlines()

    def test_what_a_service_says(self) -> None:
        with socket.socket(socket.AF_UNIX, socket.SOCK_DGRAM) as it:
            it.bind(self.path("notify"))
            told: list[str] = []
            reader = threading.Thread(target=self.read, args=(it, told), daemon=True)
            reader.start()
            with mock.patch.dict(os.environ, NOTIFY_SOCKET=self.path("notify")):
                with self.serving():
                    until(lambda: SERVING in told, SERVING)
                notify(END=1)
            reader.join()
        self.assertEqual((told.count("READY=1"), told.count("STOPPING=1")), (1, 1))
        self.assertLess(told.index("READY=1"), told.index("STOPPING=1"))
        self.assertIn("EXTEND_TIMEOUT_USEC=300000000", told[told.index("STOPPING=1"):])
