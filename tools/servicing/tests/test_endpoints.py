"""What is answered to each path, from states that were written by hand and from reports that tools/report makes; the
page as a text; and the status."""
import contextlib
import errno
import gzip
import io
import os
import re
import socket
import unittest
from html import unescape
from unittest import mock
from urllib.parse import quote, urlencode

from checking.testing import RoomTest
from history_texts import RUN
from servicing import reports
from servicing import state as served
from servicing.folder import Unusable
from servicing.http import short_name
from servicing.metrics import metrics
from servicing.page import page
from servicing.texts import text
from servicing.endpoints import answer_of, change, print_status, serve_pages
from servicing.service import _bound
from servicing.state import Alert, Board, Phase
from servicing.tests.support import AT, ENDED, FULL_DISK, HELD, LOST, connection, first_state, state, troubled_state
from rb_broker_redis.watching.http import Answer


class PathsTest(RoomTest):
    def setUp(self) -> None:
        super().setUp()
        self.board = Board(7011)

    def answer(self, path: str) -> Answer:
        answer = answer_of(self.board, self.room, path)
        assert answer is not None
        return answer

    def test_before_the_service_has_put_a_state(self) -> None:
        self.assertEqual([self.answer(it).status for it in ("/", "/metrics", "/health")], [200, 200, 503])
        self.assertTrue(self.answer("/health").text.startswith("port 7011: starting\n"))

    def test_paths(self) -> None:
        self.board.put(state())
        for path, kind, says in (("/", "text/html", page(state())), ("/health", "text/plain", text(state())),
                                 ("/metrics", "text/plain; version=0.0.4", metrics(state()))):
            self.assertEqual(self.answer(path), (200, kind, says))
        self.assertEqual(self.answer("/favicon.ico"), (204, "", ""))
        for path in ("", "/page", "/metrics/", "/../health", "/runs/", "/runs/011", "/runs/11/", "/runs/../runs/11"):
            self.assertIsNone(answer_of(self.board, self.room, path), path)

    def test_health(self) -> None:
        for phase, status in ((Phase.STARTING, 503), (Phase.SERVING, 200), (Phase.ENDING, 200), (Phase.BETWEEN, 200),
                              (Phase.STOPPED, 503)):
            self.board.put(state(phase=phase))
            self.assertEqual(self.answer("/health").status, status, phase)
        self.board.put(state(alerts=(FULL_DISK,)))
        self.assertEqual(self.answer("/health").status, 503)
        self.assertIn(f"\n! {FULL_DISK.text} (since ", self.answer("/health").text)

    def test_a_service_that_finds_nothing_more(self) -> None:
        self.board.put(state())
        with mock.patch.object(served, "LONGEST", -1.0):
            health = self.answer("/health")
            self.assertEqual(health.status, 503)
            self.assertIn("\n! the service has told nothing new for -1 seconds (since 2026-11-26 08:00:00", health.text)
            self.assertIn('rb_broker_alert{port="7011",name="stale"} 1\n', self.answer("/metrics").text)

    def test_what_is_asked_of_the_service(self) -> None:
        """Nobody can ask for an end unless changes are allowed, nor without the token that the page has; and nobody but
        the owner tells that losses are known."""
        for path in ("/end", "/cut", "/acknowledge"):
            self.assertIsNone(change(self.board, path, b"token="))
        self.assertNotIn("token", self.answer("/").text)
        serve_pages(self.board, self.room, None, allows_changes=True)
        for phase, what in ((Phase.SERVING, "end"), (Phase.ENDING, "cut"), (Phase.BETWEEN, "end")):
            self.board.put(state(phase=phase))
            text = self.answer("/").text
            token = re.findall(f'action="{what}"><input type="hidden" name="token" value="([^"]+)"', text)[0]
            for body in (b"", b"token=", b"token=x", b"token=\xff", token.encode()):
                answer = change(self.board, f"/{what}", body)
                self.assertEqual((answer and answer.status, self.board.asked), (403, set()))
            self.assertIsNone(change(self.board, "/", f"token={token}".encode()))
            self.assertEqual(change(self.board, f"/{what}", f"token={token}".encode()), (303, "", "/"))
            self.assertEqual(self.board.asked, {what})
            self.board.asked.clear()
        self.assertEqual(change(self.board, "/acknowledge", b"", is_owner=True), (204, "", ""))
        self.assertEqual(self.board.asked, {"acknowledge"})

    def test_reports(self) -> None:
        """Of histories of ended runs that are kept, whole, compressed or not."""
        self.board.put(state())
        for number in (8, 10, 12):  # of a run that is not kept, of one that was lost, and of the present one
            self.file(f"run-{number}.txt", RUN)
        self.file("run-9.txt", "history 3\n")
        for number in (8, 10, 11, 12):
            self.assertIsNone(answer_of(self.board, self.room, f"/runs/{number}"), number)
        damaged = self.answer("/runs/9")
        self.assertEqual((damaged.status, damaged.kind), (500, "text/plain"))
        self.assertRegex(damaged.text, f"^there is no report: report: {self.room}/run-9.txt: .*\n$")
        with open(self.path("run-11.txt.gz"), "wb") as file:
            file.write(gzip.compress(RUN.encode()))
        answer = self.answer("/runs/11")
        self.assertEqual((answer.status, answer.kind), (200, "text/html"))
        self.assertIn("<h1>", answer.text)
        self.assertIn("2026-11-26 05:53:20", answer.text, "the run began 7,600 seconds before 08:00:00.5")
        for name, limit, says in (("MOST_SECONDS", 0.05, "0.05 s were not enough, since this machine is busy: try again"),
                                  ("MOST_BYTES", 10, "larger than 10 bytes")):
            with mock.patch.object(reports, name, limit):
                self.assertIn(says, self.answer("/runs/11").text)
        self.assertEqual(self.answer("/runs/11").status, 200, "what failed is tried again")

    def test_one_report_at_a_time(self) -> None:
        """Who asks meanwhile is told so at once."""
        self.board.put(state())
        self.file("run-11.txt", RUN)
        meanwhile: list[Answer] = []
        with mock.patch("subprocess.run", side_effect=lambda *_, **told: (
                meanwhile.append(self.answer("/runs/11")), mock.DEFAULT)[1]):
            self.answer("/runs/11")
        self.assertEqual(meanwhile, [(503, "text/plain", "another report is being made: try again later\n")])

    def test_jobs(self) -> None:
        """By a whole payload or an id, in histories that are kept, compressed or not, of runs that are listed."""
        self.board.put(state())
        for word, path in (("a b", "/jobs/a%20b"), ("x/../y?", "/jobs/x%2F..%2Fy%3F"), ("", "/jobs/")):
            asked = change(self.board, "/jobs", urlencode({"word": word}).encode())
            self.assertEqual(asked, (303, "", path))
        head = "history 3\nopen 4 7000000000 1\n"
        for number in (8, 10, 11, 12):  # the first is not kept, the second was lost, and the last is the present one
            self.file(f"run-{number}.txt", f"{head}keep 3 9 2 8 2 re.d\n1 1 8000000000 offer 4 9 4 9 1 red\nend 1\n")
        with open(self.path("run-9.txt.gz"), "wb") as file:
            text = f"{head}1 1 7 offer 34 9 4 9 1 4\n2 1 8 take 4\n1 1 9 remove 4 no\nend 3\n"
            file.write(gzip.compress(text.encode()))
        began, kept = ("2026-11-26", "05:53:28"), "before this run"
        for word, rows in (
            ("red", [["11", *began, "4", "4", "1", "red"]]), ("re.d", [["11", *kept.split(), "3", "2", "2", "re.d"]]),
            ("4", [["11", *began, "4", "4", "1", "red"], ["9", "2026-11-25", "07:00:00", "34", "4", "1", "4"]]),
            ("3", [["11", *kept.split(), "3", "2", "2", "re.d"]]),
            *((it, []) for it in ("re", "r[e", "r*", "-v", "\\")),
        ):
            answer = self.answer(f"/jobs/{quote(word, safe='')}")
            told = answer.text.splitlines()
            self.assertEqual((answer.status, answer.kind), (200, "text/plain"), answer.text)
            self.assertEqual(told[0], f"Jobs of ended runs of payload or id {word}")
            self.assertEqual([it.split() for it in told[2:]] if rows else told[1:], rows or ["  none"])


class PageTest(unittest.TestCase):
    def test_links_to_reports(self) -> None:
        """Of the runs that have a history, and of no other cell of their number."""
        told = page(state(runs=(ENDED, LOST, HELD), clients=(connection(11),)))
        self.assertEqual(re.findall('<a href="(runs/[0-9]+)">', told), ["runs/11", "runs/9"])

    def test_it_loads_nothing_and_changes_nothing(self) -> None:
        """No script but its own may run, and its one form asks for jobs."""
        text = unescape(page(troubled_state()))
        self.assertNotRegex(text, r"\b(src|srcset|data|background)=|<(link|select|iframe)\b")
        self.assertEqual(re.findall("<form [^>]*>", text), ['<form method="post" action="jobs">'])
        self.assertEqual([text.count(f"<{it}>") for it in ("script", "style", "h1", "main")], [1] * 4)
        self.assertIn(" content=\"default-src 'none'; style-src 'sha256-", text)
        self.assertRegex(text, r" script-src 'sha256-\S+'; base-uri 'none'; form-action 'self'; connect-src 'self'\">")
        self.assertEqual(text.count("<th "), text.count('<th scope="col">'))

    def test_its_mark(self) -> None:
        for it, kind in ((state(), "good"), (state(phase=Phase.ENDING), "fair"), (first_state(), "fair"),
                         (state(phase=Phase.BETWEEN), "fair"), (state(phase=Phase.STOPPED), "bad"),
                         (state(alerts=(FULL_DISK,)), "bad"), (troubled_state(), "bad"),
                         *((state(alerts=(Alert(it, "", AT),)), "bad") for it in ("lost-run", "lost-jobs"))):
            self.assertIn(f'<section id="state" class="{kind}">', page(it))


class StatusTest(RoomTest):
    def status(self, folder: str) -> tuple[int, str]:
        with contextlib.redirect_stdout(io.StringIO()) as out:
            status = print_status(folder)
        return status, out.getvalue()

    def test_it_is_printed(self) -> None:
        """Of a folder whose name is longer than that of a socket may be, and in which a killed service has left one."""
        board, folder = Board(7011), self.path("/".join(["long" * 20] * 3))
        os.makedirs(folder)
        says = f"^no service answers in {folder}: No such file or directory; --folder names another$"
        with self.assertRaisesRegex(Unusable, says):
            self.status(folder)
        with socket.socket(socket.AF_UNIX) as left, short_name(f"{folder}/status") as name:
            left.bind(name)
        with self.assertRaisesRegex(Unusable, "Connection refused; "):
            self.status(folder)
        serve_pages(board, folder, None)
        self.assertEqual(self.status(folder)[0], 1)
        for it, status in ((state(), 0), (troubled_state(), 1)):
            board.put(it)
            self.assertEqual(self.status(folder), (status, text(it)))

    def test_no_room_for_the_socket(self) -> None:
        """The service goes on, and a line says what is not there."""
        with contextlib.redirect_stderr(io.StringIO()) as said:
            serve_pages(Board(7011), self.path("none"), None)
        self.assertIn("none/status: No such file or directory: --status does not work", said.getvalue())

    def test_a_port_that_needs_a_right(self) -> None:
        """Which is said if that is the reason."""
        needs = "Permission denied; ports below 1024 need the right CAP_NET_BIND_SERVICE"
        for number, port, says in ((errno.EACCES, 80, needs), (errno.EACCES, 8080, "Permission denied"),
                                   (errno.EADDRINUSE, 80, "Address already in use")):
            with mock.patch("socket.socket.bind", side_effect=OSError(number, os.strerror(number))):
                with self.assertRaisesRegex(Unusable, f"^cannot listen at port {port}: {says}$"):
                    _bound(port)
                with self.assertRaisesRegex(Unusable, f"^--http: cannot listen at 127.0.0.1:{port}: {says}$"):
                    serve_pages(Board(7011), self.room, ("127.0.0.1", port))

    def test_an_address_that_others_can_reach(self) -> None:
        with contextlib.redirect_stderr(io.StringIO()) as said:
            serve_pages(Board(7011), self.room, ("0.0.0.0", 0))
        self.assertIn("event=pages text=\"0.0.0.0 is not a loopback address: whoever can reach it", said.getvalue())
