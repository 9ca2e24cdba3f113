"""tools/report as a command: what it prints, its exit statuses, and what it says about bad input."""
import os
from pathlib import Path

from common.progress import ERASE
from common.tests.support import long_work_at_terminal
from history_texts import RUN, offer, text_of
from reporting.tests.support import ReportTest, call, run
from reporting.tests.test_findings import failing

DAMAGED = RUN.replace("size 1", "size 2")

# Words with the names of files, what is asked of them, and what is refused.
REFUSED = [
    ("", "the following arguments are required"), ("run.txt more", "more: No such file or directory"),
    ("run.txt --ht x", "unrecognized arguments: --ht"),
    ("run.txt --attempts 0", "0 is not from 1 to 1000"), ("run.txt --attempts 1s", "'1s' is no number from 1 to 1000"),
    ("run.txt --html run.txt", "--html names a history itself"),
]


class CommandTest(ReportTest):
    def setUp(self) -> None:
        super().setUp()
        self.history = self.file("run.txt", RUN)

    def test_the_report(self) -> None:
        ran = run(self.history)
        self.assertEqual((ran.returncode, ran.stderr), (0, ""))
        for line in (
            f"{self.history}: history 3, 11 events, 2 seats, from 100 to 310 ns (210 ns)",
            "2 elements at the start, 2 offered, 4 given, 0 removed, 0 cleared, 0 left at the end",
            "  elements in the queue         3       100           0",
            "  of these expired              2       100           0",
            "  median               20 ns    20 ns",
            "        2                2      2",
            "Jobs: 3; offered again: 1 (33.3 %)",
            "  3       c               2      2         drain  310      20 ns",
        ):
            self.assertIn(line, ran.stdout.splitlines())
        self.assertEqual(ran.stdout.splitlines()[-2:], ["What looks wrong", "  nothing"])

    def test_the_life_of_a_job(self) -> None:
        self.assertEqual(self.lines(self.history, "--job", "3"), [
            "job 3: payload c, first expiry 100, 2 elements",
            "  attempt  id  offered at  by seat  expiry  left at  to seat     by  late by",
            "        1   3         100        1     100      120        2   take    20 ns",
            "        2   4         160        1     300      310        1  drain    10 ns",
        ])
        before = self.lines(self.history, "--job", "1")
        self.assertEqual(before[2].split(), ["2", "2", "before", "150", "170", "2", "pollfor", "20", "ns"])
        left = self.lines(self.file("left.txt", text_of(offer(0, 5))), "--job", "0")
        self.assertIn("still there", left[2])

    def test_a_history_without_events(self) -> None:
        page = self.path("page.html")
        self.assertIn("  nothing was given", self.lines(self.file("empty.txt", "history 1\nend 0\n"), "--html", page))
        self.assertTrue(os.path.getsize(page))

    def test_a_history_that_comes_through_a_pipe(self) -> None:
        ran = run("/dev/stdin", given=RUN)
        self.assertEqual((ran.returncode, ran.stderr), (0, ""))

    def test_what_ends_without_a_report(self) -> None:
        damaged, page, none = self.file("damaged.txt", DAMAGED), self.path("page.html"), self.path("none")
        for words, status, says in (
            ((damaged, "--html", page), 1, f"{damaged}: line 8: the queue holds 1, not 2"),
            ((self.history, "--job", "7"), 1, "no job of origin or payload 7"),
            ((none,), 2, f"{none}: No such file or directory"),
            ((self.room,), 2, f"{self.room}: Is a directory"),
            ((self.history, "--html", f"{none}/page.html"), 2, f"{none}/page.html: No such file or directory"),
        ):
            self.assertEqual(self.refused(status, *words), f"report: {says}\n")
        ran = run(damaged)
        self.assertEqual((ran.returncode, ran.stdout), (1, ""))
        self.assertFalse(os.path.exists(page))

    def test_refused_words(self) -> None:
        for words, says in REFUSED:
            with self.subTest(words=words):
                told = [self.history if word == "run.txt" else word for word in words.split()]
                self.assertIn(says, self.refused(2, *told))
        self.assertEqual(Path(self.history).read_text("utf-8"), RUN)

    def test_a_long_report_says_at_a_terminal_how_far_it_is(self) -> None:
        with long_work_at_terminal():
            status, told, errors = call(self.history, "--html", self.path("page.html"))
        self.assertEqual((status, told), (0, run(self.history).stdout))
        lines = errors.split(ERASE)
        for line in (f"reading {self.history}: 0 %", "counting", "drawing"):
            self.assertIn(line, lines)
        self.assertEqual(lines[-1], "")

    def test_last_attempts_are_listed(self) -> None:
        history = self.file("failing.txt", text_of(*failing(3, 2, 5_000_000)))
        lines = self.lines(history, "--attempts", "2")
        at = lines.index("Given attempt 2, the last: 3 jobs")
        told = [line.split()[:6] for line in lines[at + 2:at + 5]]
        self.assertEqual(told, [[str(job), f"job-{job}", "2", "2", "take", "5000000"] for job in range(3)])
        says = "  Each is done or dead: the end of a job has no event, so a history does not tell which."
        self.assertEqual(lines[at + 5], says)
        self.assertIn("Given attempt 3, the last: 0 jobs", self.lines(history, "--attempts", "3"))

    def test_the_lives_of_jobs_of_one_payload(self) -> None:
        lines = [offer(id, 0, payload) for id, payload in enumerate(["mail", "bill", "mail", "letter"])]
        path = self.file("payloads.txt", text_of(*lines, "1 9 9 take 2", "1 9 9 remove 0 yes"))
        self.assertEqual(self.lines(path, "--job", "bill"), self.lines(path, "--job", "1"))
        told = self.lines(path, "--job", "mail")
        self.assertEqual(told[0], "2 jobs of origin or payload mail")
        self.assertEqual([line.split()[:6] for line in told[2:]],
                         [["0", "mail", "1", "0", "remove", "9"], ["2", "mail", "1", "1", "take", "9"]])
