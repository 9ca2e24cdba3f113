"""Histories that the program itself wrote, by the examples of the README, and the counts on which both agree."""
import json
import subprocess

from checking.testing import RoomTest
from common.program import TOP, tested_program
from reporting.tests.large_histories import history
from reporting.tests.support import counts, run
from verifying.tests.simulated import ATTEMPTS, DELAY


class ProgramTest(RoomTest):
    def script(self, name: str, *options: str) -> str:
        """Serves a script of examples/. The file with the run's history."""
        path = f"{self.room}/{name}.history"
        with open(f"{TOP}/examples/{name}", "rb") as script:
            words = [tested_program(), "script", "--history", path, *options]
            subprocess.run(words, stdin=script, check=True, capture_output=True, timeout=60)
        return path

    def test_a_job_with_three_attempts(self) -> None:
        lines = run(self.script("retries.txt"), "--job", "0").stdout.splitlines()
        told = [line.split()[:3] + line.split()[4:6] + line.split()[7:8] for line in lines[2:]]
        self.assertEqual(told, [
            ["1", "0", "100", "100", "100", "poll"],
            ["2", "1", "200", "1200", "1200", "poll"],
            ["3", "2", "1200", "2200", "2200", "take"],
        ])

    def test_a_run_and_the_next(self) -> None:
        first = self.script("held.txt")
        self.assertEqual(counts(run(first).stdout.splitlines()), [0, 2, 1, 0, 0, 1])
        following = self.script("next.txt", "--from", first)
        self.assertEqual(counts(run(following).stdout.splitlines()), [1, 0, 1, 0, 0, 0])
        both = run(following, first)
        self.assertEqual(counts(both.stdout.splitlines()), [0, 2, 2, 0, 0, 0])
        life = [line.split() for line in run(first, following, "--job", "0").stdout.splitlines()[2:]]
        told = [words[:2] + words[-9:-7] for words in life]
        self.assertEqual(told, [["1", "0", "0", "0"], ["2", "1", "1000", "1000"]])

    def test_a_made_history_is_counted_alike(self) -> None:
        for kind in ("busy", "old", "offers"):
            path = self.file("made.txt", "".join(history(kind, 6_000)))
            chains = ["--chains", "--delay", str(DELAY), "--attempts", str(ATTEMPTS)]
            verdict = subprocess.run([tested_program(), "replay", path, *chains], capture_output=True, timeout=120)
            self.assertEqual(verdict.returncode, 0, verdict.stdout)
            told = json.loads(verdict.stdout)
            report, names = run(path).stdout, ("opening", "offered", "given", "removed", "cleared", "left")
            self.assertEqual(counts(report.splitlines()), [told[name] for name in names])
            self.assertNotIn("is not one that the program wrote", report)
