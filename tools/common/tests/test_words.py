"""The words of a command line, and the status of a tool."""
import argparse
import contextlib
import io
import os
import re
import subprocess
import sys
import unittest
from unittest import mock

from common.program import TOP
from common.tests.support import Terminal
from common.words import exit_status, number, parser_of, span, version

DOC = """Does something: tools/it [--n N]

    more of it, in docs/IT.md
"""

# What work raises, the status, and what is said.
FAULTS = [
    (OSError(2, "No such file", "run.txt"), 2, "it: run.txt: No such file\n"),
    (OSError(28, "No space left"), 2, "it: output: No space left\n"), (MemoryError(), 2, "it: out of memory\n"),
    (KeyboardInterrupt(), 130, ""),
]


class WordsTest(unittest.TestCase):
    def ended(self, *words: str) -> tuple[object, str]:
        """The status with which a parser ends the program at these words, and what it says."""
        said, parser = io.StringIO(), parser_of("tools/it", DOC)
        parser.add_argument("--number", type=number(int, 1, 65_535))
        with contextlib.redirect_stdout(said), contextlib.redirect_stderr(said), self.assertRaises(SystemExit) as end:
            parser.parse_args(words)
        return end.exception.code, said.getvalue()

    def test_the_text_of_a_file_is_its_help(self) -> None:
        status, said = self.ended("--help")
        self.assertEqual(status, 0)
        self.assertIn("usage: tools/it [-h]", said)
        self.assertIn("Does something: tools/it [--n N]\n", said)
        self.assertTrue(said.endswith("\n    more of it, in docs/IT.md\n"))

    def test_an_installed_tool_has_the_names_of_the_package(self) -> None:
        with mock.patch.object(sys, "argv", ["/usr/bin/rb_broker_it"]):
            said = self.ended("--help")[1]
        self.assertIn("usage: rb_broker_it [-h]", said)
        self.assertIn("Does something: rb_broker_it [--n N]\n", said)
        self.assertTrue(said.endswith("\n    more of it, in /usr/share/doc/rb-broker/docs/IT.md\n"))

    def test_options_are_not_shortened(self) -> None:
        self.assertEqual(self.ended("--num", "1")[0], 2)

    def test_numbers(self) -> None:
        self.assertEqual([*map(number(int, 1, 65_535), ("1", "65535"))], [1, 65_535])
        self.assertEqual(number(float, 0, 1)("0.5"), 0.5)
        for word in ("0", "65536"):
            self.assertIn(f"{word} is not from 1 to 65535", self.ended("--number", word)[1])
        self.assertIn("'3s' is no number from 1 to 65535", self.ended("--number", "3s")[1])
        self.assertRaises(argparse.ArgumentTypeError, number(float, 0, 1), "nan")

    def test_times(self) -> None:
        self.assertEqual([*map(span, ("0s", "9ns", "1.5s", "2m", f"{2**64 - 1}ns"))],
                         [0, 9, 1_500_000_000, 120_000_000_000, 2**64 - 1])
        for word, says in (("30", "30 has no unit: write 30s (units are ns, us, ms, s, m, h, d)"),
                           ("1.5", "1.5 has no unit: write 1.5s"), ("-1s", "'-1s' is no duration: write 30s or 1.5h"),
                           ("1 s", "no duration"), ("", "'' is no duration"), ("1.2.3", "no duration"),
                           ("0.1ns", "not a whole number of nanoseconds"), (f"{2**64}ns", "longer than 2^64 - 1 nanoseconds")):
            with self.subTest(word), self.assertRaisesRegex(argparse.ArgumentTypeError, re.escape(says)):
                span(word)

    def test_the_version_is_that_of_git_or_of_the_package(self) -> None:
        git = ["git", "-C", TOP, "describe", "--always", "--dirty"]
        told = subprocess.run(git, capture_output=True, text=True, check=True).stdout
        self.assertEqual(self.ended("--version"), (0, f"tools/it {told}"))
        for answer, says in ((mock.Mock(stdout="1.2+3.457a6bf3"), "1.2+3.457a6bf3"),
                             (mock.Mock(stdout="", stderr="no packages found\n"), "unknown: no packages found")):
            with mock.patch("common.words.TOP", "/nowhere"), mock.patch("subprocess.run", return_value=answer) as ran:
                self.assertEqual(version(), says)
                self.assertEqual(ran.call_args[0][0][-1], "rb-broker")
        with mock.patch.dict(os.environ, PATH="/nowhere"):
            self.assertEqual(version(), "unknown: there is no git")

    def test_why_work_can_not_be_done(self) -> None:
        for fault, status, says in FAULTS:
            with mock.patch.multiple(sys, stdout=Terminal(), stderr=Terminal()):
                self.assertEqual(exit_status("it", mock.Mock(side_effect=fault)), status)
                self.assertEqual(sys.stderr.told, says)  # type: ignore[attr-defined]

    def test_a_reader_that_has_seen_enough(self) -> None:
        code = "import common.paths; from common.words import exit_status as status"
        code += "; exit(status('it', lambda: print('more', flush=True)))"
        reading, writing = os.pipe()
        os.close(reading)
        ran = subprocess.run([sys.executable, "-B", "-c", code], cwd=f"{TOP}/tools", stdout=writing,
                             stderr=subprocess.PIPE, encoding="utf-8", check=False)
        os.close(writing)
        self.assertEqual((ran.returncode, ran.stderr), (2, "it: cannot write output\n"))
