"""Which program is run."""
import argparse
import os
import subprocess
import sys
from unittest import mock

from checking.testing import RoomTest
from common.program import PROGRAM, TESTED, TOP, built_program, program_named, let_tests_run, tested_program


class ProgramTest(RoomTest):
    def test_a_program_that_is_given_is_taken_and_the_checkouts_is_built(self) -> None:
        with mock.patch("subprocess.Popen") as build:
            self.assertEqual(built_program("/bin/other"), "/bin/other")
            self.assertFalse(build.called)
            build.return_value.wait.return_value = 0
            self.assertEqual(built_program(), PROGRAM)
            build.return_value.wait.return_value = 126
            with self.assertRaises(SystemExit) as end:
                built_program()
        self.assertEqual((end.exception.code, build.call_args.args), (2, ([f"{TOP}/broker", "--help"],)))

    def test_a_build_that_ctrl_c_stops_has_said_so_itself(self) -> None:
        with mock.patch("subprocess.Popen") as build:
            build.return_value.wait.side_effect = [KeyboardInterrupt, -2]
            with self.assertRaises(SystemExit) as end:
                built_program()
        self.assertEqual((end.exception.code, build.return_value.wait.call_count), (130, 2))

    def test_a_build_that_this_process_has_killed_says_nothing(self) -> None:
        with mock.patch("subprocess.Popen") as build:
            build.return_value.wait.side_effect = [KeyboardInterrupt, -9]
            self.assertRaises(KeyboardInterrupt, built_program)

    def test_a_program_that_is_named(self) -> None:
        path = self.file("program", "")
        for word in (path, f"{self.room}/none", "no-such-command"):
            self.assertRaises(argparse.ArgumentTypeError, program_named, word)
        os.chmod(path, 0o700)
        self.assertEqual(program_named(path), path)
        self.assertEqual(program_named(os.path.relpath(path)), os.path.abspath(path))
        self.assertTrue(os.path.isabs(program_named("sh")))

    def test_tests_run_what_was_chosen(self) -> None:
        with mock.patch.dict(os.environ):
            os.environ.pop(TESTED, None)
            self.assertEqual(tested_program(), PROGRAM)
            self.assertEqual(let_tests_run("/bin/other"), "/bin/other")
            self.assertEqual(tested_program(), "/bin/other")
            code = "from common.program import tested_program; print(tested_program())"
            told = subprocess.run([sys.executable, "-B", "-c", code], cwd=f"{TOP}/tools", stdout=subprocess.PIPE,
                                  check=True, encoding="utf-8")
            self.assertEqual(told.stdout, "/bin/other\n")
