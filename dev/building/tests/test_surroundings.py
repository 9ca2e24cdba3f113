"""Where a build runs: with which commands and signals, and in what kind of folder."""
import os
import shutil
import subprocess
import sys
import tempfile

from building.tests.checkout import CheckoutTest


class SurroundingsTest(CheckoutTest):
    def test_commands(self) -> None:
        lacks = "broker: rb_broker has to be built, and"
        origin = "(from whoever gave you this repository)"
        no_rt = f"{lacks} the command rt, which builds it, is not on the PATH {origin}\n"
        no_python = f"{lacks} python3, which dev/build needs, is not on the PATH\n"
        self.assertEqual(self.run_with("bash", "readlink", "find", "python3"), (127, no_rt))
        self.assertEqual(self.run_with("bash", "readlink", "find"), (127, no_python))
        self.build()  # a program that is built needs neither
        self.assertEqual(self.run_with("bash", "readlink", "find", "cat"), (7, ""))

    def run_with(self, *commands: str) -> tuple[int, str]:
        """Runs ./broker where there are these commands alone: its status and standard error."""
        with tempfile.TemporaryDirectory() as path:
            for command in commands:
                found = sys.executable if command == "python3" else shutil.which(command)
                os.symlink(found or command, f"{path}/{command}")
            status, _, errors = self.build(before=[f"{path}/bash"], PATH=path)
            return status, errors

    def test_the_version_needs_no_build(self) -> None:
        os.rmdir(f"{self.top}/.git")
        git = ["git", "-C", str(self.top), "-c", "user.name=it", "-c", "user.email=it@host.example"]
        for words in (["init"], ["commit", "--allow-empty", "-m", "it"], ["tag", "--annotate", "1.0", "-m", "it"]):
            subprocess.run([*git, *words], check=True, stdout=subprocess.DEVNULL, stderr=subprocess.DEVNULL)
        self.assertEqual(self.build("--version"), (0, "rb_broker 1.0\n", ""))
        self.assertEqual(self.log(), [])

    def test_a_caller_may_ignore_the_ends_of_children(self) -> None:
        ignores = "import os, signal, sys; signal.signal(signal.SIGCHLD, signal.SIG_IGN); "
        ignores += "os.execv(sys.argv[1], sys.argv[1:])"
        status, output, errors = self.build(before=[sys.executable, "-c", ignores])
        self.assertEqual((status, output), (7, "words \n"), errors)

    def test_ignored_signals_stay_ignored_and_others_do_not(self) -> None:
        self.write("crates/rb_broker/src/main.rt", "grep SigIgn /proc/self/status\n")
        words = ["grep", "SigIgn", "/proc/self/status"]
        plain = subprocess.run(words, capture_output=True, text=True, check=True).stdout
        self.assertEqual(self.build()[1], plain)
        self.write("crates/rb_broker/src/main.rt", "grep SigBlk /proc/self/status\n")
        self.assertRegex(self.build()[1], r"^SigBlk:\s0+$")

    def test_in_a_worktree_whose_folder_of_git_is_a_file(self) -> None:
        folder = f"{self.stand_in}/worktree"
        os.makedirs(folder)
        os.rmdir(f"{self.top}/.git")
        self.write(".git", f"gitdir: {folder}\n")
        self.expect_built_in(f"{folder}/broker-build")
        self.assertEqual(os.listdir(folder), [])

    def test_outside_a_repository(self) -> None:
        os.rmdir(f"{self.top}/.git")
        self.expect_built_in(f"{self.top}/.broker-build")

    def expect_built_in(self, place: str) -> None:
        """Builds, and compares in which folder the stand-in has built a crate."""
        self.does("rb_base", 'pwd -P > "$STAND_IN/place"')
        self.assertEqual(self.build()[0], 7)
        self.assertEqual((self.stand_in / "place").read_text("utf-8"), f"{place}/rooms/rb_base/crates/rb_base\n")
