"""How far long work is."""
import os
import threading
from pathlib import Path
from unittest import mock

from checking.testing import RoomTest
from common.progress import ERASE, Progress
from common.tests.support import Terminal, long_work_at_terminal

# What work says that says something after each of so many seconds, and what it writes at a terminal of 20 columns.
SAID: list[tuple[list[str], list[float], list[str]]] = [
    (["counting"], [1.9, 1.9], []), (["counting"] * 3, [1.9, 2.0, 2.1, 2.1], ["counting", "counting", ""]),
    ([30 * "a"], [2.0, 2.0], [19 * "a", ""]),
]


class ProgressTest(RoomTest):
    def reading(self, path: str) -> list[str]:
        """What is said at a terminal while a file is read that has the text `a` in each of its lines."""
        with long_work_at_terminal(), mock.patch("sys.stderr", Terminal()) as stderr:
            with Progress() as progress, progress.reading(path) as file:
                self.assertEqual(set(iter(file.readline, b"")), {b"a\n"})
        return stderr.told.split(ERASE)

    def test_only_long_work_says_how_far_it_is(self) -> None:
        for says, seconds, told in SAID:
            with mock.patch("sys.stderr", Terminal()) as stderr, mock.patch.dict(os.environ, COLUMNS="20"), \
                    mock.patch("time.monotonic", side_effect=[0.0, *seconds]), Progress() as progress:
                for text in says:
                    progress.say(text)
            self.assertEqual(stderr.told, "".join(f"{ERASE}{line}" for line in told))

    def test_nothing_is_said_where_there_is_no_terminal(self) -> None:
        with mock.patch("sys.stderr") as stderr, mock.patch("time.monotonic", return_value=100.0):
            stderr.isatty.return_value = False
            with Progress() as progress:
                progress.say("counting")
            self.assertFalse(stderr.write.called)

    def test_the_line_is_empty_after_a_fault(self) -> None:
        with long_work_at_terminal(), mock.patch("sys.stderr", Terminal()) as stderr:
            with self.assertRaises(OSError), Progress() as progress:
                progress.say("counting")
                raise OSError
        self.assertEqual(stderr.told, f"{ERASE}counting{ERASE}")

    def test_how_much_of_a_file_has_been_read(self) -> None:
        for lines, most in ((40_000, 10), (1_000_000, 101)):  # of 8,192 bytes, of which a percent may have several
            path = self.file("text.txt", lines * "a\n")
            told = self.reading(path)
            self.assertEqual(told[1], f"reading {path}: 0 %")
            self.assertLessEqual({f"reading {path}: 51 %", f"reading {path}: 100 %"}, {*told})
            self.assertLessEqual(len(told), most + 4)

    def test_a_file_without_a_size(self) -> None:
        os.mkfifo(self.path("pipe"))
        writer = threading.Thread(target=Path(self.path("pipe")).write_text, args=("a\n",))
        writer.start()
        self.addCleanup(writer.join)
        self.assertEqual(self.reading(self.path("pipe")), ["", ""])
