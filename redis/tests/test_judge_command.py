"""Small files of an archive, which are judged as one history."""
from __future__ import annotations

import re
import subprocess
from unittest import mock

from judging import PROGRAM
from rb_broker_redis import cuts, pieces
from redis_test import SEAT, RedisTest


class JudgeCommandTest(RedisTest):
    def archive_small_files(self) -> None:
        """Makes files of one event each, where that can be."""
        self.folder = self.room / "archive"
        queue = self.joined(attempts=3)
        for number in range(25):  # in hand while the next one is fetched, so that each cut is crossed
            queue.make([f"{SEAT} OFFER 0 a", f"{SEAT + number} POLL", *([f"{SEAT + number - 1} END"] if number else [])])
            self.ran("archive", self.folder, "--events", 1)
        self.files = sorted(self.folder.iterdir())

    def judge(self, *words: object) -> tuple[int, list[str], str]:
        return self.ran_alone("judge", *self.files, "--delay", "0s", "--attempts", 3, "--program", PROGRAM, *words)

    def refused_alone(self) -> int:
        """How many files are refused if each is judged by itself."""
        words = [PROGRAM, "replay", "--chains", "--delay", "0", "--attempts", "3"]
        return sum(subprocess.run([*words[:2], it, *words[2:]], capture_output=True, check=False).returncode
                   for it in self.files)

    def test_files_that_are_refused_alone_are_accepted_together(self) -> None:
        self.archive_small_files()
        self.assertGreater(self.refused_alone(), 5)
        status, (line,), errors = self.judge()
        self.assertEqual((status, errors), (0, ""))
        self.assertRegex(line, r'^events 0 to \d+: {"calls":\d+,.*}$')

    def test_pieces(self) -> None:
        self.write("open 0 0 0", "1 5 5 offer 0 5 0 5 1 a", "1 5 5 poll 0", *["1 6 6 size 0"] * 4,
                   "1 9 9 offer 1 9 0 5 2 a", "1 9 9 poll 1")
        status, lines, errors = self.judge("--events", 2)
        self.assertEqual((status, errors, [it.partition(":")[0] for it in lines]), (0, "", [
            f"events {it}" for it in ("0 to 0", "1 to 2", "3 to 4", "5 to 6", "7 to 7")]))
        self.assertEqual([it.partition("}")[2] for it in lines], [
            "", "", "", "; 1 jobs in them were given before", ""])

    def test_a_return_that_is_wrong_is_refused_in_a_piece_of_its_own(self) -> None:
        """The attempt before was given in another piece."""
        for offer in ("offer 1 9 0 5 3 a", "offer 1 9 0 5 2 b", "offer 1 8 0 5 2 a"):
            with self.subTest(offer=offer):
                self.write(
                    "open 0 0 0", "1 5 5 offer 0 5 0 5 1 a", "1 5 5 poll 0", *["1 6 6 size 0"] * 4, f"1 9 9 {offer}")
                status, lines, errors = self.judge("--events", 2)
                self.assertEqual((status, len(lines)), (1, 3))
                self.assertRegex(errors, "^rb_broker_redis: unchained ")

    def test_an_earlier_element_keeps_a_piece_from_being_judged_by_chains(self) -> None:
        self.write(
            "open 0 0 0", "1 5 5 offer 0 5 0 5 1 a", "1 5 5 poll 0", "1 6 6 offer 1 4 1 4 1 b", *["1 6 6 size 1"] * 3,
            "1 9 9 offer 2 9 0 5 2 a", "1 9 9 poll 1")
        status, lines, errors = self.judge("--events", 2)
        self.assertEqual((status, errors), (0, ""))
        self.assertEqual([it.partition("}")[2] for it in lines], [
            "", "", "", "; 1 jobs in them were given before, so their chains are not judged", ""])

    def test_a_queue_with_more_elements_than_a_text_may_begin_with(self) -> None:
        """Most of those that no event names are left out."""
        keeps = [f"keep {it} {it + 10} {it} {it + 10} 1 a" for it in range(100)]
        events = [
            "1 11 11 poll 0", "1 11 11 size 99", "1 11 11 peek 1", "1 11 11 offer 100 60 100 60 1 b", "1 11 11 remove 50 yes",
            "1 12 12 drain 2 1 2", "1 12 12 poll none", "1 12 12 size 97", "1 12 12 remove 101 no"]
        with mock.patch.object(pieces, "MOST_OPENING_ELEMENTS", 10):
            self.write("open 100 10 100", *keeps, *events)
            status, (line,), errors = self.judge()
            self.assertEqual((status, errors), (0, ""))
            self.assertRegex(line, r"; 95 elements that stay are left out$")
            for right, wrong in (
                ("poll 0", "poll 1"), ("size 99", "size 98"), ("peek 1", "peek none"), ("peek 1", "peek 2"),
                ("1 12 12 poll none", "1 13 13 poll none"), ("drain 2 1 2", "drain 2 1"), ("size 97", "size 96"),
                ("remove 101 no", "remove 60 no"),
            ):
                with self.subTest(wrong=wrong):
                    self.write("open 100 10 100", *keeps, *(it.replace(right, wrong) for it in events))
                    self.assertEqual(self.judge()[:2], (1, []))
            self.write("open 100 10 100", *keeps, "1 10 10 size 100", "1 10 10 clear", "1 10 10 size 0")
            self.assertEqual(self.judge()[0], 0)
            self.write("open 100 10 100", *keeps, "1 74 74 drain 64 " + " ".join(map(str, range(64))),
                       *(f"1 99 99 poll {it}" for it in range(64, 70)))
            status, lines, _ = self.judge()
            self.assertEqual((status, len(lines) > 1), (0, True))

    def write(self, *lines: str) -> None:
        """The only file."""
        file = self.room / "jobs-000000000000.txt"
        count = sum(not it.startswith(("open", "keep")) for it in lines)
        file.write_text("\n".join(["history 3", *lines, f"end {count}"]) + "\n")
        self.files = [file]

    def test_what_is_not_legal_is_refused(self) -> None:
        self.archive_small_files()
        second = re.compile(r"( offer .*) 2 a$", re.M)
        while not second.search(self.files[-1].read_text()):
            self.files.pop()
        self.files[-1].write_text(second.sub(r"\1 3 a", self.files[-1].read_text()))
        status, lines, errors = self.judge()
        self.assertEqual((status, lines), (1, []))
        self.assertRegex(errors, r"^rb_broker_redis: (unchained|refused) \d+ ")

    def test_a_queue_of_more_elements_than_a_file_may_begin_with(self) -> None:
        """At a border of 1,000; that of `replay` is 1,000,000."""
        queue, self.folder = self.joined(attempts=3), self.room / "archive"
        with mock.patch.object(cuts, "MOST_OPENING_ELEMENTS", 1_000), mock.patch.object(pieces, "MOST_OPENING_ELEMENTS", 1_000):
            queue.make([f"{SEAT} OFFER 3600000000000 a"] * 2_500)
            queue.make([f"{SEAT} OFFER {it} b-{it}" for it in range(3)])
            queue.make([f"{SEAT} POLL", f"{SEAT} END", *[f"{SEAT + 1} POLL"] * 3, f"{SEAT} SIZE", f"{SEAT} PEEK",
                        *[f"{SEAT + 1} DONE {it}" for it in (2_501, 2_502, 2_503)]])
            status, said, errors = self.ran("archive", self.folder, "--events", 500)
            self.assertEqual((status, errors), (0, ""))
            self.assertEqual(["more than 1,000,000 elements are left" in it for it in said], [False] * 2 + [True] * 4)
            self.files = sorted(self.folder.iterdir())
            status, lines, errors = self.judge("--events", 500)
            self.assertEqual((status, errors), (0, ""))
            self.assertRegex(lines[-1], r"; 2498 elements that stay are left out$")
            self.exchange("poll 2501\n", "poll 2502\n")
            self.assertEqual(self.judge("--events", 500)[:2], (1, lines[:-1]))

    def exchange(self, one: str, other: str) -> None:
        """Exchanges the ends of two lines of the last file."""
        text = self.files[-1].read_text()
        self.assertEqual((text.count(one), text.count(other)), (1, 1))
        self.files[-1].write_text(text.replace(one, "\n\n").replace(other, one).replace("\n\n", other))

    def test_a_file_that_is_missing(self) -> None:
        self.archive_small_files()
        gone = self.files.pop(5)
        status, _, errors = self.judge()
        self.assertEqual(status, 1)
        self.assertIn(f"{self.files[5]}: it does not begin with what the file before it left\n", errors)
        self.assertTrue(gone.exists())

    def test_a_program_that_is_not_there(self) -> None:
        self.write("open 0 0 0")
        self.assertEqual(self.judge("--program", "/nowhere")[0], 3)
