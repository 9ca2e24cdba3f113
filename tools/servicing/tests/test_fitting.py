"""Folders from which something was taken, or in which it was changed, since a service was there."""
import gzip
import hashlib
import json
import os
import shutil
import time
import unittest
from collections.abc import Callable
from pathlib import Path

from servicing.deciding import Misfit, misfit_in, misfit_of
from servicing.server import Checked
from servicing.state import End, Reason
from servicing.tests.process import ServiceTest, until
from servicing.tests.support import left_of, record

HISTORY = "history 3\nopen 4 7000 1\nkeep 3 9 3 9 1 a\n1 1 8000 offer 4 9 4 9 1 b\n2 1 8000 take 4\nend 2\n"
AUDIT = {"calls": 2, "offered": 1, "given": 1, "left": 1}


class FittingTest(unittest.TestCase):
    def test_records_that_follow_one_another(self) -> None:
        """Each case changes one thing of three runs, of which the second was lost, or of those behind dropped ones."""
        well, lost = End(1.0, Reason.TIME, digest="d1"), End(1.0, Reason.KILLED)
        first, second, third = record(4, well), record(5, lost, follows="d1"), record(6, follows="lost")
        runs, other = {4: first, 5: second, 6: third}, record(4, End(1.0, Reason.TIME, digest="d2"))
        gap = Misfit(5, "run 6 continued run 5, of which there is no record", third)
        for wanted, records, histories in (
            (None, runs, [1, 2, 4]), (None, {6: third}, []), (None, {4: first, 6: record(6)}, [4]),
            (gap, {4: first, 6: third}, [4]),
            (Misfit(4, "run 5 continued run 4, of which there is another record", second), {**runs, 4: other}, [4]),
            (Misfit(5, "run 5 has a history and no record"), {4: first, 6: third}, [4, 5]),
            (Misfit(7, "run 7 has a history and no record"), runs, [4, 7]),
            (Misfit(5, "run 5 was lost, and has a history"), {4: first, 5: second}, [4, 5]),
        ):
            self.assertEqual(misfit_in(records, histories), wanted)

    def test_a_history_of_a_run(self) -> None:
        """One that is the run's, and what is said of each that is not."""
        left = left_of(HISTORY)
        whole = End(1.0, Reason.TIME, 2, 1, 0, 1, 1, digest="d")
        for wanted, told, end, digest in (
            ("", {}, whole, "d"), ("", {}, None, "d"), ("", {}, End(1.0, Reason.UNKNOWN), "d"),
            ("", {"moment": 6999}, None, "d"),
            *(("it does not begin as run 2 did", it, None, "d") for it in (
                {"next_id": 5}, {"opening": 0}, {"moment": 7001})),
            ("its SHA-256 is e, and that of run 2 was d", {}, whole, "e"),
            ("calls is 2, and was 3 in run 2", {}, End(1.0, Reason.TIME, 3), "d"),
            ("given is 1, and was 0 in run 2", {}, End(1.0, Reason.TIME, 2, 1, 0, 0), "d"),
            ("left is 1, and was 2 in run 2", {}, End(1.0, Reason.TIME, 2, 1, 0, 1, 2), "d"),
        ):
            run = record(2, end, **{"next_id": 4, "moment": 7000, "opening": 1, **told})
            self.assertEqual(misfit_of(run, Checked(AUDIT, left, digest)), wanted)


class ChangedTest(ServiceTest):
    """Of three runs the first has left 3 elements, the second 5 and the third 6."""

    def setUp(self) -> None:
        super().setUp()
        self.memory = self.path("memory/rb_broker")
        for count in (3, 2, 1):
            with self.serving():
                self.offer(count, name=f"of-{count}")

    def change(self, change: Callable[[Path], object]) -> str:
        """A changed copy of the folder."""
        folder = self.path(f"changed-{time.monotonic_ns()}")
        shutil.copytree(self.path("runs"), folder, ignore=shutil.ignore_patterns("status"))
        change(Path(folder))
        return folder

    def test_what_does_not_fit_is_refused_until_it_is_accepted(self) -> None:
        """Nothing is changed by the refusal, whose line names the run; then as much is left as that run began with, or
        as there was if it is not the last one."""
        text = Path(self.path("runs/run-3.txt")).read_bytes()
        end, before = self.record(3)["end"], self.record(2)["end"]
        digest = hashlib.sha256(text).hexdigest()
        self.assertEqual((end["digest"], self.record(3)["follows"]), (digest, before["digest"]))
        self.assertEqual((end["left"], end["offered"]), (6, 1))
        for name, change, run, size, says in (
            ("missing", lambda it: os.unlink(it / "run-3.txt"), 3, 5,
             "run 3 ended in good order, and has no history. "),
            ("edited", lambda it: (it / "run-3.txt").write_bytes(text.replace(b"of-1-0", b"of-1-7")), 3, 5,
             "run-3.txt can't be continued: its SHA-256 is "),
            ("swapped", lambda it: (it / "run-3.txt").write_bytes(self.other(it)), 3, 5,
             "run-3.txt can't be continued: it does not begin as run 3 did. "),
            ("cut", lambda it: (it / "run-3.txt").write_bytes(text[:-9]), 3, 5, "run-3.txt can't be continued: "),
            ("gap", lambda it: [os.unlink(path) for path in it.glob("run-2.*")], 2, 6,
             "run 3 continued run 2, of which there is no record. "),
            ("another record", self.change_record, 2, 6, "run 3 continued run 2, of which there is another record. "),
            ("no record", lambda it: shutil.copy(it / "run-3.txt", it / "run-4.txt"), 4, 6,
             "run 4 has a history and no record. "),
            ("a record alone is missing", lambda it: os.unlink(it / "run-3.json"), 3, 5,
             "run 3 has a history and no record. "),
            ("the last run is missing", lambda it: [os.unlink(path) for path in it.glob("*-3.*")], 3, 5,
             "run 3 continued run 2, and has no record. "),
        ):
            with self.subTest(name):
                self.try_change(self.change(change), run, size, says)

    def try_change(self, folder: str, run: int, size: int, says: str) -> None:
        files = sorted(os.listdir(folder))
        service = self.start(folder=folder)
        self.assertEqual(service.end(), 1)
        self.assertIn(says, service.lines[-1])
        self.assertIn(f"start with --accept-loss {run}, which gives up", service.lines[-1])
        self.assertEqual([it for it in sorted(os.listdir(folder)) if it != "status"], files)
        with self.serving("--accept-loss", run, folder=folder, lost=int(run == 3)) as service:
            self.has_left(size)
        self.assertEqual(service.all("accepted-loss")[0]["level"], "error")
        if run == 2:  # where the others go on from what this one has left
            self.ends(self.begin(folder=folder))

    def other(self, folder: Path) -> bytes:
        """The history of the run before."""
        packed = folder / "run-2.txt.gz"
        return gzip.decompress(packed.read_bytes()) if packed.exists() else (folder / "run-2.txt").read_bytes()

    def change_record(self, folder: Path) -> None:
        path = folder / "run-2.json"
        told = json.loads(path.read_bytes())
        told["end"]["digest"] = "0" * 64
        path.write_text(json.dumps(told), "ascii")

    def test_a_history_that_waits_in_memory_and_is_another(self) -> None:
        """The run is lost, which is said, and what there was is kept for whoever wants to know why."""
        service = self.begin()
        self.offer(1)
        service.kill()
        until(lambda: not service.servers, "the server ends")
        (path,) = Path(self.memory).glob("*-4-history")
        path.write_bytes(other := self.other(Path(self.path("runs"))))
        again = self.begin()
        told = again.all("lost-run")[0]
        self.assertEqual((told["run"], told["level"], told["why"]), ("4", "error", "it does not begin as run 4 did"))
        self.assertEqual(Path(self.path("runs/damaged-4.txt")).read_bytes(), other)
        self.has_left(6)
        self.ends(again, lost=1)

    def test_an_opening_that_was_changed(self) -> None:
        """It is wanted when a run was lost."""
        self.begin().kill_all()
        Path(self.path("runs/opening-4.txt")).write_bytes(b"history 3\nopen 9 0 0\nend 0\n")
        service = self.start()
        self.assertEqual(service.end(), 1)
        self.assertIn("opening-4.txt is not what run 4 began with: restore it", service.lines[-1])
