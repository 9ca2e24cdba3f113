"""Disks that are full, and folders that are not as they should be."""
import contextlib
import json
import os
import shutil
import signal
import subprocess
import threading
import time
from pathlib import Path
from typing import Any
from unittest import mock

from checking.testing import RoomTest
from common.program import tested_program
from serving import PATIENCE
from servicing.folder import Folder
from servicing.http import asked
from servicing.opening import Left
from servicing.runs import Next, Runs
from servicing.settings import parser, settings_of
from servicing.state import End, Reason
from servicing.tests.process import Service, ServiceTest, until
from servicing.tests.support import reading, record

JOBS = 2000


class FullDiskTest(ServiceTest):
    def setUp(self) -> None:
        super().setUp()
        self.small = self.path("small")
        os.mkdir(self.small)
        words = ["mount", "-t", "tmpfs", "-o", "size=64k,mode=700", "tmpfs", self.small]
        if os.geteuid() or subprocess.run(words, capture_output=True, check=False).returncode:
            self.skipTest("no small file system can be mounted here")
        self.addCleanup(lambda: subprocess.run(["umount", "-l", self.small], check=False))

    def test_a_history_waits_in_memory_for_room(self) -> None:
        with self.serving("--every", "2s", folder=self.small) as service:
            self.offer(JOBS)
            told = service.wait("disk")
            self.assertEqual((told["why"], told["level"]), ("No space left on device", "error"))
            self.assertGreater(int(told["kept"]), 64 * 1024)
            time.sleep(2)
            self.assertEqual(len(service.all("disk")), 1)
            self.make_room()
            service.wait("disk-over")
            self.has_left(JOBS)

    def clear(self) -> None:
        """Once no gzip is at work there, which goes on when its service has ended."""
        def is_clear() -> bool:
            for it in Path(self.small).iterdir():
                it.unlink(missing_ok=True)
            words = ["mount", "-o", "remount,size=64k", self.small]
            return subprocess.run(words, capture_output=True, check=False).returncode == 0

        until(is_clear, "the disk is small again")

    def make_room(self) -> None:
        subprocess.run(["mount", "-o", "remount,size=4m", self.small], check=True)

    def test_a_service_that_has_to_end_leaves_it_to_the_next_one(self) -> None:
        """Also one whose descriptors systemd keeps, since it forgets them then."""
        for make in (lambda: None, self.store):
            store = make()
            with self.subTest(store=store):
                service = self.begin("--stop-within", "1s", folder=self.small, store=store)
                self.offer(JOBS)
                self.assertEqual(service.stop(), 1)
                says = r"run-\d\.txt can't be written: No space left on device; [0-9,]+ bytes are kept in memory; "
                self.assertRegex(service.all("left-behind")[0]["text"], says)
                if store:
                    store.close()
                again = self.start(folder=self.small)
                again.wait("disk")
                again.kill()
                self.make_room()
                with self.serving(folder=self.small):
                    self.has_left(JOBS)
                self.clear()

    def test_a_lost_run_is_said_before_it_can_be_written_down(self) -> None:
        """A service that is killed in between leaves that to the next one."""
        service = self.begin(folder=self.small)
        with open(f"{self.small}/much", "wb", 0) as file, contextlib.suppress(OSError):
            while file.write(b"x" * 4096):
                pass
        os.kill(service.server, signal.SIGKILL)
        self.assertEqual(service.wait("lost-run")["run"], "1")
        service.wait("disk")
        service.kill()
        os.unlink(f"{self.small}/much")
        with self.serving(folder=self.small, lost=1):
            self.has_left(0)

    def test_it_is_killed_meanwhile(self) -> None:
        service = self.begin("--every", "2s", folder=self.small)
        self.offer(JOBS)
        service.wait("disk")
        service.kill()
        self.make_room()
        with self.serving(folder=self.small) as again:
            self.assertEqual(again.all("resume")[0]["how"], "collect")
            self.has_left(JOBS)


class GoneTest(ServiceTest):
    def test_a_folder_that_was_deleted(self) -> None:
        """What is left behind is said with the reason, which is no full disk."""
        service = self.begin("--stop-within", "1s")
        self.offer(1)
        shutil.rmtree(self.path("runs"))
        self.assertEqual(service.stop(), 1)
        says = rf"^{self.path('runs')}/run-1.txt can't be written: No such file or directory; \d+ bytes are kept in memory; "
        self.assertRegex(service.all("left-behind")[0]["text"], says)


class SlowDiskTest(RoomTest):
    def test_what_belongs_together_is_waited_for_at_once(self) -> None:
        """What a run has left, and what the next one begins with: for both files at once, and then for their names."""
        runs, settings = Runs(Folder(self.path("runs"), 1)), settings_of(parser("").parse_args([]), "program")
        both, waits = threading.Barrier(2), list[set[str]]()

        def fsync(file: Any) -> None:
            if not isinstance(file, int):  # the folder
                both.wait(PATIENCE)
            waits.append(set(os.listdir(self.path("runs"))))

        with mock.patch("os.fsync", fsync):
            runs.write(record(1, End(1.0, Reason.TIME)), {"run-1.txt": [b"history"]})
            runs.prepare(2, Next(Left(0, 0, {}), 0), reading(), settings)
        usual, left = {"id", "lock"}, {"run-1.txt", "run-1.json"}
        begins = {"opening-2.txt", "run-2.json"}
        self.assertEqual(waits, [*[usual | {f"{it}.new" for it in left}] * 2, usual | left,
                                 *[usual | left | {f"{it}.new" for it in begins}] * 2, usual | left | begins])


class FolderTest(ServiceTest):
    def test_what_can_not_be_used(self) -> None:
        """The service ends at once and says why in its last line, which is the only one if nothing was begun."""
        self.file("plain", "")
        self.file("unread/run-1.json", "{")
        self.file("bare/run-1.json", "{}")
        refuses = 'case $1 in serve) echo "rb_broker: bad opening" >&2;; *) echo "unreadable 2 opening";; esac'
        other = self.file("program", f"#!/bin/sh\n{refuses}\nexit 1\n")
        os.chmod(other, 0o700)
        opening = "rb_broker: bad opening: `rb_broker replay` says of opening-1.txt: unreadable 2 opening"
        for folder, program, says, lines in (
            ("", "", "argument --folder: '' is no path", 1),
            ("plain/runs", "", "Not a directory", 1), ("unread", "", "run-1.json is no record of a run: Expecting", 2),
            ("bare", "", "run-1.json is no record of a run: it has no 'end'. Put what was there back, or start with", 2),
            ("runs", "/bin/false", f"no server at port {self.port}: its process has ended", 2),
            ("others", other, f"service: no server at port {self.port}: {opening}", 2),
        ):
            service = Service(self.path(folder) if folder else "", port=self.port, program=program)
            self.assertEqual((service.end(), len(service.lines)), (1 if folder else 2, lines), service.lines)
            self.assertIn(says, service.lines[-1])

    def test_a_history_that_is_a_pipe(self) -> None:
        os.mkfifo(self.path("pipe"))
        service = self.start("--from", self.path("pipe"))
        self.assertEqual(service.end(), 1)
        self.assertIn("/pipe is no regular file", service.lines[-1])

    def test_a_history_that_is_no_history_is_kept(self) -> None:
        with self.serving():
            self.offer(2)
        path = Path(self.path("runs/run-1.txt"))
        path.write_text("history 3\nopen 0 0 0\nend 7\n", encoding="ascii")
        service = self.start()
        self.assertEqual(service.end(), 1)
        self.assertRegex(service.lines[-1], "run-1.txt can't be continued: ")
        self.assertTrue(path.exists())

    def test_a_server_that_can_not_start_later_is_tried_again(self) -> None:
        program = self.path("program")
        shutil.copy(tested_program(), program)
        with self.serving(program=program, lost=1) as service:
            os.rename(program, f"{program}.away")
            os.kill(service.server, signal.SIGKILL)
            service.wait("not-listening")
            os.rename(f"{program}.away", program)
            service.wait("not-listening-over")
            self.has_left(0)

    def off(self, folder: str, hours: int) -> None:
        """A job that is due in half an hour; and then the machine was off for so long, by its date."""
        with self.serving(folder=folder):
            self.ask("OFFER 1800000000000 reminder")
        told = self.record(1, folder)
        told["began"].update(boot="another", date=told["began"]["date"] - hours * 3_600_000_000_000)
        Path(f"{folder}/run-1.json").write_text(json.dumps(told), encoding="ascii")

    def test_a_machine_that_was_off(self) -> None:
        """An hour later by its date, or with a date that was set back."""
        for hours, due in ((1, True), (-1, False)):
            with self.subTest(hours=hours):
                folder = self.path(f"off{hours}")
                self.off(folder, hours)
                with self.serving(folder=folder):
                    self.assertRegex(self.ask("POLL")[0], "^ITEM .* 1 reminder$" if due else "^NONE$")

    def test_a_date_that_can_not_be_right(self) -> None:
        """No run begins, and nothing is due too early, until somebody says that it is right."""
        self.off(self.path("runs"), 50)
        service = self.start("--away", "2d")
        self.assertEqual((service.wait("date")["level"], service.all("serving")), ("error", []))
        self.assertIn("alert", asked(self.path("runs/status"), "GET /health")[1].decode())
        self.assertEqual(service.stop(), 0)
        with self.serving("--away", "3d"):
            self.assertRegex(self.ask("POLL")[0], "^ITEM .* 1 reminder$")
