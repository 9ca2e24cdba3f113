"""Moments follow real time, whatever happens between two runs."""
import argparse
import contextlib
import io
import json
import os
import signal
import subprocess
import time
import unittest
from pathlib import Path

from common.program import tested_program
from common.words import span
from servicing.clock import elapsed, read_clock
from servicing.folder import record_of, run_in
from servicing.opening import Left
from servicing.runs import Next
from servicing.settings import parser
from servicing.tests.process import SYSTEMS_PYTHON, ServiceTest
from servicing.tests.support import SECOND, left_of, reading, record

AWAY = 1000  # seconds
SUSPENDED = "unshare", "--time", "--boottime", str(AWAY)  # as on a machine that has been suspended for so long


class ClockTest(unittest.TestCase):
    def test_the_time_between_two_readings(self) -> None:
        date, other = 1_700_000_000, "boot-2"
        for what, since, now, seconds in (
            ("the machine goes on", reading(100), reading(160.5), 60.5),
            *(("its date is set meanwhile", reading(100), reading(101, it), 1) for it in (0, date - 3600, date + 3600)),
            ("it was off, and counts by its date", reading(9000), reading(5, date + 7200, other), 7200),
            ("its date was set back over a restart", reading(9000), reading(5, 1_600_000_000, other), 0),
        ):
            with self.subTest(what):
                self.assertEqual(elapsed(since, now), int(seconds * SECOND))

    def test_the_machine_has_these_clocks(self) -> None:
        one, two = read_clock(), read_clock()
        self.assertEqual(one.boot, two.boot)
        self.assertGreaterEqual(elapsed(one, two), 0)
        self.assertLess(elapsed(one, two), SECOND)

    def test_a_run_begins_at_the_moment_of_the_one_before_plus_the_time_since(self) -> None:
        following = Next(Left(0, 0, {}), 5 * SECOND, reading(up=100))
        self.assertEqual(following.at(reading(up=112)).moment, 17 * SECOND)
        self.assertEqual(following.at(reading(up=3712)).moment, 3617 * SECOND)

    def test_a_record_of_an_earlier_version(self) -> None:
        """Its run began later than it says, unless that was seen. It is written as one of now."""
        run = record(opening=20_000)
        for is_seen, later in ((True, 0), (False, 12)):
            old = json.dumps({**json.loads(record_of(run)), "is_seen": is_seen})
            read = run_in(old.encode())
            self.assertEqual(read.began, run.began.after(later * SECOND))
            self.assertEqual(run_in(record_of(read)), read)


class OneClockTest(ServiceTest):
    """All runs have the clock of the first, which is the machine's."""

    def keeps_time(self, ahead: int = 0) -> None:
        """The service's clock is ahead by so many seconds of this test's."""
        least, most = self.zero()
        self.assertTrue(least <= self.first_zero() - ahead * SECOND <= most, (least, self.first_zero(), most))

    def test_whatever_ends_a_run(self) -> None:
        """A rollover does, a kill of the server, and of the service, whose server goes on; and nobody is there."""
        store, options = self.store(), ("--every", "1s")
        service = self.begin(*options, store=store)
        for count in range(1, 4):
            service.wait("serving", count)
            self.keeps_time()
        os.kill(service.server, signal.SIGKILL)
        service.wait("lost-run")
        self.keeps_time()
        service.kill()
        service = self.begin(*options, store=store)
        self.keeps_time()
        self.ends(service)
        time.sleep(1)
        with self.serving(store=store):
            self.keeps_time()

    def test_a_machine_that_was_suspended(self) -> None:
        if subprocess.run([*SUSPENDED, SYSTEMS_PYTHON, "-c", ""], capture_output=True, check=False).returncode:
            self.skipTest("no other time can be had here")
        with self.serving("--every", "1s", before=SUSPENDED) as service:
            for count in range(1, 4):
                service.wait("serving", count)
                self.keeps_time(AWAY)

    def test_a_run_of_an_earlier_version(self) -> None:
        """Its clock may have begun ten seconds after it says. So the next run begins at its last event."""
        with self.serving():
            self.offer(1)
        told, left = self.record(1), left_of(Path(self.path("runs/run-1.txt")).read_text("ascii"))
        Path(self.path("runs/run-1.json")).write_text(json.dumps({**told, "is_seen": False}), "ascii")
        with self.serving():
            self.assertRegex(self.ask("POLL")[0], "^ITEM [0-9]+ [0-9]+ 1 job-0$")
        self.assertEqual(self.record(2)["moment"], left.moment)

    def test_how_long_a_run_lasts(self) -> None:
        """That counts from when it serves, however long its server takes to start."""
        slow = self.file("program", f'#!/bin/sh\n[ "$1" = serve ] && sleep 2\nexec "{tested_program()}" "$@"\n')
        os.chmod(slow, 0o700)
        with self.serving("--every", "1s", program=slow) as service:
            service.wait("serving", 2)
        told = self.record(1)
        self.assertGreaterEqual(told["end"]["date"] - told["began"]["date"] / SECOND, 3)


class WordsTest(unittest.TestCase):
    def test_times(self) -> None:
        for word, wanted in (
            ("30s", 30 * SECOND), ("5m", 300 * SECOND), ("1h", 3600 * SECOND), ("7d", 604_800 * SECOND), ("0s", 0),
            ("20ms", 20_000_000), ("3us", 3_000), ("9ns", 9), ("1.5s", 1_500_000_000), ("0.1ms", 100_000),
        ):
            self.assertEqual(span(word), wanted)

    def test_other_times_are_refused(self) -> None:
        for word in ("30", "30.0", "s", "", "-1s", "1 s", "1S", "1sec", "1h30m", "1e3s", "١s", "30000000000"):
            with self.subTest(word), self.assertRaisesRegex(argparse.ArgumentTypeError, "write [0-9.]+s"):
                span(word)

    def http(self, word: str) -> object:
        with contextlib.redirect_stderr(io.StringIO()) as said:
            try:
                return parser("").parse_args(["--http", word]).http
            except SystemExit:
                return said.getvalue()

    def test_addresses(self) -> None:
        for word, address in (("7080", ("127.0.0.1", 7080)), ("127.0.0.9:0", ("127.0.0.9", 0)),
                              ("localhost:65535", ("127.0.0.1", 65535)), ("[::1]:7080", ("::1", 7080)),
                              ("0.0.0.0:7080", ("0.0.0.0", 7080))):
            self.assertEqual(self.http(word), address)
        for word in ("", "65536", "x:7080", "1.2.3:80", "127.0.0.1:", "http://x", "nonsense"):
            says = f"service: argument --http: {word!r} is no address such as 127.0.0.1:7080\n"
            self.assertEqual(self.http(word), says)
