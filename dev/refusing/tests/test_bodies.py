"""Each wrong body is planted into a copy of the checkout, in which dev/refuse_allocations then has to find it."""
import os
import re
import shutil
import subprocess
import sys
from pathlib import Path

from attacking import edited
from checking.testing import PATIENCE, RoomTest
from common.program import TOP

BODIES = Path(TOP, "dev/refusing/tests/bodies")
LEFT_OUT = shutil.ignore_patterns("out", "must-fail", "attacks", "__pycache__")


class BodyTest(RoomTest):
    def plant(self, body: str) -> None:
        """Copies what the tool reads, and applies the edit of this name."""
        for name in ("crates.txt", "HANDLES"):
            shutil.copy2(f"{TOP}/{name}", self.room)
        for name in ("clients/python/src", "crates", "dev", "tools"):
            shutil.copytree(f"{TOP}/{name}", self.path(name), ignore=LEFT_OUT)
        for path, text in edited(Path(self.path("crates"), os.path.dirname(body)), BODIES / f"{body}.edit").items():
            path.write_text(text, "utf-8")

    def expect(self, crate: str, body: str, said: str, passed: int = 0) -> None:
        """Expects that with this body the tests of the crate fail, all but this many, and why."""
        self.plant(body)
        command = [sys.executable, "-B", self.path("dev/refuse_allocations"), crate]
        ran = subprocess.run(command, capture_output=True, encoding="utf-8", timeout=PATIENCE, check=False)
        self.assertEqual((1, ""), (ran.returncode, ran.stderr), ran.stdout)
        self.assertRegex(ran.stdout, re.compile(rf"^{crate}: {said}$", re.M))
        self.assertRegex(ran.stdout, rf"\n{passed} passed, [1-9]\d* failed\n\Z")

    def test_a_split_that_waits_once_memory_is_refused(self) -> None:
        # The split is behind the 26 allocations of the calls through a pass, and before the 24 of the offers that ring.
        said = r"with allocation 27 of 51 refused \(\d+ s\): it did not end within 240 seconds"
        self.expect("rb_blocking_tests", "rb_lock/split_waits_for_memory", said)

    def test_an_act_that_asks_for_memory_in_vain(self) -> None:
        said = r"\d+ allocations without the calls, \d+ with them \(\d+ s\): the calls take memory"
        # Those of rb_replay, which acts at no kept queue, pass.
        self.expect("rb_kept_tests", "rb_kept/act_asks_in_vain", said, passed=2)

    def test_an_offer_that_asks_for_memory_in_vain(self) -> None:
        # The test makes 28 calls through a pass, and 40 that ring or wait.
        said = r"each of 118 allocations refused in turn, 48 refusals met \(\d+ s\): 70 are not met, and 2 must not be"
        self.expect("rb_blocking_tests", "rb_kept/act_asks_in_vain", said)

    def test_a_session_that_ignores_a_refusal(self) -> None:
        # Each of the 68 sessions asks once more for the room of its jobs.
        said = r"each of \d+ allocations refused in turn, .* \(\d+ s\): 160 are not met, and 92 must not be"
        self.expect("rb_session_tests", "rb_session/session_ignores_a_refusal", said)

    def test_a_refused_offer_that_uses_up_an_id(self) -> None:
        said = r"with allocation \d+ of 85 refused \(\d+ s\): status -6"
        self.expect("rb_session_tests", "rb_queue/refused_offer_uses_an_id", said)
