"""Builds beside each other or one after the other, and changes while one runs."""
import os
import signal

from building.tests.checkout import LINES, PATIENCE, CheckoutTest

WAITS = "broker: another ./broker or rt is at work in this checkout; waiting for its end\n"


class BesideTest(CheckoutTest):
    def start_two(self) -> None:
        """Starts a build that does not go on until it is let, and then one that waits for it."""
        self.does("rb_base", 'mkdir "$STAND_IN/once" && until [[ -e $STAND_IN/let ]]; do sleep 0.05; done')
        self.first = self.start("first")
        self.await_event("rb_base begins")
        self.second = self.start("second")
        self.assertEqual(self.second.stderr.readline(), WAITS)

    def let_first(self) -> None:
        (self.stand_in / "let").touch()
        self.assertEqual(self.first.communicate("", timeout=PATIENCE)[0], "words first\n")

    def test_a_second_build_waits_and_takes_what_the_first_made(self) -> None:
        self.start_two()
        self.let_first()
        self.assertEqual(self.second.communicate("", timeout=PATIENCE), ("words second\n", ""))
        self.assertEqual(self.second.returncode, 7)
        self.assertEqual(self.events().count("rb_base begins"), 1)

    def test_a_second_build_goes_on_when_the_first_is_killed(self) -> None:
        self.start_two()
        self.first.kill()
        self.assertEqual(self.second.communicate("", timeout=PATIENCE)[0], "words second\n")
        self.first.communicate(timeout=PATIENCE)

    def test_control_c_ends_one_that_waits(self) -> None:
        self.start_two()
        os.killpg(self.second.pid, signal.SIGINT)
        self.second.communicate(timeout=PATIENCE)
        self.assertEqual(self.second.returncode, -signal.SIGINT)
        self.let_first()

    def test_the_program_holds_no_lock(self) -> None:
        self.write("crates/rb_broker/src/main.rt", "echo begins && cat\n")
        first = self.start()
        self.assertEqual(first.stdout.readline() if first.stdout else "", "begins\n")
        self.write("crates/rb_broker/src/main.rt", "echo another\n")
        self.assertEqual(self.build()[1], "another\n")
        first.communicate("", timeout=PATIENCE)

    def test_it_is_built_once(self) -> None:
        self.build()
        count = len(self.log())
        self.assertEqual(self.build("again"), (7, "words again\n", ""))
        self.assertEqual(len(self.log()), count)

    def test_a_change_during_the_build_is_built_the_next_time(self) -> None:
        self.does("rb_left", "sleep 1")
        started = self.start()
        self.await_event("rb_left begins")
        self.write("crates/rb_base/src/lib.rt", "// changed\n")
        started.communicate("", timeout=PATIENCE)
        self.assertEqual(self.made("rb_base", "rlib/stamp"), "//\n" * LINES["rb_base"])
        self.assertIn("broker: building rb_broker", self.build()[2])
        self.assertEqual(self.made("rb_base", "rlib/stamp"), "// changed\n")
