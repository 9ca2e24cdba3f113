"""Builds that are stopped or killed, and what they leave."""
import os
import signal

from building.tests.checkout import PATIENCE, CheckoutTest

# Ctrl-C, a signal to the build alone, and a terminal that goes away: each with whether the whole group gets it.
SIGNALS = ((signal.SIGINT, True), (signal.SIGTERM, False), (signal.SIGHUP, True))


class StoppingTest(CheckoutTest):
    def stops(self, number: signal.Signals, is_whole_group: bool, times: int) -> None:
        """Stops a build, so many times now, whose crates ignore signals, and have orphans in other sessions."""
        self.does("rb_right", 'trap "" TERM INT HUP; (setsid sleep 600 &); sleep 600 & sleep 600')
        self.does("rb_left", "sleep 600 | sleep 600")
        started = self.start()
        self.await_event("rb_right begins", times)
        for _ in range(2):  # as timeout does, and people who are impatient
            (os.killpg if is_whole_group else os.kill)(started.pid, number)
        _, errors = started.communicate(timeout=PATIENCE)
        self.assertEqual(started.returncode, -number, errors)
        last = f"broker: the build was stopped by {number.name}; what it has built is kept"
        lines = errors.splitlines()
        self.assertEqual((lines[-1], [it for it in lines if not it.startswith("broker: ")]), (last, []))
        self.assertEqual(self.left_over(), [])
        self.assertEqual(self.made("rb_base", "incremental/builds"), times * "rb_base\n")

    def test_signals(self) -> None:
        for times, (number, is_whole_group) in enumerate(SIGNALS, 1):
            with self.subTest(signal=number.name):
                self.stops(number, is_whole_group, times)

    def test_ctrl_c_before_the_build_has_begun_is_silent(self) -> None:
        self.write("dev/building/build.py", "import os, signal\nos.kill(os.getpid(), signal.SIGINT)\n")
        self.assertEqual(self.build(), (-signal.SIGINT, "", ""))

    def test_a_build_that_is_killed_leaves_no_rt_and_the_next_clears_up(self) -> None:
        self.build()
        self.write("crates/rb_right/src/lib.rt", "// changed\n")
        self.does("rb_right", "exec sleep 600")
        started = self.start()
        self.await_event("rb_right begins", times=2)
        started.kill()
        started.communicate(timeout=PATIENCE)
        self.await_end()
        self.assertEqual(self.processes(), [])
        self.does("rb_right", "")
        self.assertEqual(self.build()[0], 7)
        self.assertEqual(self.made("rb_right", "incremental/builds"), "rb_right\nrb_right\n")

    def test_what_was_there_before_the_build_is_left_alone(self) -> None:
        started = self.start(before=["bash", "-c", 'sleep 600 > /dev/null 2>&1 & echo $! && exec "$0" script'])
        other = int(started.stdout.readline())
        self.assertEqual(started.communicate("", timeout=PATIENCE)[0], "words script\n")
        os.kill(other, signal.SIGKILL)  # which finds it
        self.await_end()
