"""Builds by ./broker: which crates, in which order, what is told of them, and how they fail."""
import os
import re
import unittest

from building.build import ROOM, may_begin
from building.crates import Crates, read_crates
from building.tests.checkout import LINES, ONE, PROCESSORS, TABLE, THREE, TWO, CheckoutTest
from common.program import TOP


class PlanTest(unittest.TestCase):
    def test_the_longest_way_is_counted_in_lines(self) -> None:
        uses = {"low": [], "short": ["low"], "long": ["low"], "free": [], "top": ["short", "long", "free"]}
        crates = Crates(uses, {"low": 10, "short": 5, "long": 20, "free": 34, "top": 1})
        self.assertEqual(crates.way_up, {"low": 31, "short": 6, "long": 21, "free": 35, "top": 1})
        self.assertEqual(crates.names, ["free", "low", "long", "short", "top"])
        self.assertEqual(crates.below["top"], {"low", "short", "long", "free"})
        self.assertEqual(crates.below["low"], set())

    def test_the_crates_of_this_program(self) -> None:
        crates = read_crates(TOP, "rb_broker")
        self.assertEqual(crates.below["rb_broker"], {*crates.names} - {"rb_broker"})
        self.assertEqual([crate for crate in crates.names if crate.endswith(("_tests", "_cases"))], [])
        for above in crates.names:
            self.assertTrue(all(crates.way_up[below] > crates.way_up[above] for below in crates.below[above]), above)

    def test_a_crate_begins_beside_others_where_processors_and_memory_are_free(self) -> None:
        self.assertTrue(may_begin(0, 1, 0))
        self.assertTrue(may_begin(1, 2, ROOM))
        self.assertFalse(may_begin(1, 2, ROOM - 1))
        self.assertFalse(may_begin(2, 2, ROOM))


class BuildTest(CheckoutTest):
    def test_the_program_replaces_the_build(self) -> None:
        status, output, errors = self.build("script", "--from", "two words", told="input\n")
        self.assertEqual((status, output), (7, "words script --from two words\ninput\n"), errors)
        lines = errors.splitlines()
        first = "which takes 20 minutes or more, and 6 GB, the first time, since its proofs are checked"
        self.assertEqual(lines[0], f"broker: building rb_broker, {first}")
        self.assertRegex(lines[-2], r"^broker: \d+ s: (.*; )?rb_broker took \d+ s; 5 of 5 crates built$")
        self.assertRegex(lines[-1], r"^broker: built rb_broker in \d+ s$")

    def test_a_build_needs_no_standard_error(self) -> None:
        for end in ("2>&-", "2> /dev/full", "2> >(exit)"):
            self.write("crates/rb_alone/src/lib.rt", f"// {end}\n")
            status, output, _ = self.build(before=["bash", "-c", f'exec "$0" script {end}'])
            self.assertEqual((status, output), (7, "words script\n"), end)
        self.assertEqual(self.events().count("rb_alone ends"), 3)

    @unittest.skipIf(len(PROCESSORS) < 3, "fewer than three processors")
    def test_what_is_built_and_in_which_order(self) -> None:
        for crate in LINES:
            self.does(crate, "sleep 0.3")
        self.build()
        begun = {crate: " ".join(more) for _, crate, what, *more in self.log() if what == "begins"}
        # The longest way has precedence at the processors, and what the program does not stand on is not built.
        ours = {"rb_base": 0, "rb_right": 0, "rb_broker": 0, "rb_left": 5, "rb_alone": 5}
        words = {crate: "run -- --help" if crate == "rb_broker" else "lib" for crate in ours}
        least = os.nice(0)
        self.assertEqual(begun, {crate: f"{words[crate]} nice {min(19, least + more)}" for crate, more in ours.items()})
        events = self.events()
        pairs = ("left", "base"), ("right", "base"), ("broker", "left"), ("broker", "right"), ("broker", "alone")
        for above, below in pairs:
            self.assertLess(events.index(f"rb_{below} ends"), events.index(f"rb_{above} begins"), events)

    @unittest.skipIf(len(PROCESSORS) < 2, "one processor")
    def test_crates_are_built_side_by_side(self) -> None:
        # Each waits until the other has begun.
        for crate, other in (("rb_left", "rb_right"), ("rb_right", "rb_left")):
            self.does(crate, f'until grep -q "{other} begins" "$STAND_IN/log"; do sleep 0.05; done')
        status, _, errors = self.build(before=TWO)
        self.assertEqual(status, 7, errors)

    def test_one_processor_builds_one_at_a_time_the_longest_way_first(self) -> None:
        self.build(before=ONE)
        order = ["rb_base", "rb_right", "rb_left", "rb_alone", "rb_broker"]
        self.assertEqual(self.events(), [f"{crate} {what}" for crate in order for what in ("begins", "ends")])

    @unittest.skipIf(len(PROCESSORS) < 2, "one processor")
    def test_standard_error_tells_what_is_proved(self) -> None:
        others = "rb_left ends", "rb_alone ends"
        waits = [f'until grep -q "{other}" "$STAND_IN/log"; do sleep 0.05; done' for other in others]
        self.does("rb_right", "; ".join([*waits, "sleep 2.5"]))
        _, _, errors = self.build()
        self.assertRegex(errors, r"(?m)^broker: \d+ s: proving rb_right$")
        third = r"(?m)^broker: \d+ s: rb_\w+ took \d+ s; 3 of 5 crates built\n"
        self.assertRegex(errors, third + r"broker: \d+ s: rb_right took \d+ s; 4 of 5 crates built$")

    def test_a_long_proof_is_told_again(self) -> None:
        progress = self.top / "dev/building/progress.py"
        progress.write_text(re.sub(r"(?m)^SILENCE = [\d.]+", "SILENCE = 0.5", progress.read_text("utf-8")), "utf-8")
        self.does("rb_right", "sleep 2.5")
        _, _, errors = self.build(before=ONE)
        self.assertRegex(errors, r"(?m)^broker: \d+ s: still proving rb_right for \d s$")
        self.assertNotIn("still proving rb_base", errors)

    def test_a_crate_whose_proof_is_kept_is_named_only_if_rt_waits(self) -> None:
        self.does("rb_left.kept", "")
        _, _, errors = self.build()
        self.assertNotIn("rb_left", errors)
        self.assertIn("5 of 5 crates built", errors)
        says = "rt: rb_left: another copy is building this library; waiting for it"
        self.write("crates/rb_left/src/lib.rt", "// changed\n")
        self.does("rb_left", f'echo "{says}" && sleep 1.5')
        self.assertRegex(self.build()[2], rf"(?m)^broker: \d+ s: rb_left: {says}$")

    @unittest.skipIf(len(PROCESSORS) < 3, "fewer than three processors")
    def test_a_crate_that_fails_stops_the_others_and_shows_its_output(self) -> None:
        self.does("rb_left", 'echo "$PWD/src/lib.rt:1:1: error of left" && sleep 0.5 && exit 3')
        self.does("rb_right", 'trap "" TERM INT HUP; echo "right is being proved"; sleep 600')
        self.does("rb_alone", "setsid sleep 600 & sleep 600")
        status, output, errors = self.build(before=THREE)
        self.assertEqual((status, output), (126, ""))
        self.assertIn(f"\n{self.top}/crates/rb_left/src/lib.rt:1:1: error of left\n", errors)
        self.assertNotIn("right is being proved", errors)
        last = "broker: rb_broker could not be built: rb_left failed (rt ended with status 3)"
        self.assertEqual(errors.splitlines()[-1], last)
        self.assertEqual([event for event in self.events() if "ends" in event], ["rb_base ends"])

    def test_a_build_that_failed_goes_on_where_it_ended(self) -> None:
        self.build()
        self.write("crates/rb_left/src/lib.rt", "// changed\n")
        self.does("rb_broker", "exit 1")
        self.assertEqual(self.build()[0], 126)
        self.assertEqual(self.made("rb_left", "rlib/stamp"), "// changed\n")
        self.assertEqual(self.made("rb_broker", "incremental/builds"), "rb_broker\n")
        self.does("rb_broker", "")
        self.assertEqual(self.build()[0], 7)
        self.assertEqual(self.made("rb_broker", "incremental/builds"), "rb_broker\nrb_broker\n")

    def test_a_table_that_is_wrong_and_an_rt_that_leaves_no_program(self) -> None:
        self.does("rb_broker", "exit 0")
        for table, why in (
            ("rb_base:\n", "crates.txt does not list rb_broker"),
            ("rb_base: rb_left\nrb_left: rb_base\nrb_broker: rb_left\n", "in crates.txt rb_base stands on itself"),
            ("rb_none:\nrb_broker: rb_none\n", "[Errno 2] No such file or directory: '{top}/crates/rb_none'"),
            (TABLE, "rt has left no {top}/crates/rb_broker/out/rb_broker"),
        ):
            self.assertEqual(self.log(), [])
            self.write("crates.txt", table)
            status, _, errors = self.build()
            last = f"broker: rb_broker could not be built: {why.format(top=self.top)}"
            self.assertEqual((status, errors.splitlines()[-1]), (126, last))
