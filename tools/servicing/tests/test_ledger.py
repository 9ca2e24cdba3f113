"""The judge of a day reports whatever is planted in its ledgers, and only that."""
import dataclasses
import unittest
from typing import Any

from servicing.tests.ledger import Item, Judgement, Ledger, Offer, gaps, judged, late_behind

LOST = {2}


def ledger(**changes: Any) -> Ledger:
    """One of a day in which run 2 was lost: what was done in it was done again in run 3, and what was offered in it is
    in doubt."""
    usual = Ledger(
        offered={"one": Offer(1, 10, 11), "again": Offer(1, 10, 11), "gone with its run": Offer(2, 20, 21)},
        done=[("one", 1), ("again", 2), ("again", 3)],
        given=[Item("one", 1, 1, 10.5), Item("again", 2, 1, 20), Item("again", 3, 1, 30)],
        doubts={"no reply": 1, "no reply of a lost run": 2})
    return dataclasses.replace(usual, **changes)


class JudgeTest(unittest.TestCase):
    def test_a_day_in_good_order(self) -> None:
        self.assertEqual(judged([ledger(), Ledger()], LOST), Judgement())

    def test_faults_that_are_planted(self) -> None:
        usual = ledger()
        for what, changes, wanted in (
            ("a job that is never done", {"done": usual.done[1:]}, Judgement(gone=["one"])),
            ("one that was done in a lost run alone", {"done": usual.done[:2]}, Judgement(gone=["again"])),
            ("one that was done twice", {"done": [*usual.done, ("one", 3)]}, Judgement(twice=["one"])),
            ("one that comes early", {"given": [*usual.given, Item("one", 1, 1, 9.9)]}, Judgement(early=["one"])),
            ("one that nobody offered", {"done": [*usual.done, ("what", 3)]}, Judgement(unasked=["what"])),
            ("one whose offer got no reply", {"done": [*usual.done, ("no reply", 3)]},
             Judgement(unasked=["no reply"])),
        ):
            with self.subTest(what):
                self.assertEqual(judged([ledger(**changes)], LOST), wanted)

    def test_what_a_lost_run_explains(self) -> None:
        done = [*ledger().done, ("no reply of a lost run", 3), ("gone with its run", 2)]
        given = [*ledger().given, Item("one", 1, 2, 9)]  # an attempt behind a failure
        self.assertEqual(judged([ledger(done=done, given=given)], LOST), Judgement())

    def test_a_job_is_done_by_whoever_does_it(self) -> None:
        one, other = ledger(done=[]), Ledger(done=ledger().done)
        self.assertEqual(judged([one, other], LOST), Judgement())
        self.assertEqual(judged([one], LOST).gone, ["one", "again"])

    def test_gaps(self) -> None:
        """From the last that anybody heard of a run to the first greeting of the next."""
        one, other = Ledger(), Ledger()
        one.served |= {1: [0, 5, 10], 2: [10.5, 20], 3: [20.25, 30]}
        other.served |= {1: [1, 9.75], 3: [21, 31], 5: [40]}
        self.assertEqual(gaps([one, other], ()), {1: (10, 10.5), 2: (20, 20.25)})
        self.assertEqual(gaps([one, other], LOST), {1: (10, 10.5)})
        self.assertEqual(gaps([one, other], LOST)[1].seconds, 0.5)

    def test_lateness_that_grows(self) -> None:
        """By as much at each rollover."""
        offered = {f"{waits}": Offer(1, 9, 10) for waits in range(21)}
        given = [Item(f"{waits}", 1 + waits, 1, 10.001 + 0.006 * waits) for waits in range(21)]
        for least, most, wanted in ((0, 2, 0.004), (6, 1000, 0.079), (21, 1000, 0.0)):
            self.assertAlmostEqual(late_behind([Ledger(offered, given=given)], least, most), wanted)
