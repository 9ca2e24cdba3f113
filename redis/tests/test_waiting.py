"""The schedule of those who wait."""
from __future__ import annotations

import unittest

from rb_broker_redis.waiting import MOST_TRIED, Due, Waiting


def waiting_of(*names: str) -> Waiting[str]:
    waiting: Waiting[str] = Waiting()
    for name in names:
        waiting.add(name)
    return waiting


def moment_of(waiting: Waiting[str]) -> int | None:
    """When the next try is due."""
    return waiting.next_due and waiting.next_due.moment


class WaitingTest(unittest.TestCase):
    def test_nobody_is_tried_for_before_an_element_is_due(self) -> None:
        waiting = waiting_of("a", "b")
        self.assertEqual((moment_of(waiting), waiting.start_tries(10**18)), (None, []))
        waiting.hear(100)
        self.assertEqual((moment_of(waiting), waiting.start_tries(99)), (100, []))
        self.assertEqual(waiting.start_tries(100), ["a"])

    def test_the_earliest_that_is_heard_of_counts(self) -> None:
        waiting = waiting_of("a")
        for moment in (100, 70, 90):
            waiting.hear(moment)
        self.assertEqual(moment_of(waiting), 70)

    def test_who_came_first_is_served_first(self) -> None:
        waiting = waiting_of("a", "b", "c")
        waiting.remove("a")
        waiting.add("a")
        waiting.hear(5)
        self.assertEqual(waiting.start_tries(5), ["b"])
        waiting.remove("b")
        waiting.end_tries(6, True)
        self.assertEqual(waiting.start_tries(6), ["c", "a"])

    def test_each_success_doubles_the_tries_and_a_failure_begins_with_one(self) -> None:
        waiting = waiting_of(*(str(it) for it in range(1_000)))
        waiting.hear(0)
        widths = []
        for _ in range(11):
            tried = waiting.start_tries(0)
            widths.append(len(tried))
            waiting.end_tries(0, True)
        self.assertEqual(widths, [1, 2, 4, 8, 16, 32, 64, 128, MOST_TRIED, MOST_TRIED, MOST_TRIED])
        waiting.start_tries(0)
        waiting.hear(50)
        waiting.end_tries(1, False)
        self.assertEqual((moment_of(waiting), len(waiting.start_tries(50))), (50, 1))

    def test_one_try_is_under_way_at_a_time(self) -> None:
        waiting = waiting_of("a", "b")
        waiting.hear(0)
        self.assertEqual(waiting.start_tries(0), ["a"])
        waiting.hear(0)
        self.assertEqual((moment_of(waiting), waiting.start_tries(0)), (None, []))

    def test_what_is_heard_during_a_try_is_not_forgotten(self) -> None:
        waiting = waiting_of("a")
        waiting.hear(10)
        waiting.start_tries(10)
        waiting.hear(12)  # published after the try was answered, and heard before the answer
        waiting.hear(500)  # what the answer says
        waiting.end_tries(11, False)
        self.assertEqual(moment_of(waiting), 12)

    def test_what_was_due_is_not_tried_for_again(self) -> None:
        waiting = waiting_of("a")
        waiting.hear(10)
        waiting.start_tries(10)
        waiting.end_tries(11, False)
        self.assertEqual((moment_of(waiting), waiting.start_tries(10**9)), (None, []))

    def test_who_leaves_is_not_tried_for(self) -> None:
        waiting = waiting_of("a")
        waiting.hear(0)
        waiting.remove("a")
        waiting.remove("a")
        self.assertEqual((waiting.start_tries(1), len(waiting)), ([], 0))

    def test_the_queue_is_tried_whose_element_expires_first(self) -> None:
        waiting = waiting_of("a", "b")
        waiting.hear(70, 0)
        waiting.hear(50, 1)
        waiting.hear(60, 2)
        self.assertEqual((waiting.next_due, waiting.start_tries(60)), (Due(50, 1), ["a"]))
        self.assertEqual(waiting.tried_queue, 1)
        waiting.hear(65, 1)
        waiting.end_tries(60, False)
        self.assertEqual(waiting.next_due, Due(60, 2))
