"""Where a history may be cut, so that no job is given in front of the cut and comes back behind it."""
from __future__ import annotations

import unittest

from rb_broker_redis.cuts import Cut, Cuts
from rb_broker_formats.queue import FollowedQueue

# Jobs 0 and 1 are given by the events 2 and 3; job 1 comes back as event 5, and job 0 was done.
EVENTS = [
    b"1 1 1 offer 0 1 0 1 1 a", b"1 1 1 offer 1 1 1 1 1 b", b"2 2 2 poll 0", b"2 2 2 take 1", b"1 3 3 size 0",
    b"2 4 4 offer 2 9 1 1 2 b", b"1 9 9 drain 3 2",
]


class CutsTest(unittest.TestCase):
    def best(self, count: int, most: int, in_hand: list[bytes] = []) -> Cut:
        """The best cut of the first `count` events."""
        cuts = Cuts(FollowedQueue())
        for line in EVENTS[:count]:
            cuts.follow(line)
        return cuts.best(in_hand, most, count)

    def test_behind_the_last_event_where_nothing_is_in_hand(self) -> None:
        for count in (1, 3, 6, 7):
            self.assertEqual(self.best(count, 10), Cut(count, 0))
        self.assertEqual(self.best(0, 10), Cut(0, 0))

    def test_not_between_a_job_and_its_return(self) -> None:
        self.assertEqual([self.best(6, most).count for most in (1, 2, 3, 4, 5, 6)], [1, 2, 3, 3, 3, 6])

    def test_not_behind_a_job_that_is_in_hand(self) -> None:
        self.assertEqual(self.best(4, 10, [b"0"]), Cut(2, 0))
        self.assertEqual(self.best(4, 10, [b"1"]), Cut(3, 0))
        self.assertEqual(self.best(7, 10, [b"1"]), Cut(6, 0))
        self.assertEqual(self.best(4, 10, [b"77"]), Cut(4, 0))  # it was given before the first event

    def test_not_behind_what_came_while_those_in_hand_were_looked_for(self) -> None:
        cuts = Cuts(FollowedQueue())
        for line in EVENTS:
            cuts.follow(line)
        # Job 1 was in hand behind the fourth event, and had come back before it was looked for.
        self.assertEqual([cuts.best([], 10, settled).count for settled in (3, 4, 5, 6, 7)], [3, 3, 3, 6, 7])

    def test_the_fewest_cross_where_a_cut_must_be(self) -> None:
        # The first event gives job 0, which is never settled.
        cuts = Cuts(FollowedQueue.of_opening([b"open 2 1 2", b"keep 0 1 0 1 1 a", b"keep 1 1 1 1 1 b"]))
        for line in (b"2 2 2 poll 0", b"2 2 2 take 1", b"1 3 3 size 0", b"2 4 4 offer 2 9 1 1 2 b"):
            cuts.follow(line)
        self.assertEqual(cuts.best([b"0"], 3, 6), Cut(0, 0))
        cuts.follow(b"1 5 5 size 1")
        cuts.follow(b"1 5 5 size 1")
        self.assertEqual(cuts.best([], 3, 6), Cut(1, 1))
