"""How moments are evaluated."""
import unittest

from loading.counts import Counts, total


class CountsTest(unittest.TestCase):
    def test_the_clock_is_known_by_its_closest_bounds(self) -> None:
        one, other = Counts(), Counts()
        one.add_offer(1000, 100, 200)  # 800 to 900
        self.assertEqual(one.ahead, 850)
        other.add_offer(1160, 300, 340)  # 820 to 860
        other.add_job(1150, 320)  # 830 or more
        self.assertEqual(total([one, other]).ahead, 845)

    def test_lateness_is_by_the_servers_clock(self) -> None:
        counts = Counts()
        self.assertEqual(counts.lateness(), [])
        counts.add_offer(5_000_000, 1_000_000, 1_000_000)  # 4 ms ahead
        for late in range(100, 0, -1):
            counts.add_job(6_000_000, 2_000_000 + late * 1000)
        self.assertEqual(counts.lateness(), [51, 100, 100])
        self.assertEqual(counts.numbers, {"calls": 101, "offered": 1, "taken": 100})
