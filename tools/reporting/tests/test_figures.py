"""The figures of histories, counted by hand."""
import unittest

from history_texts import RUN, offer, read, text_of
from reporting.depth import depth_of
from reporting.jobs import NoJob, jobs_named
from reporting.lateness import rank, ranks
from reporting.tests.support import figures
from rb_broker_redis.watching.units import SECOND, mark, percent, span


class FiguresTest(unittest.TestCase):
    def test_depth(self) -> None:
        leaving = (offer(0, 5), offer(1, 7), offer(2, 99), "1 6 6 remove 0 yes", "1 6 6 remove 2 yes", "1 7 7 clear")
        # At 150 and 300 an element of the first history expires between two events.
        for text, moments, standing, expired in (
            (RUN, [100, 100, 120, 120, 150, 160, 170, 300, 310], [2, 3, 2, 1, 1, 2, 1, 1, 0],
             [1, 2, 1, 0, 1, 1, 0, 1, 0]),
            (text_of(*leaving), [0, 0, 0, 0, 5, 6, 6, 7, 7], [0, 1, 2, 3, 3, 2, 1, 1, 0], [0, 0, 0, 0, 1, 0, 0, 1, 0]),
        ):
            depth = depth_of(read(text))
            told = [[*column] for column in (depth.moments, depth.standing, depth.expired)]
            self.assertEqual(told, [moments, standing, expired])

    def test_lateness(self) -> None:
        lateness = figures(RUN).lateness
        self.assertEqual(list(lateness), [10, 20, 20, 30])
        self.assertEqual([*ranks(lateness).values()], [20, 30, 30, 30, 30])
        self.assertEqual(ranks([]), {})
        self.assertEqual([*ranks(range(1, 1001)).values()], [500, 900, 990, 999, 1000])
        self.assertEqual([rank(range(1, 11), 0.5), rank(range(1, 101), 0.99)], [5, 99])
        self.assertEqual([rank([7], share) for share in (0.0, 0.5, 0.99, 1.0)], [7, 7, 7, 7])

    def test_jobs_and_attempts(self) -> None:
        jobs = figures(RUN).jobs
        self.assertEqual(jobs.attempts, [(1, 2, 2), (2, 2, 2)])
        self.assertEqual((list(jobs.elements), list(jobs.roots), jobs.again), ([1, 1, 2, 0], [0, 1, 2], [2]))
        self.assertEqual(jobs.latest, [0, 1, 2])  # by 30, 20 and 20 nanoseconds

    def test_jobs_by_origin_or_payload(self) -> None:
        history = read(text_of(*[offer(id, 0, payload) for id, payload in enumerate(["mail", "mail-1", "0", "mail"])]))
        for word, roots in (("mail", [0, 3]), ("mail-1", [1]), ("0", [0, 2]), ("3", [3])):
            self.assertEqual(jobs_named(history, word), roots)
        for word in ("4", str(2**64), "-1", "٣", "ail", ""):
            self.assertRaises(NoJob, jobs_named, history, word)
        self.assertRaises(NoJob, jobs_named, read(RUN), "4")  # an id, but of a second attempt

    def test_numbers_as_people_read_them(self) -> None:
        for form, told in (
            (span, {0: "0 ns", 999: "999 ns", 1_000: "1.00 µs", 20_500: "20.5 µs", 123_400_000: "123 ms",
                    2 * SECOND: "2.00 s", 7200 * SECOND: "2.00 h", 2**64 - 1: "213,504 d"}),
            (mark, {0: "0 ns", 1: "1 ns", 500: "500 ns", 1000: "1 µs", SECOND: "1 s", 90 * SECOND: "90 s",
                    120 * SECOND: "2 min", 3600 * SECOND: "1 h", 86_400 * SECOND: "1 d", 10**12: "1,000 s"}),
        ):
            self.assertEqual({value: form(value) for value in told}, told)
        shares = [percent(1, 3), percent(1, 5000), percent(0, 9), percent(0, 0)]
        self.assertEqual(shares, ["33.3 %", "< 0.1 %", "0.0 %", "0.0 %"])
