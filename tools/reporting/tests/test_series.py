"""Runs that follow one another: their order, what does not continue, one life of a job, totals, and dates."""
from rb_broker_formats.faults import Damaged
from rb_broker_formats.files import read_series
from history_texts import offer, text_of
from rb_broker_formats.dates import nanoseconds_of
from reporting.dates import Clock
from reporting.tests.support import ReportTest, counts
from rb_broker_redis.watching.units import SECOND

# Three runs in which job 0 has an attempt each, the last of which is given at the very end.
RUNS = ["""history 3
open 0 0 0
1 0 0 offer 0 0 0 0 1 a
2 5 5 take 0
2 9 9 offer 1 1009 0 0 2 a
1 20 20 offer 2 500 2 500 1 b
end 4
""", """history 3
open 3 20 2
keep 1 1009 0 0 2 a
keep 2 500 2 500 1 b
1 600 600 take 2
1 1010 1010 take 1
1 1020 1020 offer 3 2020 0 0 3 a
end 3
""", """history 3
open 4 1020 1
keep 3 2020 0 0 3 a
3 2030 2030 poll 3
end 1
"""]

# A text behind the first run, its line that does not continue, and what is said of it.
NOT_CONTINUED = [
    (RUNS[1].replace("open 3", "open 4"), 2, "it opens with the next id 4, and 3 would follow"),
    (RUNS[1].replace("3 20 2", "3 19 2"), 2, "it opens at moment 19, and 20 or a later one would follow"),
    ("history 3\nopen 3 20 1\nkeep 1 1009 0 0 2 a\nend 0\n", 2, "it opens with a count of 1, and 2 would follow"),
    (RUNS[1].replace("keep 1 1009", "keep 0 1009"), 3, "it keeps 0 1009 0 0 2 a, and 1 1009 0 0 2 a would follow"),
    (RUNS[1].replace("keep 2 500", "keep 2 501"), 4, "it keeps 2 501 2 500 1 b, and 2 500 2 500 1 b would follow"),
    (RUNS[1].replace("2 500 1 b", "2 400 1 b"), 4, "it keeps 2 500 2 400 1 b"),
    (RUNS[1].replace("500 1 b", "500 2 b"), 4, "it keeps 2 500 2 500 2 b"),
    (RUNS[1].replace("1 b", "1 c"), 4, "it keeps 2 500 2 500 1 c"),
]


LEFT_OUT = "The time between two runs is left out, so later dates are too early by it."
EIGHT = 1_795_680_000 * SECOND  # 2026-11-26T08:00:00Z

# Words that tell a date, and which one; and words that tell none.
DATES = {
    "2026-11-26T08:00:00Z": EIGHT, "2026-11-26 08:00": EIGHT, "2026-11-26T09:00:00.123456+01:00": EIGHT + 123_456_000,
    "@1795680000": EIGHT, "@1795680000.5": EIGHT + SECOND // 2, "1970-01-01T00:00Z": 0,
}
NO_DATES = ["", "now", "2026-02-30T08:00Z", "2026-11-26T25:00Z", "1969-12-31T23:59Z", "1970-01-01T00:30+01:00",
            "9999-12-31T23:59:59-05:00", "2026-11-26T08:00Zulu", "@", "@-1", "@nan", "@1e999999999"]


class SeriesTest(ReportTest):
    def setUp(self) -> None:
        super().setUp()
        self.paths = self.files(RUNS)

    def files(self, texts: list[str]) -> list[str]:
        return [self.file(f"run-{place}.txt", text) for place, text in enumerate(texts, 1)]

    def test_totals(self) -> None:
        lines = self.lines(*self.paths)
        self.assertEqual(lines[:2], [
            f"{self.paths[0]} to {self.paths[2]}: 3 runs, 8 events, 3 seats, from 0 to 2030 ns (2.03 µs)",
            "0 elements at the start, 4 offered, 4 given, 0 removed, 0 cleared, 0 left at the end",
        ])
        # Late by 5 and 100 and 1 and 10 nanoseconds.
        self.assertIn("  median                5 ns     5 ns", lines)
        self.assertIn("  greatest            100 ns   100 ns", lines)
        self.assertIn("Jobs: 2; offered again: 1 (50.0 %)", lines)
        one, two, three = self.paths
        self.assertEqual(self.lines(three, one, two), lines)  # runs are put in their order

    def test_the_life_of_a_job_over_its_runs(self) -> None:
        self.assertEqual([line.split() for line in self.lines(*self.paths, "--job", "0")[2:]], [
            ["1", "0", "0", "1", "of", "run", "1", "0", "5", "2", "of", "run", "1", "take", "5", "ns"],
            ["2", "1", "9", "2", "of", "run", "1", "1009", "1010", "1", "of", "run", "2", "take", "1", "ns"],
            ["3", "3", "1020", "1", "of", "run", "2", "2020", "2030", "3", "of", "run", "3", "poll", "10", "ns"],
        ])

    def test_what_runs_did_together(self) -> None:
        # What the first run left is cleared; and versions may change from run to run.
        cleared = [RUNS[0], RUNS[1].partition("1 600")[0] + "1 30 30 clear\n1 30 30 size 0\nend 2\n"]
        versions = ["history 1\n1 0 0 offer 0 90 0 1 a\n1 5 5 offer 1 99 1 1 b\nend 2\n",
                    "history 2\nopen 2 5 2\nkeep 0 90 0 1 a\nkeep 1 99 1 1 b\n1 90 90 take 0\nend 1\n",
                    "history 3\nopen 2 90 1\nkeep 1 99 1 99 1 b\n1 99 99 take 1\nend 1\n"]
        for texts, told in ((RUNS[1:], [2, 1, 3, 0, 0, 0]), (cleared, [0, 3, 1, 0, 2, 0]),
                            (versions, [0, 2, 2, 0, 0, 0])):
            self.assertEqual(counts(self.lines(*self.files(texts))), told)

    def test_a_run_that_does_not_continue(self) -> None:
        for text, line, says in NOT_CONTINUED:
            with self.subTest(says=says):
                other = self.file("other.txt", text)
                with self.assertRaises(Damaged) as caught:
                    read_series([self.paths[0], other])
                start = f"{other}: line {line}: it does not continue {self.paths[0]}: "
                self.assertEqual(str(caught.exception)[:len(start)], start)
                self.assertIn(says, str(caught.exception))

    def test_runs_between_which_time_passed(self) -> None:
        """As tools/service begins them: a run without a call opens at 5000, the next one at 7000."""
        kept = "keep 1 1009 0 0 2 a\nkeep 2 500 2 500 1 b\n"
        paths = self.files([RUNS[0], f"history 3\nopen 3 5000 2\n{kept}end 0\n",
                            f"history 3\nopen 3 7000 2\n{kept}1 7001 7001 take 2\n1 7009 7009 take 1\nend 2\n"])
        lines = self.lines(*paths, "--began", "@100")
        self.assertIn("from 0 to 7009 ns", lines[0])
        self.assertEqual(counts(lines), [0, 3, 3, 0, 0, 0])
        self.assertIn("  greatest           6.50 µs  6501 ns", lines)
        self.assertNotIn(LEFT_OUT, lines)

    def test_a_run_that_is_missing_or_damaged_is_named(self) -> None:
        one, two, three = self.paths
        self.assertIn(f"{three}: line 2: it does not continue {one}", self.refused(1, one, three))
        self.file("run-2.txt", RUNS[1].replace("take 1\n", "take 7\n"))
        says = f"report: {two}: line 6: element 7 is not in the queue\n"
        self.assertEqual(self.refused(1, *self.paths), says)

    def test_the_columns_of_all_runs(self) -> None:
        history = read_series(self.paths)
        self.assertEqual(list(history.elements.ids), [0, 1, 2, 3])
        self.assertEqual(list(history.elements.roots), [0, 0, 2, 0])
        self.assertEqual(list(history.elements.left_in), [1, 5, 4, 7])
        self.assertEqual([history.run_of(event) for event in range(8)], [1, 1, 1, 1, 2, 2, 2, 3])
    def test_dates_of_a_run(self) -> None:
        archived = self.file("archived.txt", "history 3\nopen 0 1795680000000000000 0\n"
                             "1 1795680060000000000 1795680060000000000 size 0\nend 1\n")
        self.assertIn("from 2026-11-26 08:01:00", "\n".join(self.lines(archived, "--began", "dates")))
        lines = self.lines(self.paths[0], "--began", "2026-11-26T08:00:00Z")
        self.assertIn("from 2026-11-26 08:00:00.000 to 2026-11-26 08:00:00.000 UTC", lines)

    def test_dates_of_a_life(self) -> None:
        later = self.file("later.txt", text_of(offer(0, 3_600_000_000_007), "1 3600000000008 3600000000008 take 0"))
        lines = self.lines(later, "--job", "0", "--began", "2026-11-26 23:30:00.500+00:30")
        self.assertEqual(lines[2].split()[2:11], [
            "2026-11-26", "23:00:00.500000000", "1", "2026-11-27", "00:00:00.500000007", "2026-11-27",
            "00:00:00.500000008", "1", "take"])

    def test_dates_begin_with_the_run_and_not_with_its_first_event(self) -> None:
        lines = self.lines(*self.paths[1:], "--began", "@1795680000")
        self.assertIn("from 2026-11-26 08:00:00.000 to 2026-11-26 08:00:00.000 UTC", lines)
        self.assertIn(LEFT_OUT, lines)  # the third run opens at the last moment of the second one
        life = self.lines(*self.paths[1:], "--job", "2", "--began", "@100")  # it is due 480 ns after the opening
        self.assertIn("1970-01-01 00:01:40.000000480", life[2])

    def test_what_tells_a_date(self) -> None:
        self.assertEqual({text: nanoseconds_of(text) for text in DATES}, DATES)
        for text in NO_DATES:
            with self.subTest(text=text):
                self.assertIn(f"{text!r} is no TIME", self.refused(2, "run.txt", "--began", text))
        greatest = Clock(EIGHT).text(2**64 - 1, 9)
        self.assertEqual(greatest, "2611-06-17 07:34:33.709551615")
