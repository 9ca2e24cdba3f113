"""The axes of the plots, what they draw, and what they say of each place."""
import re
import unittest

from history_texts import RUN, offer, read, text_of
from reporting import svg
from rb_broker_formats.dates import nanoseconds_of
from reporting.dates import Clock
from reporting.plots import depth_plot, lateness_in, lateness_plot, plots_of
from reporting.svg import Scale
from reporting.tests.support import figures
from reporting.time_axis import DATE_STEPS, TimeAxis
from rb_broker_redis.watching.units import SECOND, mark

EIGHT = "2026-11-26T08:00:00Z"


def backlog() -> str:
    """600 jobs are due at once, and one is taken each second: for ten minutes they are later and later."""
    lines = [offer(id, 0) for id in range(600)]
    lines += [f"1 {id * SECOND} {id * SECOND} take {id}" for id in range(600)]
    return text_of(*lines)


class TimeAxisTest(unittest.TestCase):
    def axis(self, nanoseconds: float, began: str = EIGHT, start: int = 0, most: int = 200) -> TimeAxis:
        """The axis of a run of so many nanoseconds, without dates if none is told."""
        end = start + round(nanoseconds)
        history = read(text_of(*(f"1 {at} {at} size 0" for at in (start, end))))
        return TimeAxis(history, Clock(nanoseconds_of(began)) if began else Clock(), most)

    def test_buckets_hold_each_moment_once(self) -> None:
        for start, end, most in ((0, 0, 9), (5, 7, 9), (0, 99, 7), (2**64 - 3, 2**64 - 1, 2)):
            axis = self.axis(end - start, "", start, most)
            self.assertEqual((axis.edges[0], axis.edges[-1]), (start, end + 1))
            self.assertEqual(len(set(axis.edges)), axis.count + 1)
            self.assertLessEqual(axis.count, most)
            self.assertEqual([axis.bucket(moment) for moment in (start, end)], [0, axis.count - 1])

    def test_labels_at_the_axis(self) -> None:
        for nanoseconds, began, told, title in (
            (600 * SECOND, EIGHT, "0 2 4 6 8 10", "time since 2026-11-26 08:00:00 UTC (min)"),
            (3 * SECOND, "", "0 1 2 3", "time since the first event (s)"),
            (SECOND / 2, "", "0 100 200 300 400 500", "time since the first event (ms)"), (0, "", "0", "(ns)"),
        ):
            drawn = self.axis(nanoseconds, began).drawn()
            self.assertEqual(" ".join(re.findall(r'class="x(?: from-720)?">([^<]*)<', drawn)), told)
            self.assertIn(f"{title}</text>", drawn)


class PlotsTest(unittest.TestCase):
    def test_labels_of_spans(self) -> None:
        for high, told in (
            (1, "0 ns 1 ns"), (38_800_000, "0 ns 10 ms 20 ms 30 ms"), (540 * SECOND, "0 ns 2 min 4 min 6 min 8 min"),
            (2**64 - 1, "0 ns 50,000 d 100,000 d 150,000 d 200,000 d"),
        ):
            ticks = svg.round_ticks(Scale(0, high, svg.BOTTOM, svg.TOP), DATE_STEPS, mark)
            self.assertEqual(" ".join(tick.label for tick in ticks), told)
            self.assertTrue(all(svg.TOP <= tick.place <= svg.BOTTOM for tick in ticks))

    def test_a_backlog_of_ten_minutes(self) -> None:
        plot = plots_of(figures(backlog()))[-1]
        self.assertEqual(re.findall(r'class="y">([^<]*)<', plot.drawing)[-1], "8 min")
        # The last of 200 buckets begins at 596.005 s, and has what was given at 597 to 599 s.
        self.assertEqual(plot.readings[-1][1], "9.93 min\nmedian 9.97 min\ngreatest 9.98 min\nof 3 given")

    def test_lateness_in_each_bucket(self) -> None:
        # In thirds of 211 nanoseconds the events at 100 to 170, 200, and 310.
        history = read(RUN)
        axis = TimeAxis(history, Clock(), 3)
        self.assertEqual(lateness_in(axis, history), [(20, 30, 3), None, (10, 10, 1)])
        plot = lateness_plot(lateness_in(axis, history), axis)
        self.assertEqual([places for _, places in plot.lines.values()], [[92.7, None, 157.3], [28.0, None, 157.3]])
        self.assertEqual([says.split("\n")[1] for _, says in plot.readings],
                         ["median 20 ns", "nothing was given", "median 10 ns"])

    def test_no_peak_is_lost(self) -> None:
        """A thousand elements stand for a nanosecond."""
        figured = figures(text_of(*(offer(id, 50) for id in range(1000)), "1 1 1 clear", "1 9999 9999 size 0"))
        plot = depth_plot(figured.depth, TimeAxis(figured.history, Clock(), 10))
        _, standing = plot.lines["standing"]
        self.assertEqual((standing[0], {*standing[1:]}), (svg.TOP, {svg.BOTTOM}))
        self.assertIn('<path class="line standing" d="M0.0 28.0H100.0V222.0H200.0', plot.drawing)

    def test_a_line_is_broken_where_there_is_no_value(self) -> None:
        self.assertEqual(svg.stairs([0, 1, 2, 3, 4], [7, 8, None, 9]), "M0 7H1V8H2M3 9H4")

    def test_depth(self) -> None:
        depth, history = figures(RUN).depth, read(RUN)
        told = dict(says.split("\n", 1) for _, says in depth_plot(depth, TimeAxis(history, Clock(), 211)).readings)
        for moment, standing, expired in ((0, 3, 2), (20, 3, 2), (21, 1, 0), (50, 1, 1), (210, 1, 1)):
            self.assertEqual(told[f"{moment} ns"], f"{standing} in the queue\n{expired} of these expired")

    def test_readings_rise(self) -> None:
        for plot in plots_of(figures(RUN)):
            places = [place for place, _ in plot.readings]
            self.assertEqual((places, places[0]), (sorted(places), 0))
