"""The last hour of a service, by marks that were made by hand."""
import re
import unittest
from collections import deque

from servicing.page import add_mark, page
from servicing.state import Mark, Queue, Traffic
from servicing.tests.support import AT, state


def mark(at: float, offered: int = 0, queue: Queue | None = Queue(0, 0, 0.0)) -> Mark:
    return Mark(at, Traffic(offered, offered // 2, 0), queue)


class HourTest(unittest.TestCase):
    def test_which_marks_are_kept(self) -> None:
        """One each ten seconds, of an hour."""
        hour: deque[Mark] = deque()
        for second in range(7_201):
            add_mark(hour, mark(float(second)))
        self.assertEqual([it.at for it in hour], [float(it) for it in range(3_600, 7_201, 10)])

    def test_the_pace_of_the_last_minute(self) -> None:
        hour: deque[Mark] = deque()
        for at, offered, wanted in ((0, 100, None), (1, 101, None), (10, 150, 5.0), (70, 210, 1.0), (75, 236, 5.2)):
            add_mark(hour, mark(AT + at, offered))
            it = state(at=AT + at, traffic=Traffic(offered, offered // 2, 0), hour=(*hour,))
            self.assertEqual((it.offered_a_second, it.left_a_second), (wanted, wanted and wanted / 2))

    def test_what_is_drawn(self) -> None:
        told = page(state(hour=(mark(0, 0, Queue(0, 4, -5.0)), mark(1800, 3600, None),
                                mark(3600, 3600, Queue(0, 2, 90.0)))))
        lines = re.findall(r'<p>([^<]*)</p><svg.*?points="(.*?)"', told)
        self.assertEqual(lines, [
            ("Offered a second: 0.00, at most 2.00", "180.0,2.0 360.0,46.0"),
            ("Given, removed or cleared a second: 0.00, at most 1.00", "180.0,2.0 360.0,46.0"),
            ("Failures a second, told when a run ends: 0.00, at most 0.00", "180.0,46.0 360.0,46.0"),
            ("Elements in the queue: 2, at most 4", "0.0,2.0 360.0,24.0"),
            ("Lateness of the first: 90.0 s, at most 90.0 s", "0.0,46.0 360.0,2.0")])

    def test_the_page_has_it(self) -> None:
        """From the beginning, since parts of a page that is shown are replaced."""
        for marks in ((), (mark(0.0),)):
            self.assertIn('<section id="hour"><h2>The last hour</h2><p>Nothing yet.</p>', page(state(hour=marks)))
        self.assertIn("<polyline", page(state(hour=(mark(0.0), mark(10.0), mark(20.0)))))
