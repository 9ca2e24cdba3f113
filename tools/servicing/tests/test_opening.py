"""What a run begins with, by what the one before left."""
import unittest
from unittest import mock

from servicing import opening
from servicing.opening import Left, NoIdsLeft, opening_after
from servicing.tests.support import left_of, text_of

# The example of docs/HISTORY.md: two offers, a poll of the first, and what a run was opened with.
HISTORY = """history 3
open 2 0 1
keep 1 1000 0 0 2 a
0 0 0 size 1
0 1000 1000 poll 1
0 1000 1000 offer 2 1000 2 1000 1 b
end 3
"""


class OpeningTest(unittest.TestCase):
    def test_each_way_of_leaving(self) -> None:
        offers = "".join(f"1 {at} {at} offer {at} 5 {at} 5 1 p{at}\n" for at in range(10))
        cases: list[tuple[str, list[int]]] = [
            ("poll 3", [3]), ("take 4", [4]), ("pollfor 9 5 7", [7]), ("drain 5 0 1 2", [0, 1, 2]), ("drain 5", []),
            ("remove 6 yes", [6]), ("remove 77 no", []), ("clear", [*range(10)]), ("poll none", []),
            ("pollfor 9 5 none", []), ("peek 2", []), ("peek none", []), ("size 10", []),
        ]
        for act, gone in cases:
            left = left_of(f"history 3\nopen 0 0 0\n{offers}1 20 20 {act}\nend 11\n")
            with self.subTest(act):
                self.assertEqual([int(it) for it in left.elements], [it for it in range(10) if it not in gone])
                self.assertEqual((left.next_id, left.moment), (10, 20))

    def test_jobs_that_came_back(self) -> None:
        left = left_of("history 3\nopen 7 0 1\nkeep 5 0 1 0 2 a\n0 1 1 take 5\n0 2 2 offer 7 3 1 0 3 a\n"
                       "0 4 4 take 7\n0 5 5 offer 8 5 8 5 1 b\nend 4\n")
        self.assertEqual((left.failed, left.next_id), (1, 9))

    def test_a_history_without_events_is_at_its_opening(self) -> None:
        left = left_of("history 3\nopen 9 77 1\nkeep 5 80 5 80 1 x\nend 0\n")
        self.assertEqual((left.next_id, left.moment, left.elements), (9, 77, {b"5": b"80 5 80 1 x"}))

    def test_other_texts_are_refused(self) -> None:
        for text in ("", "history 2\nopen 1 0 0\nend 0\n", "history 3\n", "history 3\nopen 0 0 1\nend 0\n"):
            with self.subTest(text), self.assertRaises((ValueError, IndexError, KeyError)):
                left_of(text)

    def test_the_text_is_a_history_with_no_event(self) -> None:
        made = opening_after(left_of(HISTORY), {}, 5000)
        self.assertEqual(text_of(made), "history 3\nopen 3 5000 1\nkeep 2 1000 2 1000 1 b\nend 0\n")
        self.assertEqual(left_of(text_of(made)).elements, made.elements)

    def test_its_moment(self) -> None:
        """It does not go back behind the last event, and none passes what a text can tell."""
        for moment, wanted in ((10, 1000), (5000, 5000), (2**64 + 5, 2**64 - 1)):
            self.assertEqual(opening_after(left_of(HISTORY), {}, moment).moment, wanted)

    def test_ids_rise_above_all_that_a_lost_run_could_have_given(self) -> None:
        before, aside = Left(500, 7, {b"3": b"9 3 9 1 a"}), {b"4": b"90 4 90 1 b"}
        again = opening_after(before, aside, 60, 1000)
        self.assertEqual((again.next_id, again.moment), (1500, 60))
        self.assertEqual({**again.elements, **again.aside}, {**before.elements, **aside})
        self.assertEqual(opening_after(before, aside, 3).moment, 7)

    def test_ids_end(self) -> None:
        self.assertEqual(opening_after(Left(2**40 - 5, 0, {}), {}, 0, 5).next_id, 2**40)
        with self.assertRaises(NoIdsLeft):
            opening_after(Left(2**40 - 5, 0, {}), {}, 0, 6)

    def test_those_that_expire_last_wait_beside(self) -> None:
        elements = {b"%d" % it: b"%d %d 0 1 p" % (100 - it, it) for it in range(10)}
        with mock.patch.object(opening, "MOST_OPENING_ELEMENTS", 4):
            made = opening_after(left_of("history 3\nopen 10 0 0\nend 0\n"), elements, 0)
            self.assertEqual([*made.elements], [b"6", b"7", b"8", b"9"])
            self.assertEqual([*made.aside], [b"0", b"1", b"2", b"3", b"4", b"5"])
            self.assertEqual(made.first_aside, 95)
            again = opening_after(left_of("history 3\nopen 10 0 0\nend 0\n"), made.aside, 0)
        self.assertEqual([*again.elements], [b"2", b"3", b"4", b"5"])
        self.assertEqual(again.elements[b"5"], elements[b"5"])

    def test_those_aside_come_back_in_the_order_of_ids_when_there_is_room(self) -> None:
        left = left_of("history 3\nopen 9 0 2\nkeep 3 1 3 1 1 a\nkeep 7 1 7 1 1 a\nend 0\n")
        made = opening_after(left, {b"5": b"2 5 2 4 b", b"10": b"2 5 2 4 b"}, 0)
        self.assertEqual(([*made.elements], made.aside), ([b"3", b"5", b"7", b"10"], {}))

    def test_the_services_own_element_does_not_outlive_its_run(self) -> None:
        left = left_of(f"history 3\nopen 0 0 0\n0 5 5 offer 0 {5 + 2**62} 0 {5 + 2**62} 1 rb_broker-service\n"
                       "0 6 6 offer 1 9 1 9 1 rb_broker-service\nend 2\n")
        self.assertEqual(left.probes, 1)
        self.assertEqual([*opening_after(left, {}, 0).elements], [b"1"])
