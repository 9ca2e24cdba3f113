"""Histories that are read: what is left at their end, and the texts that are none."""
from __future__ import annotations

from unittest import mock

from rb_broker_formats.element import Element
from rb_broker_formats.faults import Damaged
from rb_broker_formats.queue import FollowedQueue, read_queue
from rb_broker_redis.judged import Refused, read_judged
from redis_test import RoomTest

# At its end four elements are left. 5 is the second attempt of job 3.
RUN = rb"""history 3
open 3 100 2
keep 0 90 0 90 1 a
keep 2 150 1 120 2 b
1 100 100 offer 3 100 3 100 1 c
2 120 120 poll 0
2 130 130 offer 4 1000001 4 1000001 1 d
1 160 160 take 3
1 160 160 offer 5 1000000 3 100 2 "e\
1 170 170 offer 6 18446744073709551615 6 18446744073709551615 1 f
1 180 180 remove 9 no
end 7
"""

# Each act of docs/HISTORY.md, at seats and moments that go on.
ACTS = b"""history 3
open 0 0 0
0 0 0 peek none
1 5 5 offer 0 5 0 5 1 a
2 3 5 offer 1 6 1 6 1 b
1 5 5 offer 2 7 2 7 1 c
1 5 5 size 3
1 6 6 peek 0
1 6 6 pollfor 2 4 0
1 6 6 drain 64 1
1 6 6 drain 0
1 6 6 poll none
1 6 6 pollfor 6 0 none
1 6 6 remove 2 yes
1 6 6 offer 3 9 3 9 1 d
1 6 6 clear
1 6 6 size 0
end 15
"""


class HistoryTest(RoomTest):
    def left_in(self, text: bytes) -> FollowedQueue:
        file = self.room / "text"
        file.write_bytes(text)
        return read_queue(file)

    def assert_damaged(self, said: str, text: bytes) -> None:
        with self.assertRaises(Damaged) as raised:
            self.left_in(text)
        self.assertEqual(str(raised.exception), f"{self.room}/text: {said}")


class LeftTest(HistoryTest):
    def test_the_elements_that_are_left(self) -> None:
        queue = self.left_in(RUN)
        self.assertEqual([Element.of(it) for it in queue.elements.values()], [
            Element(2, 150, 1, 120, 2, "b"), Element(4, 1000001, 4, 1000001, 1, "d"),
            Element(5, 1000000, 3, 100, 2, '"e\\'),
            Element(6, 18446744073709551615, 6, 18446744073709551615, 1, "f")])
        self.assertEqual((queue.next_id, queue.last), (7, 180))

    def test_each_act(self) -> None:
        queue = self.left_in(ACTS)
        self.assertEqual((queue.elements, queue.next_id, queue.last), ({}, 4, 6))

    def test_the_earlier_versions(self) -> None:
        first = b"history 1\n0 0 0 offer 0 7 0 1 a\n0 8 8 take 0\n0 8 8 offer 1 9 0 2 a\n0 8 8 offer 2 5 2 1 b\nend 4\n"
        self.assertEqual(list(self.left_in(first).elements.values()), [b"1 9 0 7 2 a", b"2 5 2 5 1 b"])
        second = b"history 2\nopen 3 4 1\nkeep 1 9 0 2 a\n0 9 9 poll 1\n0 9 9 offer 3 12 0 3 a\nend 2\n"
        self.assertEqual(list(self.left_in(second).elements.values()), [b"3 12 0 9 3 a"])
        self.assert_damaged("line 2: neither an event nor the last line", first.replace(b"0 7 0 1 a", b"0 7 0 7 1 a"))

    def test_the_opening_of_the_next_run(self) -> None:
        opening = b"".join(self.left_in(RUN).opening())
        self.assertEqual(opening, b"open 7 180 4\nkeep 2 150 1 120 2 b\nkeep 4 1000001 4 1000001 1 d\n"
                         b'keep 5 1000000 3 100 2 "e\\\nkeep 6 18446744073709551615 6 18446744073709551615 1 f\n')
        self.assertEqual(b"".join(FollowedQueue.of_opening(opening.splitlines()).opening()), opening)


class DamagedTest(HistoryTest):
    def test_one_thing_that_is_changed(self) -> None:
        moment = "its moment is not the later of the one asked and the last"
        for said, old, new in (
            # What no queue does.
            ("line 5: its id is not the next one, 3", b"offer 3 100 3", b"offer 4 100 3"),
            ("line 6: element 1 is not in the queue", b"poll 0", b"poll 1"),
            (f"line 6: {moment}", b"120 120", b"90 90"),
            (f"line 6: {moment}", b"120 120", b"120 121"),
            ("line 11: the queue holds 4", b"remove 9 no", b"size 3"),
            ("line 4: the id of a `keep` line is above the one before, and below the next", b"keep 2", b"keep 3"),
            ("line 6: element 0 is not the earliest", b"keep 0 90", b"keep 0 120"),
            ("line 6: an element has expired, and is not given", b"poll 0", b"poll none"),
            ("line 6: an element has expired, and is not given", b"poll 0", b"drain 2 0"),
            ("line 6: element 2 is not the earliest", b"poll 0", b"peek 2"),
            ("line 6: element 1 is not in the queue", b"poll 0", b"peek 1"),
            ("line 6: the queue is not empty", b"poll 0", b"peek none"),
            # What is no history.
            ("line 1: no `history 1`, `history 2` or `history 3`", b"history 3", b"history 4"),
            ("line 3: no `keep` line", b"history 3", b"history 2"),
            ("line 3: no `keep` line", b"keep 0", b"kept 0"),
            ("line 2: no `open` line", b"open 3", b"open 03"),
            ("line 4: no `keep` line", b"keep 2", b"kept 2"),
            ("line 6: neither an event nor the last line", b"2 120", b"2  120"),
            ("line 12: it says 8, and the number of events is 7", b"end 7", b"end 8"),
            ("line 13: it follows the last line", b"end 7\n", b"end 7\nx"),
            ("line 12: the text ends before the history does", b"end 7\n", b"end 7"),
        ):
            with self.subTest(new=new):
                self.assertEqual(RUN.count(old), 1)
                self.assert_damaged(said, RUN.replace(old, new))

    def test_a_peek_into_an_empty_queue(self) -> None:
        self.assert_damaged("line 3: element 0 is not in the queue", ACTS.replace(b"peek none", b"peek 0"))

    def test_an_element_that_is_early(self) -> None:
        self.assert_damaged("line 10: element 1 has not expired", ACTS.replace(b"offer 1 6 1 6", b"offer 1 7 1 7"))

    def test_a_program_judges_where_there_is_one(self) -> None:
        file, program = self.room / "text", self.room / "rb_broker"
        file.write_bytes(RUN)
        with mock.patch.dict("os.environ", PATH=str(self.room)):
            self.assertEqual(read_judged(file).next_id, 7)
            program.write_text("#!/bin/sh\n[ \"$*\" = \"replay $FILE\" ] && echo refused 3 why && exit 1\n")
            program.chmod(0o755)
            with mock.patch.dict("os.environ", FILE=str(file)), self.assertRaises(Refused) as raised:
                read_judged(file)
        self.assertEqual(str(raised.exception), f"{file}: rb_broker replay: refused 3 why")

    def test_an_empty_file_as_a_killed_server_leaves_it(self) -> None:
        self.assert_damaged("line 1: no `history 1`, `history 2` or `history 3`", b"")
