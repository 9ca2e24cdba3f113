"""The archive: its files, and what it does after a kill or a loss. The Redis is a list here."""
from __future__ import annotations

import contextlib
import os
from collections.abc import Sequence
from pathlib import Path
from unittest import mock

from rb_broker_redis import cuts
from rb_broker_redis.archive import Archive
from rb_broker_redis.archive_folder import UNFINISHED, ArchiveFolder, FolderInUse
from rb_broker_formats.faults import Damaged
from rb_broker_formats.queue import FollowedQueue, read_queue
from rb_broker_redis.queue_events import Conflict, Position
from redis_test import RoomTest

# A job that fails once, and one that stays.
EVENTS = [
    b"1 5 5 offer 0 5 0 5 1 a", b"2 6 6 take 0", b"2 6 6 offer 1 16 0 5 2 a", b"1 7 7 offer 2 99 2 99 1 b",
    b"1 8 8 size 2", b"2 16 16 poll 1", b"2 17 17 poll none",
]
FIRST = b"history 3\nopen 0 0 0\n" + b"".join(it + b"\n" for it in EVENTS[:3]) + b"end 3\n"
SECOND = (b"history 3\nopen 2 6 1\nkeep 1 16 0 5 2 a\n" + b"".join(it + b"\n" for it in EVENTS[3:6]) + b"end 3\n")
THIRD = b"history 3\nopen 3 16 1\nkeep 2 99 2 99 1 b\n2 17 17 poll none\nend 1\n"


class Killed(Exception):
    """The process is killed here."""


class ListSource:
    """Events in a list. `dies_before_cut` and `dies_after_cut` say where the process is killed."""

    def __init__(self, events: Sequence[bytes], name: str = "jobs") -> None:
        self.list, self.first, self.kept, self.name = list(events), 0, [b"open 0 0 0"], name
        self.in_hand: frozenset[bytes] = frozenset()
        self.dies_before_cut = self.dies_after_cut = False

    def position(self) -> Position:
        return Position(self.first, len(self.list), len(self.list), self.in_hand)

    def opening(self) -> FollowedQueue | None:
        return FollowedQueue.of_opening(self.kept) if self.kept else None

    def lost_opening(self) -> int | None:
        return None

    def events(self, start: int, count: int) -> list[bytes]:
        return self.list[start:start + count]

    def cut(self, first: int, count: int) -> bool:
        if self.dies_before_cut:
            raise Killed
        if first != self.first:
            return False
        self.first, self.list, self.kept = first + count, self.list[count:], []
        if self.dies_after_cut:
            raise Killed
        return True


class ArchiveTest(RoomTest):
    def setUp(self) -> None:
        super().setUp()
        self.folder = self.room / "archive"
        self.source = ListSource(EVENTS)

    def take(self, most: int = 3, events: Sequence[bytes] | None = None) -> list[str]:
        """What one process says, which locks the folder; the Redis has these events, if they are given."""
        if events is not None:
            self.source.list = list(events)
        with contextlib.closing(ArchiveFolder(self.folder)) as folder:
            return list(Archive(self.source, folder, most).take())

    def file(self, first: int) -> Path:
        """The file that begins with the event of this number."""
        return self.folder / f"jobs-{first:012}.txt"

    def assert_files(self, *texts: bytes) -> None:
        """The folder has these texts, of three events each, and nothing else."""
        files = [self.file(3 * number) for number in range(len(texts))]
        self.assertEqual(sorted(self.folder.iterdir()), files)
        self.assertEqual([it.read_bytes() for it in files], list(texts))

    def assert_conflict(self, said: str, most: int = 3, events: Sequence[bytes] | None = None) -> None:
        """Nothing is taken, for this reason."""
        with self.assertRaisesRegex(Conflict, said):
            self.take(most, events)


class FilesTest(ArchiveTest):
    def test_each_file_begins_where_the_one_before_ended(self) -> None:
        said = self.take()
        self.assert_files(FIRST, SECOND, THIRD)
        self.assertEqual(said, [f"jobs: {count} events in {self.file(it)}" for it, count in ((0, 3), (3, 3), (6, 1))])
        self.assertEqual(self.source.list, [])

    def test_it_goes_on_in_the_next_process(self) -> None:
        self.take(events=EVENTS[:3])
        self.assertEqual(self.take(), [])
        self.take(events=EVENTS[3:6])
        self.assert_files(FIRST, SECOND)

    def test_files_before_the_last_one_may_be_moved_away(self) -> None:
        self.take(events=EVENTS[:6])
        self.file(0).unlink()
        self.take(events=EVENTS[6:])
        self.assertEqual(self.file(6).read_bytes(), THIRD)
        self.file(6).unlink()
        self.assert_conflict("^jobs: event 7 is next, and no file in /.* ends there: bring that file", 3, EVENTS[6:])
        self.assertEqual(self.source.list, EVENTS[6:])

    def test_a_damaged_last_file_is_not_continued(self) -> None:
        self.take(events=EVENTS[:3])
        self.file(0).write_bytes(FIRST.replace(b"take 0", b"take 1"))
        with self.assertRaisesRegex(Damaged, "jobs-000000000000.txt: line 4: element 1 is not in the queue$"):
            self.take(events=EVENTS[3:])

    def test_a_queue_that_begins_with_elements(self) -> None:
        self.source.kept = [b"open 2 6 1", b"keep 1 16 0 5 2 a"]
        self.take(events=EVENTS[3:6])
        self.assert_files(SECOND)

    def test_several_queues_share_a_folder(self) -> None:
        self.take()
        self.source = ListSource(EVENTS[:1], "jobs-2")
        self.take()
        self.assertEqual(len(os.listdir(self.folder)), 4)

    def test_one_process_at_a_time_writes(self) -> None:
        with contextlib.closing(ArchiveFolder(self.folder)):
            self.assertRaises(FolderInUse, self.take)

    def test_events_of_jobs_in_hand_stay_until_it_is_known_what_becomes_of_them(self) -> None:
        self.source.in_hand = frozenset([b"0"])
        self.take(7, EVENTS[:2])
        self.assertEqual(self.source.list, EVENTS[1:2])
        self.take(7, EVENTS[1:])
        self.assertEqual(self.source.list, EVENTS[5:])  # job 0 is in hand again
        self.source.in_hand = frozenset()
        self.take(7)
        self.assertEqual([it[:12] for it in sorted(os.listdir(self.folder))], ["jobs-0000000"] * 3)
        self.assertEqual(self.source.list, [])

    def test_a_queue_with_more_elements_than_an_opening_may_have(self) -> None:
        with mock.patch.object(cuts, "MOST_OPENING_ELEMENTS", 1):
            self.take(4)  # behind the fourth event are two
            self.assertEqual(self.file(0).read_bytes(), FIRST)
            self.assertEqual(self.file(3).read_bytes(), SECOND.replace(b"end 3\n", b"2 17 17 poll none\nend 4\n"))
        with mock.patch.object(cuts, "MOST_OPENING_ELEMENTS", 0):  # where no place is better, they leave the Redis all the same
            self.source = ListSource(EVENTS[:1], "full")
            file = self.folder / f"full-{0:012}.txt"
            self.assertEqual(self.take(), [f"full: 1 events in {file}; more than 1,000,000 elements are left at its end,"
                                           " so `judge` takes the next file, and `replay --chains` does not"])
        self.assertEqual(self.source.list, [])

    def test_the_last_file_opens_the_next_run(self) -> None:
        self.take()
        opening = read_queue(self.file(3)).opening()
        self.assertEqual(b"".join(opening), b"open 3 16 1\nkeep 2 99 2 99 1 b\n")


class KillTest(ArchiveTest):
    def test_a_kill_before_the_cut_and_behind_it(self) -> None:
        for _ in range(2):
            self.source.dies_before_cut = True
            self.assertRaises(Killed, self.take)
            self.assert_files(FIRST)
        self.source.dies_before_cut, self.source.dies_after_cut = False, True
        for texts in ([FIRST], [FIRST, SECOND], [FIRST, SECOND, THIRD]):
            self.assertRaises(Killed, self.take)
            self.assert_files(*texts)
        self.assertEqual(self.take(), [])

    def test_a_kill_while_events_are_taken_out(self) -> None:
        self.source.dies_before_cut = True
        self.assertRaises(Killed, self.take)
        self.source.dies_before_cut = False
        self.source.first, self.source.list, self.source.kept = 2, EVENTS[2:], []
        self.take()
        self.assert_files(FIRST, SECOND, THIRD)

    def test_a_kill_while_a_file_is_written(self) -> None:
        for place in ("os.fsync", "pathlib.Path.rename"):
            with mock.patch(place, side_effect=Killed):
                self.assertRaises(Killed, self.take)
            self.assertEqual(os.listdir(self.folder), [f"jobs-000000000000.txt{UNFINISHED}"])
        self.take()
        self.assert_files(FIRST, SECOND, THIRD)

    def test_nothing_is_taken_out_before_the_file_and_its_name_are_synced(self) -> None:
        steps = []
        fsync, rename, cut = os.fsync, Path.rename, self.source.cut

        def step(name, action):
            return lambda *words: (steps.append(name), action(*words))[1]

        with mock.patch("os.fsync", step("sync", fsync)), mock.patch.object(Path, "rename", step("rename", rename)), \
                mock.patch.object(self.source, "cut", step("cut", cut)):
            self.take(7)
        self.assertEqual(steps, ["sync", "rename", "sync", "cut"])


class LossTest(ArchiveTest):
    def test_a_redis_that_lost_the_last_events_and_goes_on(self) -> None:
        self.take()
        # It comes back as it was before the second cut, without the last two events, and others follow.
        self.source.first = 3
        said = self.take(events=[*EVENTS[3:5], b"2 16 16 take 1"])
        lost = {first: self.file(first).with_suffix(".lost-1") for first in (6, 3)}
        self.assertEqual(said, [
            *(f"jobs: the Redis has lost events that were archived, from number {first}: see {file}"
              for first, file in lost.items()), f"jobs: 3 events in {self.file(3)}"])
        self.assertEqual(lost[3].read_bytes(), SECOND)
        self.assertEqual(self.file(3).read_bytes(), SECOND.replace(b"poll 1", b"take 1"))

    def test_a_redis_that_lost_the_cut_alone(self) -> None:
        self.take()
        self.source.first = 3
        self.assertEqual(self.take(events=EVENTS[3:]), [])
        self.assert_files(FIRST, SECOND, THIRD)

    def test_a_redis_that_lost_all(self) -> None:
        self.take()
        self.source = ListSource(EVENTS[:1])
        self.assertEqual(len(self.take()), 4)
        self.source = ListSource([b"1 5 5 offer 0 6 0 6 1 z"])
        self.take()
        self.assertEqual(sorted(os.listdir(self.folder)), [
            "jobs-000000000000.lost-1", "jobs-000000000000.lost-2", "jobs-000000000000.txt",
            "jobs-000000000003.lost-1", "jobs-000000000006.lost-1"])


class ConflictTest(ArchiveTest):
    def test_another_archive_that_was_faster(self) -> None:
        with mock.patch.object(self.source, "cut", return_value=False):
            self.assert_conflict("^jobs: another archive has taken events that are in /")

    def test_events_that_do_not_follow(self) -> None:
        self.source.list[4] = b"1 8 8 size 3"
        self.assert_conflict(r"^jobs: event 4 does not follow from those before it: 1 8 8 size 3: ", 7)
        self.assertEqual(len(self.source.list), 7)
