"""The command `archive` with a Redis: kills at any moment, a process that goes on, an archive that begins anew."""
from __future__ import annotations

import random
import signal
import threading
from pathlib import Path

from judging import PROGRAM, replay_chains
from nodes import ALWAYS, PATIENCE, Replicas, wait_until
from rb_broker_redis.archive_folder import ArchiveFolder
from rb_broker_formats.queue import read_queue
from rb_broker_redis.queue import Queue
from redis_test import SEAT, RedisTest


ELEMENTS = 20_000


class ArchiveCommandTest(RedisTest):
    def setUp(self) -> None:
        super().setUp()
        self.folder = self.room / "archive"

    def make_events(self, queue: Queue, count: int) -> list[bytes]:
        """Makes so many calls at random, each of which is an event, and lets no job come back. Their lines."""
        draw = random.Random(count)
        calls = [draw.choice([f"{SEAT} OFFER {draw.randrange(10**9)} job-{number}", f"{SEAT + number} POLL",
                              f"{SEAT + number} DRAIN 3", f"{SEAT} PEEK", f"{SEAT} SIZE"]) for number in range(count)]
        calls += [f"{SEAT + number} END" for number in range(count)]
        queue.make(calls)
        return queue.command("LRANGE", queue.history, 0, -1)

    def files(self) -> list[Path]:
        return sorted(self.folder.glob("*.txt"))

    def assert_archived(self, events: list[bytes]) -> None:
        """The files have these events, each begins with what the one before it left, and nothing else is there."""
        self.assertEqual(sorted(self.folder.iterdir()), self.files())
        lines, opening = [], [b"open 0 0 0"]
        for path in self.files():
            text = path.read_bytes().splitlines()
            self.assertEqual(text[1:1 + len(opening)], opening, path)
            self.assertEqual(path.name, f"{self.name}-{len(lines):012}.txt")
            lines += text[1 + len(opening):-1]
            opening = [it[:-1] for it in read_queue(path).opening()]
        self.assertEqual(lines, events)


class TakeTest(ArchiveCommandTest):
    def test_files_of_so_many_events(self) -> None:
        events = self.make_events(self.joined(attempts=1), 2_500)
        self.assert_prints([f"{self.name}: {count} events in {self.folder}/{self.name}-{first:012}.txt"
                            for first, count in ((0, 1_000), (1_000, 1_000), (2_000, 500))],
                           "archive", self.folder, "--events", 1_000)
        self.assert_archived(events)
        self.assert_prints([], "archive", self.folder)

    def test_shards_share_a_folder(self) -> None:
        for it in range(2):
            self.make_events(self.joined(1, f"{self.name}.{it}"), 10)
        self.ran("archive", self.folder, "--shards", 2)
        self.assertEqual([it.name for it in self.files()], [f"{self.name}.{it}-{0:012}.txt" for it in range(2)])

    def test_kills_at_any_moment(self) -> None:
        events = self.make_events(self.joined(attempts=1), 12_000)
        kills = self.kill_again_and_again("archive", self.folder, "--events", 2_500)
        self.assertGreater(kills, 2)
        self.assert_archived(events)
        self.assertEqual(self.queue().command("LLEN", self.queue().history), 0)

    def test_a_process_that_goes_on(self) -> None:
        queue = self.joined()
        process = self.started("archive", self.folder, "--every", "50ms")
        for number in range(1, 4):
            queue.request("SIZE", SEAT)
            wait_until(lambda: len(self.files()) == number, "no file is written")
        process.send_signal(signal.SIGTERM)
        process.send_signal(signal.SIGTERM)  # by a hand that does not wait
        _, errors = process.communicate(timeout=PATIENCE)
        self.assertEqual((process.returncode in (0, -signal.SIGTERM), errors), (True, ""))
        events = [line for it in self.files() for line in it.read_bytes().splitlines()[2:-1]]
        self.assertEqual([it.split(b" ", 3)[3] for it in events], [b"size 0"] * 3)

    def test_a_queue_that_nobody_has_joined(self) -> None:
        """As in a Redis that has lost all, until the first gateway joins it again."""
        self.assert_prints([], "archive", self.folder)
        self.assert_archived([])

    def test_a_redis_that_is_not_there_yet(self) -> None:
        self.node.kill()
        try:
            process = self.started("archive", self.folder, "--every", "50ms")
            self.assertIn("Connection refused", process.stderr.readline())
        finally:
            self.node.start()
        self.joined().request("SIZE", SEAT)
        wait_until(self.files, "no file is written")
        process.send_signal(signal.SIGTERM)
        self.assertEqual(process.wait(PATIENCE), 0)

    def test_a_redis_that_is_away_for_a_while(self) -> None:
        queue = self.joined()
        process = self.started("archive", self.folder, "--every", "50ms")
        queue.request("SIZE", SEAT)
        wait_until(self.files, "no file is written")
        self.node.kill()
        self.node.start()  # empty, since it keeps nothing
        queue = self.joined()
        queue.request("OFFER 0 a", SEAT)
        wait_until(lambda: (self.folder / f"{self.name}-{0:012}.lost-1").exists(), "nothing is set aside")
        wait_until(self.files, "no file is written")
        process.send_signal(signal.SIGTERM)
        said, _ = process.communicate(timeout=PATIENCE)
        self.assertEqual(process.returncode, 0)
        self.assertIn("the Redis has lost events that were archived, from number 0: see ", said)


class FailOverTest(ArchiveCommandTest):
    def test_a_job_comes_back_whose_end_a_fail_over_has_lost(self) -> None:
        """Its return is legal, behind the event that gave it in an earlier file."""
        watched = self.till_end(Replicas(self.room / "nodes", 2, ALWAYS))
        primary, (heir, _) = watched.primary, watched.replicas
        queue = Queue(primary.client(), self.name)
        queue.load_functions()
        queue.call("rb_join", 60_000_000, "delay", f"{0:020}", 9, "")
        queue.make([f"{SEAT} OFFER 0 a", f"{SEAT} POLL"])
        wait_until(lambda: heir.ask("ZCARD", queue.held), "the replica does not follow")
        heir.ask("REPLICAOF", "NO", "ONE")
        queue.make([f"{SEAT} DONE 0"])
        self.ran("archive", self.folder, "--redis", primary.url)
        primary.kill()
        Queue(heir.client(), self.name).make([f"{SEAT} END"])
        self.ran("archive", self.folder, "--redis", heir.url)
        first, second = self.files()
        self.assertEqual(replay_chains(first, 0, 9), 2)
        self.assertRaisesRegex(AssertionError, "unchained 0 no parent", replay_chains, second, 0, 9)
        status, said, errors = self.ran_alone("judge", first, second, "--delay", "0s", "--attempts", 9, "--program", PROGRAM)
        self.assertEqual((status, errors), (0, ""))
        self.assertRegex(said[0], '^events 0 to 2: .*"offered":2')


class LargeTest(ArchiveCommandTest):
    """What may not be done in one piece, since all who use the Redis would wait for it."""

    def setUp(self) -> None:
        super().setUp()
        self.joined(attempts=1).make([f"{SEAT} OFFER {it} job-{it}" for it in range(ELEMENTS)])

    def left(self) -> dict[int, bytes]:
        """The elements in the queue behind the last file, as that tells."""
        return read_queue(self.files()[-1]).elements

    def assert_all_there(self) -> None:
        """The last file tells what is in the queue, and no command took long."""
        queue = self.queue()
        found = [it.decode().partition(" ") for it in queue.command("ZRANGE", queue.due, 0, -1)]
        elements = {int(place[21:]): f"{int(place[21:])} {int(place[:20])} {rest}".encode() for place, _, rest in found}
        self.assertEqual(self.left(), elements)
        self.assertEqual(self.node.slow(), [])

    def test_a_queue_begins_anew_while_it_is_used(self) -> None:
        is_over = threading.Event()
        user = threading.Thread(target=self.use_until, args=(is_over,))
        user.start()
        try:
            for _ in range(2):
                status, _, errors = self.ran("archive", self.folder, "--anew")
                self.assertEqual((status, errors), (0, ""))
                for it in self.files():
                    it.rename(it.with_suffix(".earlier"))
        finally:
            is_over.set()
            user.join()
        self.queue().request("SIZE", SEAT)
        self.assertEqual(self.ran("archive", self.folder, "--anew")[0], 0)
        self.queue().request("SIZE", SEAT)
        self.assertEqual(self.ran("archive", self.folder)[0], 0)
        self.assert_all_there()

    def use_until(self, is_over: threading.Event) -> None:
        """Makes calls at random, of which each is an event."""
        queue, draw = self.queue(), random.Random(1)
        while not is_over.is_set():
            queue.make([f"{SEAT} {draw.choice((f'OFFER {10**9} new', 'POLL', f'REMOVE {draw.randrange(ELEMENTS)}', 'SIZE'))}"
                        for _ in range(20)] + [f"{SEAT} END"])

    def test_all_that_is_in_hand_is_looked_for_in_pieces(self) -> None:
        queue = self.queue()
        queue.make([f"{SEAT + it // 64} POLL" for it in range(ELEMENTS)])
        self.assertEqual(self.ran("archive", self.folder)[0], 0)
        queue.make([f"{SEAT + it} END" for it in range(ELEMENTS // 64 + 1)])
        self.assertEqual(self.ran("archive", self.folder)[0], 0)
        self.assert_all_there()


class EndTest(ArchiveCommandTest):
    """What happens where the history has as many events as it may have."""

    def ended(self, at_end: str) -> Queue:
        queue = self.queue()
        queue.call("rb_join", 60_000_000, "delay", f"{0:020}", 3, "", "token", f"100 {at_end}")
        return queue

    def test_the_oldest_go_and_the_opening_moves_on(self) -> None:
        queue = self.ended("drop")
        for number in range(130):
            queue.make([f"{SEAT} OFFER {number} job-{number}", f"{SEAT} SIZE"])
            count = queue.command("LLEN", queue.history)
            self.assertLessEqual(count, 100)
            cut, calls = map(int, queue.command("HMGET", queue.state, "cut", "calls"))
            self.assertEqual(cut + count, calls)
        self.assert_prints([
            f"{self.name}: the events before number {cut} went, since there were too many; {count} behind them are given up,"
            " and a new series begins with the queue as it is"], "archive", self.folder)
        queue.make([f"{SEAT} POLL", f"{SEAT} DONE 0"])
        self.assertEqual(self.ran("archive", self.folder)[0], 0)
        self.assertEqual([it.name for it in self.files()], [f"{self.name}-{260:012}.txt"])
        self.assertEqual(read_queue(self.files()[0]).elements.keys(), {*range(1, 130)})
        replay_chains(self.files()[0], 0, 3)

    def test_an_archive_that_keeps_up_loses_none(self) -> None:
        queue, events = self.ended("drop"), []
        for _ in range(4):
            events += self.make_events(queue, 60)
            self.assertEqual(self.ran("archive", self.folder)[0], 0)
        self.assert_archived(events)

    def test_offers_are_refused_and_work_goes_out(self) -> None:
        queue = self.ended("refuse")
        replies = queue.make([f"{SEAT} OFFER 0 job"] * 101)
        self.assertEqual((replies.count(b"ERR 7 memory\n"), replies[-1]), (1, b"ERR 7 memory\n"))
        self.assertEqual([it.split()[0] for it in queue.make([f"{SEAT} POLL", f"{SEAT} FAIL 0"])], [b"ITEM", b"AGAIN"])
        self.assertEqual(queue.request("OFFER 0 job", SEAT), "ERR 7 memory")
        self.assertEqual(self.ran("archive", self.folder)[0], 0)
        self.assertEqual(queue.request("OFFER 0 job", SEAT)[:8], "OFFERED ")


class InHandTest(ArchiveCommandTest):
    def test_each_file_has_the_jobs_that_come_back_in_it(self) -> None:
        queue = self.joined()
        for line in ("OFFER 0 a", "OFFER 0 b", "POLL", "POLL"):
            queue.request(line, SEAT)
        self.assert_prints([f"{self.name}: 2 events in {self.folder}/{self.name}-{0:012}.txt"], "archive", self.folder)
        self.assert_prints([], "archive", self.folder)
        queue.request("DONE 0", SEAT)
        queue.request("FAIL 1", SEAT)
        self.assert_prints([f"{self.name}: 3 events in {self.folder}/{self.name}-{2:012}.txt"], "archive", self.folder)
        for path in self.files():
            replay_chains(path, 0, 3)


class RefusalTest(ArchiveCommandTest):
    def test_a_queue_that_keeps_no_events(self) -> None:
        self.queue().call("rb_join", 60_000_000, "delay", f"{0:020}", 3, "silent")
        self.assert_refused(1, f"{self.name}: this queue keeps no events", "archive", self.folder)

    def test_a_folder_that_another_process_has(self) -> None:
        folder = ArchiveFolder(self.folder)
        self.addCleanup(folder.close)
        self.assert_refused(1, f"{self.folder}: another archive writes to it", "archive", self.folder)

    def test_a_file_that_can_not_be_written(self) -> None:
        (self.room / "file").write_text("")
        self.assert_refused(2, f"{self.room}/file: File exists", "archive", self.room / "file")

    def test_a_redis_that_is_not_there(self) -> None:
        self.node.kill()
        try:
            status, lines, errors = self.ran("archive", self.folder)
        finally:
            self.node.start()
        self.assertEqual((status, lines), (3, []))
        self.assertRegex(errors, r"^rb_broker_redis: Error 111 connecting to 127\.0\.0\.1:\d+\. Connection refused\.\n$")

    def test_a_series_without_its_last_file_begins_anew(self) -> None:
        queue = self.joined()
        for line in ("OFFER 0 a", "OFFER 0 b", "POLL", "DONE 0"):
            queue.request(line, SEAT)
        self.ran("archive", self.folder)
        queue.request("SIZE", SEAT)
        queue.request(f"FAIL {queue.request('POLL', SEAT).split(' ')[1]}", SEAT)
        other = self.room / "other"
        self.assert_refused(1, f"{self.name}: event 3 is next, and no file in {other} ends there: bring that file back, or "
                            "begin a new series with --anew", "archive", other)
        self.assert_prints([f"{self.name}: 3 events are given up"], "archive", other, "--anew")
        queue.request("SIZE", SEAT)
        self.ran("archive", other)
        text = (other / f"{self.name}-{6:012}.txt").read_bytes().splitlines()
        self.assertRegex(text[1], rb"^open 3 \d{19} 1$")
        self.assertRegex(text[2], rb"^keep 2 \d{19} 1 \d{19} 2 b$")
        self.assertRegex(text[3], rb"^\d+ \d+ \d+ size 1$")
        self.assertEqual(text[4:], [b"end 1"])
