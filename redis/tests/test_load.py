"""What runs left is loaded into a queue: by real time, with ids, jobs and attempts, once."""
from __future__ import annotations

import gzip
import json
import os
import random
import subprocess
from typing import IO
from unittest import mock

from gateways import COMMAND
from judging import PROGRAM
from nodes import PATIENCE
from rb_broker_formats.queue import read_queue
from rb_broker_redis.load import NotLoaded, left_by, load
from rb_broker_redis.shards import Rendezvous
from redis_test import SEAT, RedisTest
from test_history import RUN

NINE = "2026-11-26T09:00:00Z"  # 1,795,683,600 seconds since 1970; the run opens at moment 100
LINES = [  # of --show
    '{"id": 2, "expiry": 1795683600000000050, "origin": 1, "first": 1795683600000000020, "attempt": 2, "payload": "b", '
    '"due": "2026-11-26T09:00:00.000000050Z"}',
    '{"id": 5, "expiry": 1795683600000999900, "origin": 3, "first": 1795683600000000000, "attempt": 2, '
    r'"payload": "\"e\\", "due": "2026-11-26T09:00:00.000999900Z"}',
    '{"id": 4, "expiry": 1795683600000999901, "origin": 4, "first": 1795683600000999901, "attempt": 1, "payload": "d", '
    '"due": "2026-11-26T09:00:00.000999901Z"}',
    '{"id": 6, "expiry": 18446744073709551615, "origin": 6, "first": 18446744073709551615, "attempt": 1, "payload": "f", '
    '"due": "2554-07-21T23:34:33.709551615Z"}',
]


class LoadTest(RedisTest):
    def setUp(self) -> None:
        super().setUp()
        self.history = self.room / "run.txt"
        self.history.write_bytes(RUN)
        self.load = ("load", self.history, "--began", NINE)
        self.used = f"{self.name}: this queue is in use, or another load into it has not ended"

    def assert_loaded(self, how: str = "loaded") -> None:
        """The run is loaded, or was."""
        self.assert_prints([f"{self.name}: 4 elements {how}"], *self.load)


class ShowTest(LoadTest):
    def test_the_elements_by_expiry(self) -> None:
        self.assert_prints(LINES, *self.load, "--show")

    def test_dates(self) -> None:
        for began in ("2026-11-26 10:00:00+01:00", "2026-11-26 09:00", "@1795683600"):
            self.assert_prints(LINES, "load", self.history, "--began", began, "--show")
        for began in ("2026-11-26T09:00:00,25Z", "@1795683600.250"):
            line = json.loads(self.ran("load", self.history, "--began", began, "--show")[1][0])
            self.assertEqual(line["due"], "2026-11-26T09:00:00.250000050Z")

    def test_moments_that_are_dates(self) -> None:
        _, lines, _ = self.ran("load", self.history, "--began", "dates", "--show")
        self.assertEqual([json.loads(it)["expiry"] for it in lines], [150, 1000000, 1000001, 2**64 - 1])

    def test_a_history_that_is_compressed(self) -> None:
        compressed = self.room / "run.txt.gz"
        compressed.write_bytes(gzip.compress(RUN))
        self.assert_prints(LINES, "load", compressed, "--began", NINE, "--show")
        compressed.write_bytes(gzip.compress(RUN)[:-9])
        self.assert_refused(1, f"{compressed}: it is damaged as a compressed file", "load", compressed, "--began", NINE)

    def test_a_queue_that_is_empty_at_the_end(self) -> None:
        self.history.write_bytes(b"history 3\nopen 0 0 0\nend 0\n")
        self.assert_prints([], *self.load, "--show")

    def assert_output_fails(self, output: IO[bytes], said: bytes) -> None:
        """A command whose output goes there ends with status 2 and this line."""
        ran = subprocess.run([*COMMAND, *self.words(*self.load, "--show")], stdout=output, stderr=subprocess.PIPE,
                             timeout=PATIENCE, check=False)
        self.assertEqual((ran.returncode, ran.stderr), (2, said))

    def test_an_output_that_takes_nothing(self) -> None:
        with open("/dev/full", "wb") as full:
            self.assert_output_fails(full, b"rb_broker_redis: output: No space left on device\n")

    def test_an_output_that_is_closed(self) -> None:
        reader, writer = os.pipe()
        os.close(reader)
        with open(writer, "wb") as closed:
            self.assert_output_fails(closed, b"rb_broker_redis: cannot write output\n")


class ProgramTest(LoadTest):
    """A history of the program, and what the program itself finds when it continues it."""

    def run_script(self, script: str, *options: str) -> list[str]:
        ran = subprocess.run([PROGRAM, "script", *options], input=script, stdout=subprocess.PIPE, check=True,
                             timeout=PATIENCE, encoding="utf-8")
        return ran.stdout.splitlines()

    def test_what_the_next_run_finds_is_what_is_shown(self) -> None:
        draw, path = random.Random(1), str(self.history)
        lines = [f"OFFER {draw.randrange(10**10)} job-{number}" for number in range(300)]
        lines += ["AT 5000000000", "DRAIN 40", *[f"DONE {id}" for id in range(300)]]
        lines += [f"REMOVE {id}" for id in range(0, 90, 7)]
        self.run_script("\n".join([*lines, "QUIT", ""]), "--calls", "1000", "--history", path)
        for second in (6, 7, 8):  # one job at a time fails at the end of its run, so that no two expire at one moment
            script = f"AT {second * 10**9}\nPOLL\nQUIT\n"
            self.assertIn("ITEM", self.run_script(script, "--from", path, "--history", path)[1])
        left = [json.loads(it) for it in self.ran("load", path, "--began", "dates", "--show")[1]]
        asked = "".join(f"PEEK\nREMOVE {it['id']}\n" for it in left) + "PEEK\nQUIT\n"
        expected = [line for it in left for line in
                    (f"HEAD {it['id']} {it['expiry']} {it['attempt']} {it['payload']}", "REMOVED yes")]
        self.assertEqual(self.run_script(asked, "--calls", "1000", "--from", path), [*expected, "NONE", "BYE"])
        self.assertGreater(len(left), 200)
        self.assertEqual([it["attempt"] for it in left].count(2), 3)

    def test_the_program_continues_the_last_file_of_an_archive(self) -> None:
        queue = self.joined(attempts=3)
        for line in ("OFFER 0 a", "OFFER 3600000000000 b", "POLL", "FAIL 0", "POLL", "FAIL 2"):
            queue.request(line, SEAT)
        self.ran("archive", self.room / "archive")
        file = self.room / "archive" / f"{self.name}-{0:012}.txt"
        replies = self.run_script("SIZE\nPOLL\nPEEK\nQUIT\n", "--from", str(file), "--attempts", "3")
        self.assertEqual([it.split(" ")[0] for it in replies], ["SIZE", "ITEM", "HEAD", "BYE"])
        self.assertEqual((replies[0], replies[1].split(" ")[3:], replies[2].split(" ")[3:]),
                         ("SIZE 2", ["3", "a"], ["1", "b"]))


class QueueTest(LoadTest):
    def test_each_element_keeps_its_id_its_job_and_its_attempt(self) -> None:
        self.assert_loaded()
        queue = self.joined(attempts=3)
        self.assertEqual([queue.request("POLL", SEAT) for _ in range(4)], [
            "ITEM 2 1795683600000000050 2 b", r'ITEM 5 1795683600000999900 2 "e' + "\\", "ITEM 4 1795683600000999901 1 d",
            "NONE"])
        self.assertEqual(queue.request("FAIL 5", SEAT).split(" ")[:2], ["AGAIN", "7"])
        self.assertEqual(queue.request("POLL", SEAT).split(" ")[3:], ["3", r'"e' + "\\"])
        self.assertEqual(queue.request("REMOVE 6", SEAT), "REMOVED yes")
        self.assertEqual(queue.request("SIZE", SEAT), "SIZE 0")
        queue.request("END", SEAT)
        # The history begins with what was loaded, so that it can be checked with its retries.
        self.ran("archive", self.room / "archive")
        text = (self.room / "archive" / f"{self.name}-000000000000.txt").read_bytes().splitlines()
        self.assertEqual(text[1:6], [
            b"open 7 1795683600000000080 4", b"keep 2 1795683600000000050 1 1795683600000000020 2 b",
            b"keep 4 1795683600000999901 4 1795683600000999901 1 d",
            b'keep 5 1795683600000999900 3 1795683600000000000 2 "e\\',
            b"keep 6 18446744073709551615 6 18446744073709551615 1 f"])

    def test_it_is_loaded_once(self) -> None:
        self.assert_loaded()
        self.assert_loaded("were loaded before")
        self.joined().request("POLL", SEAT)
        self.assert_loaded("were loaded before")

    def test_a_queue_that_is_in_use(self) -> None:
        self.joined()
        self.assert_refused(1, self.used, *self.load)

    def test_another_load_behind_the_first(self) -> None:
        self.assert_loaded()
        self.assert_refused(1, self.used, "load", self.history, "--began", "@0")
        self.assertEqual(self.joined().request("SIZE", SEAT), "SIZE 4")

    def test_nobody_is_served_before_all_is_there(self) -> None:
        queue = self.queue()
        left = left_by([read_queue(self.history)], [0])
        with mock.patch("rb_broker_redis.queue.CHUNK", 2), self.broken_off(queue, calls=2), self.assertRaises(OSError):
            load(queue, left)
        with self.assertRaisesRegex(Exception, "^LOADING_QUEUE "):
            self.joined()
        self.assert_refused(1, self.used, "load", self.history, "--began", "@1")
        self.assertTrue(load(queue, left))
        self.assertEqual(self.joined().request("SIZE", SEAT), "SIZE 4")

    def test_a_load_that_is_abandoned(self) -> None:
        queue = self.queue()
        with self.broken_off(queue, calls=2), self.assertRaises(OSError):
            load(queue, left_by([read_queue(self.history)], [0]))
        none = f"{self.name}: there is no unfinished load"
        self.assert_prints([f"{self.name}: emptied"], "load", "--abandon")
        self.assert_prints([none], "load", "--abandon")
        self.assert_loaded()
        self.assert_prints([none], "load", "--abandon")
        self.assertEqual(self.joined().request("SIZE", SEAT), "SIZE 4")

    def broken_off(self, queue, calls):
        """Lets a queue answer so many calls, and no more."""
        answers = iter([queue.call] * calls)

        def call(*words):
            for answer in answers:
                return answer(*words)
            raise OSError("broken off")

        return mock.patch.object(queue, "call", call)

    def test_kills_at_any_moment(self) -> None:
        count = 20_000
        lines = b"".join(b"keep %d %d %d %d 1 job-%d\n" % (it, it, it, it, it) for it in range(count))
        self.history.write_bytes(b"history 3\nopen %d 0 %d\n%bend 0\n" % (count, count, lines))
        kills = self.kill_again_and_again(*self.load)
        self.assertGreater(kills, 2)
        queue = self.joined()
        self.assertEqual(queue.request("SIZE", SEAT), f"SIZE {count}")
        self.assertEqual(queue.command("HLEN", queue.ids), count)
        self.assertEqual(queue.command("LLEN", queue.opening), count + 1)
        self.ran("archive", self.room / "archive")
        read = read_queue(self.room / "archive" / f"{self.name}-000000000000.txt")
        self.assertEqual(list(read.elements), list(range(count)))


class SeveralTest(LoadTest):
    def test_several_runs_become_one_queue(self) -> None:
        other = self.room / "other.txt"
        other.write_bytes(b"history 3\nopen 5 0 1\nkeep 4 7 2 6 3 z\nend 0\n")
        self.assert_prints([f"{self.name}: 5 elements loaded"],
                           "load", self.history, other, "--began", NINE, "--began", "@1795683600")
        queue = self.joined()
        self.assertEqual(queue.request("POLL", SEAT), "ITEM 11 1795683600000000007 3 z")  # 4, behind the 7 of the other
        self.assertEqual(queue.request("OFFER 0 next", SEAT).split(" ")[1], "12")
        lines = self.ran("load", self.history, other, "--began", NINE, "--began", "@1795683600", "--show")[1]
        self.assertEqual(json.loads(lines[0]), {
            "id": 11, "expiry": 1795683600000000007, "origin": 9, "first": 1795683600000000006, "attempt": 3,
            "payload": "z", "due": "2026-11-26T09:00:00.000000007Z"})

    def test_shards_get_what_gateways_would_give_them(self) -> None:
        status, lines, errors = self.ran("load", self.history, "--began", NINE, "--shards", 2)
        names = [f"{self.name}.{it}" for it in range(2)]
        shards = Rendezvous(names)
        expected = [[it for it in ("b", "d", '"e\\', "f") if shards.shard_of(it.encode()) == shard] for shard in (0, 1)]
        self.assertEqual((status, errors), (0, ""))
        self.assertEqual(lines, [f"{name}: {len(it)} elements loaded" for name, it in zip(names, expected)])
        for name, payloads in zip(names, expected):
            queue = self.joined(name=name)
            self.assertEqual(queue.request("OFFER 0 next", SEAT).split(" ")[1], "7")
            found = queue.command("ZRANGE", queue.due, 0, -1)
            self.assertEqual({it.decode().split(" ")[4] for it in found}, {*payloads, "next"})


class RefusalTest(LoadTest):
    def test_a_damaged_history(self) -> None:
        self.history.write_bytes(RUN.replace(b"poll 0", b"poll 1"))
        self.assert_refused(1, f"{self.history}: line 6: element 1 is not in the queue", *self.load)

    def test_a_history_that_is_not_legal(self) -> None:
        self.history.write_bytes(RUN.replace(b"120 poll 0", b"120 poll none"))
        self.assert_refused(1, f"{self.history}: line 6: an element has expired, and is not given", *self.load)

    def test_a_file_that_can_not_be_read(self) -> None:
        for path, why in ((self.room / "none", "No such file or directory"), (self.room, "Is a directory")):
            self.assert_refused(2, f"{path}: {why}", "load", path, "--began", NINE)

    def test_a_run_that_ends_in_the_future(self) -> None:
        self.assert_refused(1, "by --began the run would have ended at 2200-01-01T00:00:00.000000080Z, which is in the"
                            " future", "load", self.history, "--began", "2200-01-01T00:00:00Z")

    def test_more_than_an_opening_may_have(self) -> None:
        run = read_queue(self.history)
        with mock.patch("rb_broker_redis.load.MOST_OPENING_ELEMENTS", 3), self.assertRaises(NotLoaded):
            left_by([run], [0])
        with mock.patch("rb_broker_redis.load.GREATEST_OPENING_ID", 13), self.assertRaises(NotLoaded):
            left_by([run, run], [0, 0])

    def test_words(self) -> None:
        uneven = "name at least one HISTORY, and a --began for each"
        dates = {"today": "'today' is no TIME: write 2026-11-26T08:00:00Z", "1795683600": "is no TIME: write ",
                 "1969-12-31T23:59:59Z": "is no TIME: it is before 1970",
                 "2026-13-01T00:00:00Z": "is no TIME: month must be in 1..12"}
        self.assert_wrong_words("load", ([], uneven), ([self.history], uneven),
                                *(([self.history, "--began", date], why) for date, why in dates.items()))
