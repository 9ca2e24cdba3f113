"""Dead letters: kept in a file or in a queue of their own, shown, and offered again."""
import asyncio
import fcntl
import functools
import json

from from_threads import for_both_kinds
from scripted import LAST, PATIENCE, ScriptedTest, WorkerCase, free_port, in_threads
from test_command import run
from rb_broker_client import AsyncWorker, DeadLetters, Job, Producer, Report
from rb_broker_client.dead_letters import read_letters

BAD, KEEPS_B = "WAIT > ITEM 2 1000 3 b; FAIL 2 > DEAD 2", "AT 0; OFFER 0 b > OFFERED 0 5"


class FileCase(ScriptedTest):
    def keep(self, *payloads):
        letters = DeadLetters(self.path)
        for id, payload in enumerate(payloads):
            letters(Job(id, 1000, 3, payload))

    def letters(self):
        return [*map(json.loads, read_letters(self.path))]

    def payloads(self):
        return [it["payload"] for it in self.letters()]


@for_both_kinds
class KeptTest(FileCase, WorkerCase):
    def test_each_dead_job_is_a_line(self):
        self.assert_reports(Report(dead=1), f"{BAD}; {LAST}", on_dead=DeadLetters(self.path))
        (letter,) = self.letters()
        self.assertRegex(letter.pop("died"), r"^20\d\d-\d\d-\d\dT\d\d:\d\d:\d\d\.\d{3}\+00:00$")
        self.assertEqual(letter, {"payload": "b", "attempts": 3, "id": 2})

    def test_a_queue_of_its_own(self):
        with Producer(self.play(KEEPS_B).port, patience=PATIENCE) as producer:
            self.assert_reports(Report(dead=1), f"{BAD}; {LAST}", on_dead=lambda job: producer.offer(job.payload))

    def test_several_threads_have_one_file(self):
        keep = lambda number: self.keep(*[f"{number}-{it}" for it in range(50)])
        in_threads(*[functools.partial(keep, it) for it in range(4)])
        self.assertEqual(sorted(self.payloads()), sorted(f"{n}-{it}" for n in range(4) for it in range(50)))

    def test_a_file_that_can_not_be_written(self):
        self.assertRaises(FileNotFoundError, DeadLetters, "/no/such/folder/dead.jsonl")


class LoopTest(FileCase):
    """Dead letters of a worker of asyncio."""

    def test_a_file_that_another_has_holds_up_no_other_job(self):
        async def handle(job):
            if job.payload == "a":
                fcntl.flock(held, fcntl.LOCK_UN)
                worker.stop()
            else:
                raise ValueError

        with open(self.path, "ab") as held:
            fcntl.flock(held, fcntl.LOCK_EX)
            server = self.play("AT 0; WAIT > ITEM 2 1000 3 b; FAIL 2 > DEAD 2; BRIEF > ITEM 0 0 1 a; DONE 0; QUIT")
            worker = AsyncWorker(handle, server.port, concurrency=2, on_dead=DeadLetters(self.path))
            self.assertEqual(asyncio.run(asyncio.wait_for(worker.run(), PATIENCE)), Report(done=1, dead=1))
        self.assertEqual(self.payloads(), ["b"])


class CommandTest(FileCase):
    def test_they_are_shown_and_offered_and_taken_out_of_the_file(self):
        self.keep("a", "b")
        self.assertEqual(run("dead", self.path), (0, self.path.read_text("ascii"), ""))
        self.assertEqual(self.payloads(), ["a", "b"])
        server = self.play("AT 0; OFFER 0 b > OFFERED 0 5; OFFER 0 a > OFFERED 1 5")
        self.assertEqual(run("dead", self.path, "--offer", "--port", server.port), (0, "offered 2\n", ""))
        self.assertEqual(self.payloads(), [])
        self.assertEqual(run("dead", self.path, "--offer", "--port", free_port()), (0, "offered 0\n", ""))

    def test_what_was_not_offered_stays_in_the_file(self):
        self.keep("a", "b", "c")
        server = self.play("AT 0; OFFER 0 c > OFFERED 0 5; OFFER 0 b > hangs up")
        self.assertEqual(run("dead", self.path, "--offer", "--port", server.port, "--patience", "500ms")[0], 1)
        self.assertEqual(self.payloads(), ["a", "b"])

    def test_what_is_no_dead_letter(self):
        for text in ("letter\n", '{"payload"\n', "[]\n", '{"id": 3}\n'):
            self.path.write_text(text, "ascii")
            for words in ((), ("--offer", "--port", free_port())):
                status, said, errors = run("dead", self.path, *words)
                self.assertEqual((status, said), (2, ""))
                self.assertRegex(errors, r"\Arb_broker_client: this line is no dead letter: [^\n]+\n\Z")

    def test_no_file(self):
        told = "rb_broker_client: [Errno 2] No such file or directory: '/no/such/file'\n"
        self.assertEqual(run("dead", "/no/such/file"), (1, "", told))
