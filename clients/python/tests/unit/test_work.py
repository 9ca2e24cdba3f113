"""What a worker asks in one session, by a clock that the tests move on. No socket and no thread is here."""
import functools
import logging
import math
from collections import deque
from unittest.mock import Mock, patch

from scripted import SHORT, ScriptedTest, paragraphs, values
from rb_broker_client import BrokerError, Greeting, NotHeldError, Pauses, Report
from rb_broker_client.run import Run
from rb_broker_client.servers import Servers
from rb_broker_client.work import Work


class WorkTest(ScriptedTest):
    def setUp(self):
        super().setUp()
        self.moment = 1_000.0
        self.enterContext(patch("rb_broker_client.work.monotonic", lambda: self.moment))

    def test_each_turn(self):
        for name, options, _, lines in paragraphs("work.txt"):
            with self.subTest(name):
                self.begin(**options)
                for it in (step for line in lines for step in line.split(" | ")):
                    step, _, words = it.partition(" ")
                    getattr(self, step)(words)

    def begin(self, concurrency=1, first=0.4, longest=0.4, attempts=math.inf, run=None):
        """Begins a session, which is served at once."""
        known = Run(logging.getLogger("rb_broker_client.worker"), "a place")
        self.report, self.concurrency, self.running, self.is_stopping = Report(), concurrency, 0, True
        self.due, self.jobs, self.dead = deque(), {}, []
        self.work = Work(Mock(greeting=Greeting(run, 0, 0) if run else None), Servers(7011), 1.0, self.report,
                         Pauses(first, longest), known, self.dead.append, attempts)
        self.asks("AT 0")
        self.asks("")
        self.answers("ERR 1 syntax")
        self.is_stopping = False

    def asks(self, lines):
        free = self.concurrency - self.running - self.work.fetching
        questions = self.work.ask(free, self.running, self.is_stopping)
        self.assertEqual([*map(str, questions)], [SHORT.get(it, it) for it in lines.split("; ") if it])
        self.due.extend(questions)

    def answers(self, lines):
        """What is given runs from then on."""
        try:
            answer = self.due.popleft().read(iter(lines.encode().split(b", ")))
        except BrokerError as refusal:
            answer = refusal
        given = len(self.work.given)
        self.work.answered(answer)
        new = self.work.given[given:]
        self.running += len(new)
        self.jobs.update({it.payload: it for it in new})

    def breaks(self, line):
        self.assertRaises(NotHeldError, self.answers, line)

    def gives(self, payloads):
        self.assertEqual(" ".join(it.payload for it in self.work.given), payloads)
        self.work.given.clear()

    def buries(self, payloads):
        self.assertEqual(self.dead, [self.jobs[it] for it in payloads.split()])

    def runs(self, count):
        self.running = int(count)

    def ends(self, payload, is_done=True):
        self.running -= 1
        self.work.ended(self.jobs[payload], is_done)

    fails = functools.partialmethod(ends, is_done=False)

    def stops(self, _):
        self.is_stopping = True

    def passes(self, seconds):
        self.moment += float(seconds)

    def sleeps(self, seconds):
        """The whole pause, and these seconds."""
        self.moment += self.work.pause() + float(seconds)

    def rests(self, limits):
        least, most = map(float, limits.split())
        self.assertTrue(least <= self.work.pause() <= most)

    def reports(self, counts):
        self.assertEqual(self.report, Report(**values(counts)))

    def used_up(self, is_so):
        self.assertEqual(self.work.is_used_up, is_so == "yes")

    def loses(self, _):
        self.work.lost()

    def leaves(self, _):
        """The session is left, and nothing is asked in it any more."""
        self.asks("QUIT")
        self.asks("")
        self.assertFalse(self.work.is_left)
        self.answers("BYE")
        self.assertTrue(self.work.is_left)
