"""The functions of broker.lua, by the tables of the queue."""
from __future__ import annotations

import re
from typing import NamedTuple

from case_tables import Row, bytes_of, tables_of_kind
from rb_broker_redis.queue import Queue
from redis_test import RedisTest

FILES = ("queues.rows", "waits.rows", "runs.rows")

CALLS = {
    **{word: word.upper() for word in ("poll", "take", "peek", "clear", "size")},
    **{rf"{word} (\S+)": rf"{word.upper()} \1" for word in ("remove", "drain")},
    r"offer (\S+ \S+)": r"OFFERAT \1", r"pollfor (\S+) (\S+)": r"POLLFOR \2 \1",
}
"""What rows ask for, as patterns, and the calls that do."""

REPLIES = {
    "nothing": "NONE", "cleared": "CLEARED", r"removed (yes|no)": r"REMOVED \1",
    r"offered (\S+ \S+)(?: .*)?": r"OFFERED \1",
    **{rf"{word} (\S+ \S+) \S+ \S+ (\S+ \S+)": rf"{word.upper()} \1 \2" for word in ("item", "head")},
    **{rf"{word} (\S+)(?: .*)?": rf"{word.upper()} \1" for word in ("size", "drained")},
    "later none": "LATER -", r"later (\S+)(?: .*)?": r"LATER \1",
}
"""Their answers, and the reply lines; that of a wait is without the moments that follow it."""

NO_DRAIN, DRAIN = "drain 18446744073709551615", "drain 64"
"""A session that holds nothing drains at most 64, and its event says so."""

COUNTS = ("given", "audit", "share")
"""Rows of totals, which no request asks for."""


class Step(NamedTuple):
    """A row: what is asked at which moment, and the answers that are right."""

    row: Row
    asked: str
    moment: int
    answers: list[str]


class NotAsked(Exception):
    """A row asks for what no request does."""


def translated(text: str, forms: dict[str, str]) -> str:
    """What a row says, in the words of the protocol."""
    for form, words in forms.items():
        if match := re.fullmatch(form, text):
            return match.expand(words)
    raise NotAsked(text)


def steps_of(table: list[Row]) -> list[Step] | None:
    """The rows of a table that can be tried here, or None if the table asks for what no request does."""
    steps = []
    for row in table:
        words = bytes_of(row.asked).decode("latin-1").split(" ")
        answers = [bytes_of(it).decode() for it in row.answer.split(" or ")]
        if words[0] in COUNTS:
            continue
        try:
            if words[0] in ("last", "events") and len(words) == 1:
                steps.append(Step(row, words[0], 0, [it.replace(NO_DRAIN, DRAIN) for it in answers]))
            elif words[0] == "begin" and len(words) == 2 and answers == ["begun"]:
                steps.append(Step(row, f"limit {int(words[1])}", 0, []))
            else:
                seat, moment, *asked = words
                call = translated(" ".join(asked), CALLS)
                replies = [translated(it, REPLIES) for it in answers]
                steps.append(Step(row, f"{int(seat)} {call}", int(moment), replies))
        except (NotAsked, ValueError):
            return None
    return steps


class TablesTest(RedisTest):
    def answer(self, queue: Queue, step: Step) -> str:
        """What the queue answers."""
        if step.asked == "events":
            return str(queue.command("LLEN", queue.history))
        if step.asked == "last":
            return queue.command("LINDEX", queue.history, -1).decode()
        (reply,) = queue.make([step.asked], f"{step.moment:020}")
        lines = reply.decode().splitlines()
        self.finish(queue, step, [line.split(" ")[1] for line in lines if line.startswith("ITEM ")])
        return " ".join(lines[0].split(" ")[:2]) if lines[0].startswith("LATER") else lines[0]

    def finish(self, queue: Queue, step: Step, ids: list[str]) -> None:
        """What was fetched is done, since a queue of the tables holds nothing."""
        if ids:
            seat = step.asked.split(" ")[0]
            queue.make([f"{seat} DONE {id}" for id in ids], f"{step.moment:020}")

    def play(self, queue: Queue, file: str, steps: list[Step]) -> None:
        """Tries each row."""
        for step in steps:
            if step.asked.startswith("limit"):
                queue.call("rb_join", 60_000_000, "delay", f"{0:020}", 3, step.asked)
                continue
            with self.subTest(file=file, row=step.row):
                self.assertIn(self.answer(queue, step), step.answers)

    def test_each_table_of_requests_is_answered(self) -> None:
        played = 0
        for file in FILES:
            for table in tables_of_kind(file, "queue"):
                steps = steps_of(table)
                if steps:
                    played += 1
                    self.play(self.queue(f"t{played}"), file, steps)
        self.assertGreater(played, 20)
