"""What became of each job of a hostile day: by the histories, and by what the clients noted."""
from __future__ import annotations

import json
from collections import Counter
from collections.abc import Iterable
from pathlib import Path
from typing import NamedTuple

from history import History  # these two belong to the tests of clients/python
from records import ends_in

RECORD = ".jsonl"  # the end of the name of a file of sessions

Told = dict[tuple[str, int], list[str]]
"""What workers noted of each attempt, by payload and attempt."""


def told_in(notes: Iterable[Path]) -> Told:
    """What is noted in records, in the words of `ends_in`, and by Java's HostileWorker: `DONE`, `took`, `failed`,
    `back`, `doubt` or `gone`."""
    paths = [*notes]
    told = ends_in(it for it in paths if it.suffix == RECORD)
    for words in (line.split(" ") for it in paths if it.suffix != RECORD for line in it.read_text().splitlines()):
        if len(words) == 3:  # and is not cut off by a kill
            told[words[1], int(words[2])].append("DONE" if words[0] == "done" else words[0])
    return told


def early_in(records: Iterable[Path]) -> list[str]:
    """The payloads of jobs that were given before their delay had passed since they were offered, by these records. Those
    are left out whose producer was killed before it could write that."""
    lines = [json.loads(line) for it in records for line in it.read_text("ascii").splitlines()]
    offers = ((it["request"].split(" "), it["sent"]) for it in lines if it["request"].startswith("OFFER "))
    due = {payload: sent + int(delay) for (_, delay, payload), sent in offers}
    given = ((item.split(" "), it["received"]) for it in lines for item in it["reply"] if item.startswith("ITEM "))
    return [words[4] for words, received in given if received < due.get(words[4], 0)]


class Attempts(NamedTuple):
    """What the histories say about a job: the attempts that were offered, and those that were given."""

    offered: list[int]
    given: list[int]


def attempts_in(histories: Iterable[Path]) -> dict[str, Attempts]:
    """The attempts of each job, by its payload, in files that follow one another from an empty queue on."""
    history = History(*map(str, histories))
    jobs = {payload: Attempts(offered, []) for payload, offered in history.attempts().items()}
    for it in map(history.elements.__getitem__, history.given):
        jobs[it.payload].given.append(it.attempt)
    return jobs


class Sum(NamedTuple):
    """What a day came to."""

    jobs: int
    done_once: int
    done_twice: list[str]
    in_doubt: list[str]
    """Jobs that nobody knows to be done, though they did not come back: their client died, or broke off, in between."""
    unseen: list[str]
    """Those among them of which no client noted that it had their last attempt."""
    handled_again: int
    """Jobs that were taken more often than they failed on purpose and were done."""
    late: int
    """Answers to jobs whose session had ended."""


def sum_up(jobs: dict[str, Attempts], told: Told) -> Sum:
    """Sets what the histories say beside what the clients noted."""
    done: Counter[str] = Counter()
    for (payload, _), words in told.items():
        done[payload] += words.count("DONE")
    in_doubt = [payload for payload in jobs if not done[payload]]
    meant = {payload: 2 if payload.endswith("0") else 1 for payload in jobs}
    return Sum(
        len(jobs), sum(done[it] == 1 for it in jobs), [it for it in jobs if done[it] > 1], in_doubt,
        [it for it in in_doubt if not told.get((it, jobs[it].offered[-1]))],
        sum(len(attempts.given) > meant[payload] for payload, attempts in jobs.items()),
        sum(words.count("ERR") for words in told.values()))
