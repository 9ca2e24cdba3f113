"""The jobs of a history: which elements are attempts of one, how often they were given, and which were given latest.

A job is named by the row of its first element, its *root*.
"""
from __future__ import annotations

from array import array
from collections import Counter
from heapq import nlargest
from typing import Iterable, NamedTuple, Sequence

from rb_broker_formats.history import History
from reporting.lateness import Given

MOST_LATEST = 100


class NoJob(Exception):
    """There is no such job."""


class Jobs(NamedTuple):
    """All jobs by their roots, and some of them."""

    elements: array[int]  # for each row, if it is a root, how many its job has; 0 for other rows
    attempts: list[tuple[int, int, int]]  # how many of each were offered or there at the start, and how many given
    roots: array[int]
    again: list[int]  # that were offered again, those with the most elements first
    latest: list[int]  # that were given latest, the latest first
    last_given: list[int]  # that were given their last attempt, if that is known


def jobs_of(history: History, given: Given, last: int | None) -> Jobs:
    """Counts the elements of each job, and the attempts of all. The last attempt may be known."""
    roots, attempts = history.elements.roots, history.elements.attempts
    counts = array("i", bytes(4 * len(roots)))
    for root in roots:
        counts[root] += 1
    offered, tried = Counter(attempts), Counter(map(attempts.__getitem__, given.rows))
    again = sorted((root for root, count in enumerate(counts) if count > 1), key=lambda root: -counts[root])
    latest = nlargest(MOST_LATEST, range(len(given.rows)), key=given.late.__getitem__)
    last_given = (roots[row] for row in given.rows if attempts[row] == last) if last in tried else ()
    return Jobs(
        counts, [(job, offered[job], tried[job]) for job in sorted(offered)],
        array("i", (root for root, count in enumerate(counts) if count)), again,
        list(dict.fromkeys(roots[given.rows[place]] for place in latest)), list(dict.fromkeys(last_given)))


def lives(history: History, roots: Iterable[int]) -> dict[int, list[int]]:
    """The rows of each of these jobs, in the order in which they were offered."""
    found: dict[int, list[int]] = {root: [] for root in roots}
    for row, root in enumerate(history.elements.roots):
        if root in found:
            found[root].append(row)
    return found


def jobs_named(history: History, word: str) -> Sequence[int]:
    """The roots of the jobs that have this origin or this payload."""
    elements, wanted, start = history.elements, word.encode(), 0
    of_origin = history.root_of(int(word)) if word.isascii() and word.isdigit() else None
    found = {} if of_origin is None else {of_origin: None}
    for end, root in zip(elements.payload_ends, elements.roots):
        if end - start == len(wanted) and elements.payloads.startswith(wanted, start):
            found[root] = None
        start = end
    if not found:
        raise NoJob(f"no job of origin or payload {word}")
    return list(found)
