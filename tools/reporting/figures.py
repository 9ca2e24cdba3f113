"""All figures of a history, as the terminal and the page show them."""
from __future__ import annotations

from array import array
from typing import NamedTuple, Sequence

from rb_broker_formats.history import History
from reporting.dates import Clock
from reporting.depth import Depth, depth_of
from reporting.findings import Finding, findings_of
from reporting.jobs import Jobs, jobs_of
from reporting.lateness import given_in, in_rising_order


class Figures(NamedTuple):
    """A history with its figures, and what the report was told about it."""

    name: str
    history: History
    clock: Clock
    last: int | None  # the last attempt of a job
    depth: Depth
    lateness: array[int]  # of all that was given, in rising order
    jobs: Jobs
    findings: Sequence[Finding]


def figures_of(name: str, history: History, last: int | None = None, clock: Clock = Clock()) -> Figures:
    """Counts everything."""
    depth, given = depth_of(history), given_in(history)
    return Figures(name, history, clock, last, depth, in_rising_order(given.late), jobs_of(history, given, last),
                   [*findings_of(history, depth)])
