"""The tables of a report, which the terminal and the page show alike, and what is told of a job."""
from typing import Iterator, Sequence

from rb_broker_formats import acts
from rb_broker_formats.element import NONE
from rb_broker_formats.history import History
from reporting.dates import Clock
from reporting.depth import Depth
from reporting.figures import Figures
from reporting.jobs import lives
from reporting.lateness import ranks
from rb_broker_redis.watching.tables import Table
from rb_broker_redis.watching.units import counted, number, percent, span

MOST_ATTEMPTS, MOST_JOBS = 20, 12
MOST_LISTED = 1000  # jobs that were asked for, or had their last attempt

DONE_OR_DEAD = "Each is done or dead: the end of a job has no event, so a history does not tell which."
LEFT_OUT = "The time between two runs is left out, so later dates are too early by it."

JOB = ("origin", "payload", "elements", "given", "last left by", "at", "latest by")
LIFE = ("attempt", "id", "offered at", "by seat", "expiry", "left at", "to seat", "by", "late by")


def head_of(figures: Figures) -> list[str]:
    """What a report begins with."""
    history, clock = figures.history, figures.clock
    runs, seats = history.runs, len({*history.events.seats})
    kind = f"history {runs[0].version}" if len(runs) == 1 else counted(len(runs), "run")
    lines = [
        f"{kind}, {counted(len(history.events), 'event')}, {counted(seats, 'seat')}, "
        f"from {history.start} to {history.end} ns ({span(history.end - history.start)})",
        f"{counted(history.kept, 'element')} at the start, {len(history.elements) - history.kept:,} offered, "
        f"{len(figures.lateness):,} given, {history.left_by(acts.REMOVE):,} removed, "
        f"{history.left_by(acts.CLEAR):,} cleared, {figures.depth.standing[-1]:,} left at the end",
    ]
    if clock.offset is not None:
        lines.append(f"from {clock.text(history.start)} to {clock.text(history.end)} UTC")
        if clock.offset and any(after.opened_at == run.end for run, after in zip(runs, runs[1:])):
            lines.append(LEFT_OUT)
    return lines


def tables_of(figures: Figures) -> Iterator[Table]:
    """The tables of elements and jobs."""
    history, clock, jobs = figures.history, figures.clock, figures.jobs
    yield _depth(figures.depth, clock)
    yield Table("Lateness of what was given (its moment less its expiry)", ("", "late by", "exactly"),
                [(name, span(it), f"{it} ns") for name, it in ranks(figures.lateness).items()],
                notes=() if figures.lateness else ("nothing was given",))
    yield Table("Attempts", ("attempt", "offered or kept", "given"),
                [[*map(number, attempt)] for attempt in jobs.attempts[:MOST_ATTEMPTS]], 0,
                _more(len(jobs.attempts) - MOST_ATTEMPTS, "attempt"))
    yield jobs_table(f"Jobs: {len(jobs.roots):,}; offered again: {len(jobs.again):,} "
                     f"({percent(len(jobs.again), len(jobs.roots))})", history, jobs.again, clock, MOST_JOBS)
    yield jobs_table("Jobs that were given latest", history, jobs.latest[:MOST_JOBS], clock)
    if figures.last is not None:
        last = jobs.last_given
        told = jobs_table(f"Given attempt {figures.last}, the last: {counted(len(last), 'job')}", history, last, clock)
        yield told._replace(notes=(*told.notes, DONE_OR_DEAD)) if last else told


def _depth(depth: Depth, clock: Clock) -> Table:
    rows = []
    for name, values in (("elements in the queue", depth.standing), ("of these expired", depth.expired)):
        most = max(values)
        rows.append((name, number(most), clock.text(depth.moments[values.index(most)]), number(values[-1])))
    return Table("Depth", ("", "greatest", "first at", "at the end"), rows)


def _more(left: int, noun: str) -> Sequence[str]:
    """How many more there are than were told, if there are."""
    return [f"and {counted(left, f'{noun} more', f'{noun}s more')}"] if left > 0 else []


def jobs_table(title: str, history: History, roots: Sequence[int], clock: Clock, most: int = MOST_LISTED) -> Table:
    """A row for each job, of at most so many."""
    rows = [_job(history, rows, clock) for rows in lives(history, roots[:most]).values()]
    return Table(title, JOB, rows, 2, _more(len(roots) - most, "job"), is_of_jobs=True)


def _job(history: History, rows: Sequence[int], clock: Clock) -> list[str]:
    """What a table tells of the job of which these are the rows."""
    elements, events, left = history.elements, history.events, history.elements.left_in[rows[-1]]
    late = [lateness for lateness in map(history.late, rows) if lateness is not None]
    by, at = "in the queue", ""
    if left != NONE:
        by, at = acts.KEYWORDS[events.acts[left]], clock.text(events.moments[left])
    return [str(elements.origins[rows[0]]), elements.payload(rows[0]), number(len(rows)), number(len(late)), by, at,
            span(max(late)) if late else ""]


def life_rows(history: History, rows: Sequence[int], clock: Clock) -> list[list[str]]:
    """What became of each attempt of the job of which these are the rows. All dates are to the nanosecond."""
    elements, events = history.elements, history.events

    def event_told(event: int) -> list[str]:
        """When an event took effect, and at which seat, of which run if there are several."""
        seat = str(events.seats[event])
        seat += f" of run {history.run_of(event)}" if len(history.runs) > 1 else ""
        return [clock.text(events.moments[event], 9), seat]

    lines = []
    for row in rows:
        offered, left, late = elements.offered_in[row], elements.left_in[row], history.late(row)
        came = ["before", ""] if offered == NONE else event_told(offered)
        went = ["", "", "still there", ""]
        if left != NONE:
            went = [*event_told(left), acts.KEYWORDS[events.acts[left]], "" if late is None else span(late)]
        lines.append([str(elements.attempts[row]), str(elements.ids[row]), *came,
                      clock.text(elements.expiries[row], 9), *went])
    return lines
