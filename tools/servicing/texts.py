"""What people are shown of a state, as texts: the page, the status in a terminal and the line that systemd has lay it
out, and have nothing else to say. Dates are in UTC, as those of reports and of the lines on standard error."""
from typing import Iterator

from servicing.connections import Connection
from servicing.metrics import numbers
from servicing.state import Run, State
from rb_broker_redis.watching.metrics import date, span_of, told
from rb_broker_redis.watching.tables import Table
from rb_broker_redis.watching.units import counted, number

MOST_CLIENTS, MOST_RUNS = 32, 100  # that are told one by one
LATE = 1.0  # seconds from which on lateness is told
RUN = ("run", "began", "lasted", "at the start", "calls", "left")  # the columns of each run


def headline(state: State) -> str:
    queue = state.queue
    return ", ".join(filter(None, (
        counted(len(state.alerts), "alert") if state.alerts else "", state.phase.value,
        f"run {state.run.number}" if state.run else "", counted(queue.elements, "element") if queue else "",
        f"the first {span_of(queue.late)} late" if queue and queue.late > LATE else "",
        f"{counted(state.served, 'client')} served" if state.served is not None else "",
        counted(state.lost_runs, "lost run") if state.lost_runs else "", *state.waits_for[:1])))


def since(state: State) -> str:
    why = f" ({state.why.text})" if state.why else ""
    return f"{state.phase.value} for {span_of(state.at - state.since)}{why}, as of {date(state.at)} UTC"


def attention(state: State) -> list[str]:
    return [*(f"{it.text} (since {date(it.since)} UTC)" for it in state.alerts),
            *(f"the service waits: {it}" for it in state.waits_for)]


def tables(state: State) -> tuple[Table, ...]:
    clients, runs = state.clients or (), state.runs
    present = [_present(state, state.run)] if state.run and state.run.number not in {it.number for it in runs} else []
    return (
        Table("Numbers", ("what", "value"), [(meaning, told(name, value)) for name, meaning, value in numbers(state)],
              left=2),
        Table("Clients", ("client", "last heard", "not read by it", "not read by the server", ""),
              [*map(_client, clients[:MOST_CLIENTS])], left=5, notes=_unlisted(len(clients) - MOST_CLIENTS)),
        Table("This run", (*RUN, ""), present, left=7),
        Table("Runs that have ended", (*RUN, "how it ended"), [*map(_run, runs[:MOST_RUNS])], left=7,
              notes=_unlisted(len(runs) - MOST_RUNS)),
    )


def _unlisted(more: int) -> list[str]:
    return [f"{more:,} more are not listed."] if more > 0 else []


def _client(it: Connection) -> list[str]:
    does = ("waits for a worker" if not it.is_served else "has hung up" if it.has_hung_up else
            "does not read" if it.is_unread else "says nothing" if it.silence else "")
    return [str(it.port), f"{span_of(it.heard / 1000)} ago", f"{it.send_queue:,} B", f"{it.receive_queue:,} B", does]


def _present(state: State, run: Run) -> list[str]:
    left = state.queue.elements if state.queue else None
    says = "still running" if state.is_up else f"it is {state.phase.value}"
    return _told(run, state.at - run.date, state.calls, left, says)


def _run(run: Run) -> list[str]:
    assert run.end
    return _told(run, run.lasted, run.end.calls, run.end.left, "; ".join(_says(run)))


def _told(run: Run, lasted: float, calls: int | None, left: int | None, says: str) -> list[str]:
    known = ("?" if it is None else number(it) for it in (run.opening, calls, left))
    return [str(run.number), date(run.date), span_of(lasted), *known, says]


def _says(run: Run) -> Iterator[str]:
    """How a run ended, what clients felt of that, and what was lost."""
    end = run.end
    assert end
    yield end.why.text
    if run.is_lost:
        yield f"the next run began with the same {counted(run.opening, 'element')}"
    if end.closed is not None:
        yield f"new clients waited {span_of(end.closed)}"
    if end.cut:
        yield f"{counted(end.cut, 'session')} cut"
    if end.lost_jobs:
        yield f"{counted(end.lost_jobs, 'job')} lost, which failed and could not come back, since the run was full"


def text(state: State) -> str:
    lines = [f"port {state.port}: {headline(state)}", since(state), *(f"! {it}" for it in attention(state))]
    for it in tables(state):
        lines += ["", *it.lines]
    return "\n".join(lines) + "\n"
