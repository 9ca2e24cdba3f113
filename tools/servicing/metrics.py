"""The numbers of a state: in a table for people, and as Prometheus reads them. What is not known is left out. Counters
rise as long as the service lasts, whatever becomes of its runs; what is counted of one run is a gauge."""
import functools
from typing import Any, Iterator

from servicing.connections import SILENT_FROM
from servicing.state import State
from rb_broker_redis.watching.metrics import Number, metric, metrics_of

# The name of each number, which attribute of the state it is, and what it means.
NUMBERS: tuple[tuple[str, str, str], ...] = (
    ("elements", "queue.elements", "Elements in the queue, expired or not"),
    ("head_late_seconds", "queue.late", "Time since the first element expired, below 0 before it does, 0 without one"),
    ("queue_time_seconds", "queue.at", "When the server last answered about its queue"),
    ("offered_a_second", "offered_a_second", "Elements offered a second, in the last minute"),
    ("left_a_second", "left_a_second", "Elements given, removed or cleared a second, in the last minute"),
    ("failed_a_second", "failed_a_second", "Failures a second, in the last run that ended in good order"),
    ("clients_served", "served", "Clients that have a worker"),
    ("clients_waiting", "waiting", "Clients that wait for a worker"),
    ("clients_silent", "silent", f"Clients that have sent nothing for {SILENT_FROM:g} seconds"),
    ("longest_silence_seconds", "silence", "The longest of these silences, or 0"),
    ("clients_not_reading", "not_reading", "Clients that do not read their replies"),
    ("workers", "workers", "Clients that can be served at once"),
    ("offered_total", "traffic.offered", "Elements that were offered, including jobs that came back"),
    ("left_total", "traffic.left", "Elements that were given, removed or cleared"),
    ("failed_total", "traffic.failed", "Jobs that failed and came back, in runs that ended in good order"),
    ("runs_total", "run.number", "Runs in this folder, including this one"),
    ("run_start_time_seconds", "run.date", "When the run began"),
    ("run_opening_elements", "run.opening", "Elements with which the run began"),
    ("elements_aside", "run.aside", "Elements beyond those that an opening may have, which wait in a file"),
    ("run_calls", "calls", "Calls that the run can have used when last seen"),
    ("run_calls_limit", "run.calls", "Calls for which the run has room"),
    ("last_run_closed_seconds", "last.end.closed", "Time between the last two runs without a server for new clients"),
    ("last_run_sessions", "last.end.sessions", "Sessions of the last run"),
    ("last_run_cut_sessions", "last.end.cut", "Sessions that were cut at the end of the last run"),
    ("last_run_lost_jobs", "last.end.lost_jobs", "Jobs of the last run that failed and could not come back"),
    ("lost_runs_total", "lost_runs", "Runs in this folder that were lost"),
    ("lost_jobs_total", "lost_jobs", "Jobs in this folder that failed in a full run, and could not come back"),
    ("lost_run_time_seconds", "lost.end.date", "When the last run that was lost ended"),
    ("lost_run_lasted_seconds", "lost.lasted", "How long that run had lasted"),
    ("lost_run_opening_elements", "lost.opening", "Elements with which that run began"),
    ("unwritten_bytes", "unwritten", "Bytes of files that could not be written yet"),
)


def numbers(state: State) -> Iterator[Number]:
    whole: Any = state
    for name, path, meaning in NUMBERS:
        value = functools.reduce(lambda it, part: getattr(it, part, None), path.split("."), whole)
        if value is not None:
            yield name, meaning, round(value, 3) if isinstance(value, float) else value


def metrics(state: State) -> str:
    port = f'port="{state.port}"'
    run = {f'{port},run="{state.run_id}"': 1} if state.run else {}
    told = metrics_of(port, state.is_up, state.is_healthy, (it.name for it in state.alerts), numbers(state))
    return told + metric("run_info", "The run, whose id no other run has", run)
