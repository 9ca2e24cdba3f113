"""What is told of the histories of runs that have ended, by commands that give way to all others, one at a time: who
asks meanwhile is told so."""
import functools
import os
import re
import subprocess
import sys
import threading
from http import HTTPStatus
from pathlib import Path
from typing import Callable, Iterable

from servicing.folder import history_in
from servicing.state import Run
from rb_broker_redis.watching.http import Answer
from rb_broker_redis.watching.metrics import date
from rb_broker_redis.watching.tables import Table

TOOL = Path(__file__).resolve().parent.parent / "report"
MOST_SECONDS, MOST_BYTES = 300.0, 16_000_000  # that a report may take
FOUND = ("run", "offered", "id", "origin", "attempt", "payload")
MOST_FOUND = 100  # in a run, and that are told
NICENESS = 5  # the server and its clients come first, 3 to 1; with 15 it was 28 to 1, and a report took minutes
_MAKING = threading.Lock()

# What zgrep tells: the run, of an offer its moment, and then the id, the expiry, the origin, the first expiry, the
# attempt and the payload.
_LINE = re.compile(r".*/run-(\d+)\.txt(?:\.gz)?:(?:keep|\d+ \d+ (\d+) offer) (\d+) \d+ (\d+) \d+ (\d+) (.*)")


def report_on(run: Run, folder: str) -> Answer | None:
    """The report on a run, or why there is none. None if its history is gone."""
    while history := history_in(folder, run.number):
        answer = _answer("text/html", functools.partial(_report, run, history))
        if os.path.exists(history):
            return answer
        # It was compressed meanwhile.
    return None


def jobs_named(word: str, runs: Iterable[Run], folder: str) -> Answer:
    """The elements of runs that have this payload, or this id: each as it was offered, or was there at the start."""
    return _answer("text/plain", lambda: _jobs(word, {it.number: it for it in runs}, folder))


def _answer(kind: str, make: Callable[[], str]) -> Answer:
    if not _MAKING.acquire(blocking=False):
        return Answer(HTTPStatus.SERVICE_UNAVAILABLE, "text/plain", "another report is being made: try again later\n")
    try:
        return Answer(HTTPStatus.OK, kind, make())
    except subprocess.TimeoutExpired as fault:
        return Answer(HTTPStatus.SERVICE_UNAVAILABLE, "text/plain", f"there is no report: {fault.timeout:g} s were not "
                      "enough, since this machine is busy: try again later\n")
    except (OSError, subprocess.SubprocessError) as fault:
        said = str(getattr(fault, "stderr", None) or fault).strip()
        return Answer(HTTPStatus.INTERNAL_SERVER_ERROR, "text/plain", f"there is no report: {said}\n")
    finally:
        _MAKING.release()


def _ran(*words: object, given: tuple[int, ...] = ()) -> str:
    """What a command prints, which ends with this process."""
    first = ["setpriv", "--pdeathsig", "KILL", "nice", "-n", str(NICENESS)]
    return subprocess.run(
        [*first, *map(str, words)], stdin=subprocess.DEVNULL, capture_output=True, encoding="utf-8", errors="replace",
        timeout=MOST_SECONDS, check=True, pass_fds=given).stdout


def _report(run: Run, history: str) -> str:
    """The page, which is written in memory."""
    with open(os.memfd_create("report"), encoding="utf-8") as page:
        _ran(sys.executable, "-B", TOOL, history, "--html", f"/dev/fd/{page.fileno()}", "--began", f"@{run.date:.3f}",
             "--attempts", run.policy[-1], given=(page.fileno(),))
        if os.fstat(page.fileno()).st_size > MOST_BYTES:
            raise OSError(f"it is larger than {MOST_BYTES:,} bytes")
        return page.read()


def _jobs(word: str, runs: dict[int, Run], folder: str) -> str:
    named, rows = re.sub(r"[][\\.*^$]", r"\\\g<0>", word), []
    form = rf"^\(keep\|[0-9]* [0-9]* [0-9]* offer\) \({named} .*\|.* {named}\)$"
    histories = [it for it in (history_in(folder, number) for number in runs) if it]
    # zgrep fails where nothing is found, which is no fault.
    said = _ran("sh", "-c", 'zgrep -H -m "$0" -e "$@" || [ $? = 1 ]', MOST_FOUND, form, *histories) if histories else ""
    for number, moment, id, origin, attempt, payload in _LINE.findall(said)[:MOST_FOUND]:
        run = runs[int(number)]
        when = date(run.date + (int(moment) - run.moment) / 1e9) if moment else "before this run"
        rows.append((number, when, id, origin, attempt, payload))
    notes = [f"no more than {MOST_FOUND} are told"] if len(rows) == MOST_FOUND else [] if rows else ["none"]
    return "\n".join(Table(f"Jobs of ended runs of payload or id {word}", FOUND, rows, 6, notes).lines) + "\n"
