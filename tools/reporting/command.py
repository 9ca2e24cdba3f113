"""Reports on histories: tools/report HISTORY .. [--job ORIGIN | PAYLOAD] [--html PAGE] [--began TIME] [--attempts N]

A HISTORY is a text that `rb_broker` wrote with --history, in any of the three versions, compressed if its name ends in
.gz. Several are runs, each of which continues the previous one, as --from does; name them in any order, and leave none
out. The report has the calls by kind, how deep the queue was, how late elements were given, attempts, jobs that were
offered again or given latest, and what looks wrong. With --job the tool prints the life of the job of this origin or
payload instead, or a list if there are several. With --html it also writes the file PAGE: one page for a browser, with
plots, tables, and the life of a job by its origin or payload.

--began says when the first run began; the report then shows moments as dates in UTC. A TIME is a date such as
2026-11-26T08:00:00Z, in UTC unless it names a zone, or seconds since 1970, such as @1795680000. The moments of runs
that --from continued leave out the time between two runs, so the dates of later runs are too early by that time; the
moments of tools/service count it. Say `--began dates` for an archive of a queue on Redis, whose moments are dates.

With --attempts, the option of the run, the report lists the jobs that were given their last attempt. Whether such a job
was done or died, no history says. `rb_broker replay --chains` says whether all jobs came back as the options ask.

Up to 1,000,000 events take some seconds and, with short payloads, at most 200 MB. A series takes memory for all its
runs. If standard error is a terminal, a report that takes longer than two seconds shows its progress there. The report
trusts the order in which elements were given; `rb_broker replay` checks whether that order was right.

Exit status: 0; 1 if a history is damaged or does not continue the previous one, where one line says what is wrong and
in which line of the text, or if there is no such job; 2 if an argument is wrong, a file can't be read or written, or
there is not enough memory.
"""
import argparse
import os
import sys
from typing import Sequence

from common.progress import Progress
from common.words import number, parser_of, exit_status
from rb_broker_formats.dates import nanoseconds_of
from rb_broker_formats.faults import Damaged
from rb_broker_formats.files import read_series
from rb_broker_formats.history import History
from reporting.dates import Clock
from reporting.figures import Figures, figures_of
from reporting.jobs import NoJob, jobs_named, lives
from reporting.page import page
from reporting.report_tables import LIFE, head_of, jobs_table, life_rows, tables_of
from rb_broker_redis.watching.tables import table
from rb_broker_redis.watching.units import counted


def tell(options: argparse.Namespace, progress: Progress) -> list[str]:
    """The lines that are printed. Writes the page, if one was named."""
    history, lines = read_series(options.histories, progress.reading), []
    clock = Clock()
    if "began" in options:
        clock = Clock(0 if options.began is None else options.began - history.runs[0].opened_at)
    if options.job is not None:
        lines = told_jobs(history, options.job, jobs_named(history, options.job), clock)
    if not lines or options.html:
        progress.say("counting")
        names = dict.fromkeys((history.runs[0].name, history.runs[-1].name))
        figures = figures_of(" to ".join(names), history, options.attempts, clock)
        lines = lines or told(figures)
        if options.html:
            progress.say("drawing")
            text = page(figures)
            with open(options.html, "w", encoding="utf-8", errors="backslashreplace", newline="\n") as file:
                file.write(text)
    return lines


def told(figures: Figures) -> list[str]:
    """The lines of a report."""
    first, *others = head_of(figures)
    findings = [f"  - {says}" + (f" (origins {', '.join(map(str, origins))})" if origins else "")
                for says, origins in figures.findings]
    parts = [[f"{figures.name}: {first}", *others], *(grid.lines for grid in tables_of(figures)),
             ["What looks wrong", *(findings or ["  nothing"])]]
    return "\n\n".join("\n".join(part) for part in parts).split("\n")


def told_jobs(history: History, word: str, roots: Sequence[int], clock: Clock) -> list[str]:
    """What became of each attempt of the one job that was found by a word, or all that were."""
    if len(roots) > 1:
        return jobs_table(f"{len(roots):,} jobs of origin or payload {word}", history, roots, clock).lines
    elements, (root,) = history.elements, roots
    rows = lives(history, roots)[root]
    head = (f"job {elements.origins[root]}: payload {elements.payload(root)}, first expiry "
            f"{clock.text(elements.firsts[root], 9)}, {counted(len(rows), 'element')}")
    return [head, *table(LIFE, life_rows(history, rows, clock), left=0)]


def run(options: argparse.Namespace) -> int:
    """Prints the report, or why there is none, and returns the status."""
    try:
        with Progress() as progress:
            lines = tell(options, progress)
    except (Damaged, NoJob) as fault:
        print(f"report: {fault}", file=sys.stderr)
        return 1
    print("\n".join(lines), flush=True)
    return 0


def time(word: str) -> int | None:
    """The date, or nothing where moments are dates."""
    try:
        return None if word == "dates" else nanoseconds_of(word)
    except ValueError as fault:
        raise argparse.ArgumentTypeError(f"{word!r} is no TIME: {fault}") from None


def main() -> int:
    parser = parser_of("tools/report", __doc__)
    parser.add_argument("histories", metavar="HISTORY", nargs="+", help="the text of a history")
    parser.add_argument("--html", metavar="PAGE", help="writes the page to this file")
    parser.add_argument("--job", metavar="WORD", help="prints the life of the job of this origin or payload")
    parser.add_argument("--began", metavar="TIME", type=time, default=argparse.SUPPRESS,
                        help="when the first run began, or `dates`")
    parser.add_argument("--attempts", metavar="N", type=number(int, 1, 1000),
                        help="how many attempts a job had, 1 to 1000")
    options = parser.parse_args()
    if options.html and os.path.exists(options.html):
        if any(os.path.exists(history) and os.path.samefile(options.html, history) for history in options.histories):
            parser.error("--html names a history itself")
    return exit_status("report", lambda: run(options))
