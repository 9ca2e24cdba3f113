"""The report as a page: one file that needs nothing else. Every text that comes from a history is escaped, and the
page forbids the browser to run any script but its own."""
import json
import os
from html import escape
from itertools import chain
from pathlib import Path
from string import Template
from typing import Iterable, Sequence

from reporting.figures import Figures
from reporting.findings import Finding
from reporting.jobs import lives
from reporting.plots import Plot, plots_of
from reporting.report_tables import LIFE, head_of, life_rows, tables_of
from reporting.svg import HEIGHT
from rb_broker_redis.watching.head import STYLE, head
from rb_broker_redis.watching.tables import Table, grid
from rb_broker_redis.watching.units import counted, number

# A page has the lives of jobs of about this many elements, which are 3 MB.
MOST_ELEMENTS = 20_000


def page(figures: Figures) -> str:
    """The page."""
    parts = "page.html", "readings.js", "page.js"
    body, *scripts = (Path(__file__).with_name(name).read_text("utf-8") for name in parts)
    script, chosen, plots = '"use strict";\n' + "".join(scripts), chosen_jobs(figures), plots_of(figures)
    return head(f"{os.path.basename(figures.name)}: report", STYLE, script) + Template(body).substitute(
        name=escape(figures.name), lines="".join(f"<p>{escape(line)}</p>" for line in head_of(figures)),
        findings=f"<ul>{''.join(map(_finding, figures.findings))}</ul>" if figures.findings else "<p>Nothing.</p>",
        plots="".join(map(_plot, plots)), tables="".join(map(_table, tables_of(figures))),
        has=f"{number(len(chosen))} of {counted(len(figures.jobs.roots), 'job')}", script=script,
        life=grid(LIFE, [], ' id="life" hidden'), lives=told_json(figures, chosen, plots))


def chosen_jobs(figures: Figures) -> list[int]:
    """The roots of the jobs whose lives a page has: all jobs if they are few. Otherwise those that look wrong first,
    then those that were given latest, those that were given their last attempt, those with the most elements, and the
    earliest ones."""
    history, jobs = figures.history, figures.jobs
    named = (history.root_of(origin) for finding in figures.findings for origin in finding.origins)
    roots: dict[int, None] = {}
    room = MOST_ELEMENTS
    for root in chain(named, jobs.latest, jobs.last_given, jobs.again, jobs.roots):
        if root is not None and root not in roots and jobs.elements[root] <= room:
            room -= jobs.elements[root]
            roots[root] = None
        if not room:
            break
    return list(roots)


def told_json(figures: Figures, roots: Sequence[int], plots: Sequence[Plot]) -> str:
    """What the page's script tells: the readings of each plot, and each job by its origin, with its payload, its first
    expiry and its attempts. No payload can end the element that holds it."""
    history, clock, elements = figures.history, figures.clock, figures.history.elements
    jobs = {elements.origins[root]: (
        elements.payload(root), clock.text(elements.firsts[root], 9), life_rows(history, rows, clock))
        for root, rows in lives(history, roots).items()}
    told = {"readings": {plot.name: plot.readings for plot in plots}, "jobs": jobs}
    # Inside a script element these three could begin its end, or a comment; in JSON they occur only in payloads.
    text = json.dumps(told, separators=(",", ":"), ensure_ascii=False)
    return text.replace("<", "\\u003c").replace(">", "\\u003e").replace("&", "\\u0026")


def _finding(finding: Finding) -> str:
    links = f" (jobs {', '.join(map(_link, finding.origins))})" if finding.origins else ""
    return f"<li>{escape(finding.says)}{links}</li>"


def _link(origin: object) -> str:
    return f'<a href="#job={origin}">{origin}</a>'


def _plot(plot: Plot) -> str:
    keys = (f'<span class="key {kind}">{escape(says)}</span>' for kind, (says, _) in plot.lines.items())
    title = escape(plot.title)
    return (f'<section class="plot"><h2>{title}</h2><p class="legend">{"".join(keys)}</p>'
            f'<div class="drawing" id="plot-{plot.name}"><svg height="{HEIGHT}" role="img" aria-label="{title}">'
            f'{plot.drawing}</svg></div><p class="note">{escape(plot.caption)}</p></section>\n')


def _table(told: Table) -> str:
    """A section with a table. Each job leads to its life."""
    rows: Iterable[Sequence[str]] = ([escape(cell) for cell in row] for row in told.rows)
    if told.is_of_jobs:
        rows = ([_link(origin), f"<code>{payload}</code>", *others] for origin, payload, *others in rows)
    cells = grid(told.heading, rows, f' class="words-{told.left}"') if told.rows else ""
    notes = "".join(f'<p class="note">{escape(note)}</p>' for note in told.notes)
    return f"<section><h2>{escape(told.title)}</h2>{cells}{notes}</section>\n"
