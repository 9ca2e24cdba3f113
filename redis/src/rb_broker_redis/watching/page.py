"""A page of something that is watched: one file, which loads nothing but itself, again and again."""
from __future__ import annotations

from collections.abc import Callable, Iterable, Sequence
from html import escape
from pathlib import Path
from typing import NamedTuple

from .head import STYLE, head
from .tables import Table, grid

HERE = Path(__file__).resolve().parent
LOOK = STYLE + (HERE / "page.css").read_text("utf-8")
SCRIPT = '"use strict";\n' + (HERE / "page.js").read_text("utf-8")
ALLOWS = "; connect-src 'self'"


class Shown(NamedTuple):
    """What a page says, as texts; its sections are of a page already."""

    name: str
    title: str
    kind: str  # of the state: `good`, `fair` or `bad`
    since: str  # the state, and since when it is so
    attention: Iterable[str]
    sections: Iterable[str]
    form_action: str = "'none'"  # where forms may lead


def page_of(shown: Shown) -> str:
    """The page."""
    alerts = "".join(f"<p>{escape(it)}</p>\n" for it in shown.attention)
    return "".join((
        head(shown.title, LOOK, SCRIPT, ALLOWS, shown.form_action),
        f"<body><header><h1>{escape(shown.name)}</h1>\n",
        "<noscript><p>Without JavaScript this page stays as it was loaded.</p></noscript></header>\n",
        f'<main><section id="state" class="{shown.kind}"><p>{escape(shown.since)}</p></section>\n',
        '<section id="attention" aria-live="polite"><h2>What needs attention</h2>',
        f'{alerts or "<p>Nothing.</p>"}</section>\n',
        *shown.sections,
        '</main><footer><p class="note"><a href="metrics">metrics</a> <a href="health">health</a></p></footer>\n',
        f"<script>{SCRIPT}</script>\n</body>\n</html>\n"))


def section(table: Table, row_of: Callable[[Sequence[str]], Iterable[str]] = lambda row: map(escape, row)) -> str:
    """A table, whose cells `row_of` makes of the texts of a row."""
    notes = "".join(f'<p class="note">{it}</p>' for it in table.notes)
    told = f"<h2>{table.title}</h2>{grid(table.heading, map(row_of, table.rows))}{notes}"
    return f'<section id="{table.title.split()[0].lower()}">{told}</section>\n'
