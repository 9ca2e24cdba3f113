"""Tables of texts, and how they look on a page, and where each letter is as wide as another."""
from html import escape
from typing import Iterable, NamedTuple, Sequence


class Table(NamedTuple):
    """A table with its title and the notes below it. The first `left` columns are words, the others numbers. If its
    rows are jobs, each begins with an origin and a payload."""

    title: str
    heading: Sequence[str]
    rows: Sequence[Sequence[str]]
    left: int = 1
    notes: Sequence[str] = ()
    is_of_jobs: bool = False

    @property
    def lines(self) -> list[str]:
        """The table as plain text."""
        told = table(self.heading, self.rows, self.left) if self.rows else []
        return [self.title, *told, *(f"  {note}" for note in self.notes)]


def table(heading: Sequence[str], rows: Iterable[Sequence[str]], left: int = 1) -> list[str]:
    """The lines of a table. The first `left` columns begin at one edge, the others, which are numbers, end at one."""
    cells: list[Sequence[str]] = [heading, *rows]
    widths = [max(map(len, column)) for column in zip(*cells)]
    return [("  " + "  ".join(it.ljust(width) if place < left else it.rjust(width)
                              for place, (it, width) in enumerate(zip(row, widths)))).rstrip() for row in cells]


def grid(heading: Iterable[str], rows: Iterable[Iterable[str]], attributes: str = "") -> str:
    """A table of a page, whose cells are HTML already. A narrow page scrolls it."""
    top = "".join(f'<th scope="col">{escape(it)}</th>' for it in heading)
    body = "".join("<tr>" + "".join(f"<td>{it}</td>" for it in row) + "</tr>\n" for row in rows)
    return (f'<div class="scrolled"><table{attributes}><thead><tr>{top}</tr></thead>\n'
            f"<tbody>{body}</tbody></table></div>")
