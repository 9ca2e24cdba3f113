"""The relative links of all Markdown pages.

A link leads somewhere if its file or folder exists and, if it names a part of a page, a heading there has that name, as
GitHub makes it. Links to other hosts are not followed, and links in code are none. What `out` folders hold is passed
over.
"""
import os
import re
from pathlib import Path
from typing import Iterator

LINK = re.compile(r"\]\( *<?([^)\s>]+)>?[^)\n]*\)|^ {0,3}\[[^\]\n]+\]: *<?([^\s>]+)", re.M)
OF_A_HOST = re.compile(r"[a-z][a-z+.-]*:")
HEADING = re.compile(r"^ {0,3}#{1,6} +(.*?) *#* *$", re.M)
BLOCK = re.compile(r"^ {0,3}(```|~~~)(?s:.*?)(?:^ {0,3}\1.*$|\Z)|^    .*$", re.M)
CODE = re.compile(r"(`+)(?:(?!\1).)+\1")
LEFT_OUT = {".git", "out", "node_modules"}


def find(top: Path) -> Iterator[str | None]:
    """Follows the links of all pages below a folder. The fault of one is `PAGE:LINE: TARGET leads nowhere`."""
    for folder, folders, names in os.walk(top):
        folders[:] = sorted({*folders} - LEFT_OUT)
        for page in (Path(folder, name) for name in sorted(names) if name.endswith(".md")):
            for line, target in links_of(page):
                fault = f"{page.relative_to(top)}:{line}: {target} leads nowhere"
                yield None if leads_somewhere(page, target) else fault


def links_of(page: Path) -> Iterator[tuple[int, str]]:
    """The targets of a page's links, each with the number of its line."""
    prose = CODE.sub("", prose_of(page))
    for link in LINK.finditer(prose):
        if not OF_A_HOST.match(target := link[1] or link[2]):
            yield prose.count("\n", 0, link.end()) + 1, target


def prose_of(page: Path) -> str:
    """The text of a page, with nothing in the lines of its code blocks."""
    return BLOCK.sub(lambda block: "\n" * block[0].count("\n"), page.read_text(encoding="utf-8"))


def names_of(page: Path) -> set[str]:
    """The names of a page's headings: small letters, hyphens for spaces, no other marks; -1 and so on for doubles."""
    seen: dict[str, int] = {}
    for heading in HEADING.findall(prose_of(page)):
        plain = re.sub(r"\]\([^)]*\)", "", heading)
        name = re.sub(r"[^\w\- ]", "", plain).lower().replace(" ", "-")
        seen[name] = seen.get(name, 0) + 1
    return {f"{name}-{at}" if at else name for name, count in seen.items() for at in range(count)}


def leads_somewhere(page: Path, target: str) -> bool:
    """Whether a link of the page leads to a file or folder, and to the part that it names."""
    path, _, part = target.partition("#")
    place = page.parent / path if path else page
    return place.exists() and (not part or (place.suffix == ".md" and part in names_of(place)))
