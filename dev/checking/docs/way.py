"""The way of a request in docs/ARCHITECTURE.md, compared with the sources.

A row of its table names a file, and in bold the calls there that hand on the request or its reply. Each must be a
function of that file that the bold call before it makes, or on the way back some call before it. The page says how many
they are.
"""
import re
from pathlib import Path
from typing import Iterator

from defining.tree import Unknown

PAGE = "docs/ARCHITECTURE.md"
HEADING = "\n## The way of a request\n"
ROW = re.compile(r"^\| (\d+) \| `(rb_\w+/src/\w+\.rt)` \| (.*) \|$", re.M)
CALL = re.compile(r"\*\*`(\w+)`\*\*")
COUNT = re.compile(r"\ball (\d+) are bold\b")
BACK = "On the way back"


def find(top: Path) -> Iterator[str | None]:
    """Follows the way below a folder. The fault of a call is `docs/ARCHITECTURE.md: hop N: REASON`."""
    section = (top / PAGE).read_text("utf-8").partition(HEADING)[2].partition("\n## ")[0]
    rows, said = ROW.findall(section), COUNT.search(section)
    if not said or not rows or [int(number) for number, _, _ in rows] != [*range(1, len(rows) + 1)]:
        raise Unknown(f"{top / PAGE} has no table, numbered from 1, of calls that are counted, below"
                      " 'The way of a request'")
    bodies: list[str] = []
    for number, path, text in rows:
        source = (top / "crates" / path).read_text("utf-8")
        for name in CALL.findall(text):
            callers = bodies if text.startswith(BACK) else bodies[-1:]
            is_made = not bodies or any(re.search(rf"\b{name}\(", caller) for caller in callers)
            bodies.append(body_of(source, name))
            reason = f"{path} has no {name}" if not bodies[-1] else "" if is_made else f"nothing before it calls {name}"
            yield f"{PAGE}: hop {number}: {reason}" if reason else None
    yield None if len(bodies) == int(said[1]) else f"{PAGE} shows {len(bodies)} calls, and says {said[1]}"


def body_of(source: str, name: str) -> str:
    """The body of the functions of this name in a file, or nothing."""
    function = rf"^( *)(?:pub(?:\(\w+\))? )?fn {name}\b(?:.*\n)*?.*\{{\n((?:.*\n)*?)\1\}}$"
    return "".join(body for _, body in re.findall(function, source, re.M))
