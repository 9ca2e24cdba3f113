"""What docs/PROVED.md names, found in the sources.

Each row of a crate's tables names a call and the clauses that say what it does. The call must be in the crate's src/. A
clause must be a name after `ensures` of that call, of any function of that type or trait, or of the call that the row
names by `of`; or it is a ghost item of the crate. A definition in brackets must be in the specs/ of some crate. Whether
a sentence says what its clause says is for a reader to judge.
"""
import re
from collections import defaultdict
from pathlib import Path
from typing import Iterator

from defining.tree import SourceFile, Tree

ENSURES = re.compile(r"^ *ensures (\w+) ", re.M)
GHOST = re.compile(r"^ *ghost (?!use )(\w+)", re.M)
NAME = re.compile(r"`([^`]+)`")
OTHER_CALL = re.compile(r" of `(\w+)`")
IN_BRACKETS = re.compile(r"\([^)]*\)")
HEADS = {"Public call", "Public type", "Private function"}
NO_CLAUSES = {"impl", "requires"}


def find(top: Path) -> Iterator[str | None]:
    """Finds the names of docs/PROVED.md below a folder. The fault of one is `CRATE: CALL: NAME is not there`."""
    page, files = (top / "docs/PROVED.md").read_text("utf-8"), Tree(top).files.values()
    definitions = {item.name for file in files if file.path.endswith(".antt") for item in file.items}
    for section in page.split("\n## ")[1:]:
        crates = re.findall(r"rb_\w+", section.partition("\n")[0])
        sources = [file for file in files if file.crate in crates and file.path.endswith(".rt")]
        ghosts, declared = {name for file in sources for name in GHOST.findall(file.bare)}, declared_in(sources)
        for call, clauses in rows_of(section) if crates else ():
            for word, is_there in names_in(declared, ghosts, call, clauses, definitions):
                yield None if is_there else f"{', '.join(crates)}: {call}: {word} is not there"


def declared_in(sources: list[SourceFile]) -> dict[str, set[str]]:
    """The functions, types and traits of sources, each with its clauses. A type or trait has its functions and their
    clauses too."""
    declared: defaultdict[str, set[str]] = defaultdict(set)
    for item in (item for file in sources for item in file.items):
        owner, _, name = item.name.rpartition("::")
        clauses = ENSURES.findall("\n".join(item.code))
        declared[name].update(clauses)
        if owner:
            declared[owner].update([name, *clauses])
    return declared


def rows_of(section: str) -> Iterator[tuple[str, str]]:
    """The call and the clauses of each row of a section's tables; an empty call is that of the row above."""
    call = ""
    for line in section.split("\n"):
        cells = [cell.strip() for cell in line.strip("|").split(" | ")] if line.startswith("| ") else []
        if len(cells) == 3 and cells[0] not in HEADS:
            call = cells[0] or call
            yield call, cells[2]


def names_in(
    declared: dict[str, set[str]], ghosts: set[str], call: str, clauses: str, definitions: set[str]
) -> Iterator[tuple[str, bool]]:
    """Each name of a row, and whether it is there."""
    own = NO_CLAUSES | ghosts
    for word in NAME.findall(call):
        name = word.partition("<")[0].rpartition("::")[2]
        own |= declared.get(name, set())
        yield word, name in declared or name in ghosts
    for word in filter(declared.__contains__, OTHER_CALL.findall(clauses)):
        own |= {word, *declared[word]}
    yield from ((word, word in own) for word in NAME.findall(IN_BRACKETS.sub("", clauses)))
    yield from ((word, word in definitions) for word in NAME.findall(" ".join(IN_BRACKETS.findall(clauses))))
