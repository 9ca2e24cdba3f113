"""The lemmas and definitions that nothing names.

A definition is a name with its type, a record, or a set of lemmas (`ruleset`), in a file of specs/ or proofs/, outside
or inside a `module _`. It is cited if another definition of its file names it, or a clause, a ghost item or another
file that imports it. An import alone cites nothing, nor does a definition that names itself. The checker itself cites
the answers and invariants that it looks up by name (those of a type `goal.NAME`), and they are not counted.
"""
import re
from pathlib import Path
from typing import Iterator

from defining.items import Item
from defining.tree import SourceFile

FILES = ("src/**/*.rt", "specs/**/*.antt", "proofs/**/*.antt")  # that can define or cite
WORD = re.compile(r"[^\s()\[\]{};,λ.→×]+(?:\.[^\s()\[\]{};,λ.→×]+)*")
COMMENT = re.compile("--.*")
CITED_BY_TACTIC = re.compile(r"crate::(proofs(?:::\w+)+)::([^\s,)]+)")


def find(top: Path) -> Iterator[str | None]:
    """Looks for each definition of a folder's crates. The fault of one is `FILE:LINE: NAME is cited nowhere`."""
    paths = sorted(path.relative_to(top).as_posix() for files in FILES for path in top.glob(f"crates/*/{files}"))
    files = [SourceFile(top, path) for path in paths]
    cited = {name for file in files for name in cited_in(file)}
    for file in files:
        for definition in definitions_of(file):
            fault = f"{definition.path}:{definition.line}: {definition.name} is cited nowhere"
            yield None if (file.module, definition.name) in cited else fault


def definitions_of(file: SourceFile) -> list[Item]:
    """What may be cited. A file of src/ defines nothing here."""
    items = [] if file.path.endswith(".rt") else file.items
    return [item for item in items if not item.code[0].partition(item.name)[2].startswith(" : goal.")]


def cited_in(file: SourceFile) -> Iterator[tuple[str, str]]:
    """The module and name of each definition that a file names, outside comments and imports."""
    texts = [text for item in file.paragraphs for text in (("", item.section), (item.name, item.code))]
    if file.path.endswith(".rt"):
        texts = [("", [file.bare])]
        for path, name in CITED_BY_TACTIC.findall(file.bare):
            yield f"Rattle.{file.crate}.{path.replace('::', '.')}", name
    own = {definition.name for definition in definitions_of(file)}
    for owner, lines in texts:
        for word in WORD.findall(COMMENT.sub("", "\n".join(lines))):
            head = word.partition(".")[0]
            if head in own and owner != head:
                yield file.module, head
            if place := file.place_of(word):
                yield place
