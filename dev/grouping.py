"""Attacks that one check can try together.

A function is proved against the contracts of what it calls, never against their bodies. So where several functions of a
crate are changed, the check refuses or proves each as it would alone, and says which.
"""
import re
from pathlib import Path
from typing import Iterable, Iterator, NamedTuple

HEAD = re.compile(r"( *)(?:pub(?:\([^)]*\))? )?(?:const |unsafe )*fn (\w+)")
SAID_OF_FUNCTION = re.compile(r"^fn ([\w:]+): (.*)$", re.M)
TOLD = re.compile(r"^(?:note: )?(?:\./)?([^:\s]+):(\d+):\d+: (.*)$", re.M)
# A proof names what the edit took away, which shows little of the contract.
NAMES_WHAT_IS_GONE = re.compile(r"error.*(?:has no field|is not in scope|has no `|was not admitted)")
CALLS_ONE = ("not proved; it calls", "no proof: it calls")  # that is not proved; the second has no proof that was looked at
MOST = 8  # in a group: one that can't be read spoils the check of all

Texts = dict[str, str]  # files, by their paths in the crate


class Change(NamedTuple):
    """What an attack changes: one function, by its file and its name, and these of its lines, by their indices."""

    file: str
    function: str
    within: range
    lines: dict[int, str]


def functions_of(text: str) -> Iterator[tuple[str, int, int]]:
    """The functions of a source that have bodies: the name, and the first and the last line. It is laid out by rt fmt."""
    lines = text.split("\n")
    for first, line in enumerate(lines):
        if not (head := HEAD.match(line)):
            continue
        if line.endswith("}") and line.count("{") == line.count("}"):
            yield head[2], first, first
            continue
        ends = (at for at in range(first, len(lines)) if lines[at].endswith(";") or is_at(lines[at], head[1], "{"))
        opened = next(ends, None)
        if opened is not None and not lines[opened].endswith(";"):
            yield head[2], first, lines.index(head[1] + "}", opened)


def is_at(line: str, indent: str, end: str) -> bool:
    return line.startswith(indent) and not line.startswith(indent + " ") and line.endswith(end)


def change_of(before: Texts, after: Texts) -> Change | None:
    """The one function that is changed, or None where there are more, or something else is changed."""
    changed = [(file, at, line) for file, text in after.items()
               for at, (old, line) in enumerate(zip(before[file].split("\n"), text.split("\n"))) if line != old]
    files = {file for file, _, _ in changed}
    if len(files) != 1 or not (file := files.pop()).startswith("src/"):
        return None
    lines = {at: line for _, at, line in changed}
    around = [(name, range(first, last + 1)) for name, first, last in functions_of(before[file])]
    found = [(name, within) for name, within in around if all(at in within for at in lines)]
    return Change(file, *found[-1], lines) if found else None


def groups_of(changes: dict[str, Change]) -> list[list[str]]:
    """The attacks, by their names, in groups of different functions."""
    groups: list[list[str]] = []
    for name, change in changes.items():
        fitting = (group for group in groups if len(group) < MOST and all(changes[it][:2] != change[:2] for it in group))
        group = next(fitting, None)
        if group is None:
            groups.append([name])
        else:
            group.append(name)
    return groups


def together(changes: Iterable[Change], before: Texts) -> Texts:
    """The texts of the files in which all of these functions are changed."""
    lines: dict[str, list[str]] = {}
    for change in changes:
        of_file = lines.setdefault(change.file, before[change.file].split("\n"))
        for at, line in change.lines.items():
            of_file[at] = line
    return {file: "\n".join(of_file) for file, of_file in lines.items()}


def is_of(path: str, change: Change) -> bool:
    """Whether what a check calls by this path may be the changed function."""
    modules = [part for part in Path(change.file).with_suffix("").parts[1:] if part not in ("lib", "main")]
    names = path.split("::")[1:]
    return names[:len(modules)] == modules and change.function in names[len(modules):]


def told_of(change: Change | None, said: str) -> list[str]:
    """What a check says of the changed function, by its lines and those of its proof, or of the crate where it is not one
    function that is changed."""
    told = TOLD.findall(said.replace("\n  ", " "))  # a long message goes on behind two spaces
    if change:
        rooms = tuple("/".join(["proofs", *path.split("::")[1:], ""])
                      for path, _ in SAID_OF_FUNCTION.findall(said) if is_of(path, change))
        told = [(file, line, what) for file, line, what in told
                if file.startswith(rooms) or file == change.file and int(line) - 1 in change.within]
    return [what for _, _, what in told]


def is_refused(change: Change, said: str) -> bool:
    """Whether a check says that the changed function is not proved, and not only that it calls one that is not: then its
    proof may not have been looked at."""
    verdicts = [verdict for path, verdict in SAID_OF_FUNCTION.findall(said) if is_of(path, change)]
    by_itself = [verdict for verdict in verdicts if not verdict.startswith(("proved", *CALLS_ONE))]
    return bool(by_itself) or any(verdict.startswith(CALLS_ONE[0]) for verdict in verdicts) and bool(told_of(change, said))


def says_little(change: Change | None, said: str) -> bool:
    """Whether all that a check says of the changed function, or of the crate where it is not one function that is
    changed, is that a proof names what is gone."""
    told = told_of(change, said)
    return bool(told) and all(NAMES_WHAT_IS_GONE.match(what) for what in told)
