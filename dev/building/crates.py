"""The crates that a program is made of, and which of them the others wait for longest."""
import os
import re
import shutil
from graphlib import CycleError, TopologicalSorter
from pathlib import Path
from typing import Callable, Collection, Iterable

PARTS = ("src", "specs", "proofs")  # the folders of a crate that rt reads
LINE = re.compile(r"^[ \t]*([^\s#:]+)[^#:\n]*:?([^#\n]*)", re.M)


class BadTable(Exception):
    """crates.txt does not say how the program is built."""


class Crates:
    """Crates by their names: what they name of each other, and how long they are, which tells roughly how long a proof
    takes."""

    def __init__(self, uses: dict[str, list[str]], lines: dict[str, int]) -> None:
        self.uses = uses
        try:
            order = [*TopologicalSorter(uses).static_order()]
        except CycleError as fault:
            raise BadTable(f"in crates.txt {min(fault.args[1])} stands on itself") from None
        # The crates that one stands on, directly or not.
        self.below = {name: with_those_below(uses[name], uses) for name in uses}
        # The lines of the longest chain of crates from one, with its own, up to the program. What delays the crate with
        # the longest way delays the program.
        self.way_up: dict[str, int] = {}
        for name in reversed(order):
            self.way_up[name] = lines[name] + max((self.way_up[user] for user in uses if name in uses[user]), default=0)
        self.names = sorted(uses, key=lambda name: (-self.way_up[name], name))


def read_crates(top: str, program: str) -> Crates:
    """The crates of a program, as crates.txt in the top folder lists them."""
    uses = own_uses(top)
    if program not in uses:
        raise BadTable(f"crates.txt does not list {program}")
    needed = with_those_below([program], uses)
    return Crates({name: uses[name] for name in needed}, {name: lines_of(Path(top, "crates", name)) for name in needed})


def read_uses(top: str) -> dict[str, list[str]]:
    """Each crate of crates.txt in the top folder, with the crates and libraries that it names."""
    text = Path(top, "crates.txt").read_text("utf-8", errors="replace")
    return {name: named.split() for name, named in LINE.findall(text)}


def own_uses(top: str) -> dict[str, list[str]]:
    """Each crate of crates.txt in the top folder, with those of them that it names."""
    uses = read_uses(top)
    return {name: [other for other in named if other in uses] for name, named in uses.items()}


def with_those_below(names: Iterable[str], uses: dict[str, list[str]]) -> set[str]:
    """These crates and all that they stand on."""
    found: set[str] = set()
    waiting = [*names]
    while waiting:
        name = waiting.pop()
        waiting += uses[name] if name not in found else []
        found.add(name)
    return found


def lines_of(crate: Path) -> int:
    files = (file for part in PARTS for file in (crate / part).rglob("*") if file.is_file())
    return sum(file.read_bytes().count(b"\n") for file in files)


def copy_crates(top: str, room: Path, left_out: Callable[[str], Collection[str]]) -> None:
    """Copies what rt reads of a checkout into a folder, without these parts of a crate."""

    def ignored(folder: str, _names: list[str]) -> Collection[str]:
        crates, crate = os.path.split(folder)
        return left_out(crate) if crates == f"{top}/crates" else ()

    shutil.copytree(f"{top}/crates", room / "crates", ignore=ignored)
    for name in ("crates.txt", "HANDLES"):
        if os.path.isfile(f"{top}/{name}"):
            shutil.copy2(f"{top}/{name}", room)
