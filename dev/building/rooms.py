"""The folders in which crates are built beside each other."""
import contextlib
import os
import shutil
from pathlib import Path
from typing import Self

from building.crates import PARTS, Crates, read_uses


class Rooms:
    """A small checkout for each crate that is being built: its sources and what was kept of its last build, the sources
    of the crates below it, and their built libraries.

    In the checkout itself crates could not be built side by side: rt lets nobody else into a crate's folder and those
    of all crates below it. All rooms have the sources as they stood at the beginning, so the program is of one state.
    What a build made is moved back into the crate's own folder. Nobody else may work there meanwhile.
    """

    def __init__(self, top: str, crates: Crates) -> None:
        self._top, self._crates, self._place = Path(top), crates, place_in(Path(top))
        self._uses: dict[str, list[str]] = {}

    def __enter__(self) -> Self:
        self._clear()  # of a build that was killed
        self._uses = read_uses(str(self._top))
        for part in (f"{name}/{part}" for name in self._crates.names for part in PARTS):
            if (self._top / "crates" / part).is_dir():
                shutil.copytree(self._top / "crates" / part, self._place / "sources" / part, symlinks=True)
        return self

    def __exit__(self, *_: object) -> None:
        self._clear()

    def enter(self, crate: str) -> Path:
        """Makes the room of a crate, all below which is built, and returns the crate's folder in it."""
        room, below = self._place / "rooms" / crate, self._crates.below[crate]
        (room / "crates").mkdir(parents=True)
        table = [f"{name}: {' '.join(named)}\n" for name, named in self._uses.items() if name in {crate, *below}]
        (room / "crates.txt").write_text("".join(table), "utf-8")
        for name in (crate, *below):
            link_tree(self._place / "sources" / name, room / "crates" / name)
        for name in below:
            link_tree(self._own(name) / "rlib", room / "crates" / name / "out" / "rlib")
        with contextlib.suppress(FileNotFoundError):
            self._own(crate).rename(self._made(crate))
        return room / "crates" / crate

    def leave(self, crate: str) -> None:
        """Moves what was made in a crate's room to the crate's own folder, and removes the room."""
        if self._made(crate).is_dir():
            shutil.rmtree(self._own(crate), ignore_errors=True)
            self._made(crate).rename(self._own(crate))
        shutil.rmtree(self._place / "rooms" / crate)

    def with_own_paths(self, crate: str, output: bytes) -> bytes:
        """What rt wrote in a crate's room, with the paths that the files have in the checkout."""
        return output.replace(f"{self._place}/rooms/{crate}/".encode(), f"{self._top}/".encode())

    def _own(self, crate: str) -> Path:
        return self._top / "crates" / crate / "out"

    def _made(self, crate: str) -> Path:
        return self._place / "rooms" / crate / "crates" / crate / "out"

    def _clear(self) -> None:
        """Removes all rooms. What was kept of a crate's builds goes back, unless somebody has begun it anew."""
        for crate in (room.name for room in self._place.glob("rooms/*")):
            if self._made(crate).is_dir() and not os.path.lexists(self._own(crate)):
                self._made(crate).rename(self._own(crate))
        shutil.rmtree(self._place, ignore_errors=True)


def place_in(top: Path) -> Path:
    """Where rooms are made: on the disk of the checkout, so that files are linked and moved, not copied. The gate
    accepts no crates elsewhere in a checkout, and does not look into the folder of git."""
    git = top / ".git"
    if git.is_file():  # a worktree's, which names the folder
        git = top / git.read_text("utf-8").partition("gitdir: ")[2].strip()
    return git / "broker-build" if git.is_dir() else top / ".broker-build"


def link_tree(folder: Path, to: Path) -> None:
    """Gives each file of a folder a second name. rt replaces such files, and writes into none."""
    if folder.is_dir():
        shutil.copytree(folder, to, symlinks=True, copy_function=link_or_copy)


def link_or_copy(file: str, to: str) -> None:
    try:
        os.link(file, to)
    except OSError:
        shutil.copy2(file, to)
