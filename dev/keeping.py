"""Which attacks were refused on this machine, by the texts that their checks read."""
import contextlib
import hashlib
import os
import subprocess
from pathlib import Path
from typing import Iterable

from building.crates import PARTS
from common.program import TOP

ROOM = "rb_broker/attacks"  # below the user's folder for what can be made again
RULE = "dev/grouping.py"  # which says what counts as refused
MOST = 4  # texts of a crate for which it is kept


class Refused:
    """The attacks of a crate that were refused over it, and over the crates that it stands on, as they are now. For
    each there is what is to be said of it."""

    def __init__(self, crate: str, needed: Iterable[str]) -> None:
        self._crate, room = Path(TOP, "crates", crate), os.environ.get("XDG_CACHE_HOME") or Path.home() / ".cache"
        self._path = Path(room, ROOM, f"{crate}-{sum_of(needed)}")
        self._told: dict[str, str] = {}
        with contextlib.suppress(OSError):
            self._told = dict(line.split(" ", 1) for line in self._path.read_text("utf-8").splitlines())

    def said_of(self, edit: str) -> str | None:
        """What is to be said of an attack that was refused, or None if it was not, or was another."""
        return self._told.get(self._sum(edit))

    def keep(self, refused: dict[str, str]) -> None:
        """Keeps these too, and no more texts of the crate than the latest."""
        with contextlib.suppress(OSError):
            self._path.parent.mkdir(parents=True, exist_ok=True)
            with self._path.open("a", encoding="utf-8") as file:
                file.write("".join(f"{self._sum(edit)} {said}\n" for edit, said in refused.items()))
            paths = self._path.parent.glob(f"{self._crate.name}-*")
            for old in sorted(paths, key=lambda path: path.stat().st_mtime)[:-MOST]:
                old.unlink()

    def _sum(self, edit: str) -> str:
        return hashlib.sha256((self._crate / "attacks" / edit).read_bytes()).hexdigest()


def sum_of(crates: Iterable[str]) -> str:
    """A sum of all that a check of these crates reads: the kit, the table, and each text; and of what reads its words."""
    kit = subprocess.run(["rt", "version"], stdout=subprocess.PIPE, stderr=subprocess.DEVNULL, check=False).stdout
    found = hashlib.sha256(kit)
    files = [path for crate in sorted(crates) for part in PARTS for path in Path(TOP, "crates", crate, part).rglob("*")]
    read = [Path(TOP, name) for name in ("crates.txt", "HANDLES", RULE)]
    for path in (*read, *sorted(filter(Path.is_file, files))):
        found.update(repr((str(path.relative_to(TOP)), path.read_bytes())).encode())
    return found.hexdigest()
