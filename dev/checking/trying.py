"""Programs that `rt try` builds: without proofs, and with the checks of a sanitizer."""
import contextlib
import fcntl
import glob
import os
import shutil
import subprocess
import sys
import time
from pathlib import Path
from typing import Callable, Iterable, Sequence

from building.crates import read_crates
from common.program import TOP
from leaving import status_of

UNPROVED = "out/unproved"  # in a crate's folder: its program without proofs
BROKER = "rb_broker"


def unproved_broker(room: str) -> Path:
    """The broker without proofs: one that was made before, unless a source is newer, or else one that is made now."""
    folders = [Path(TOP, "crates", crate, "src") for crate in read_crates(TOP, BROKER).names]
    sources = [Path(TOP, "crates.txt"), *(file for folder in folders for file in folder.rglob("*.rt"))]
    return made_once(BROKER, room, "two", lambda: up_to_date([Path(TOP, "crates", BROKER, UNPROVED)], sources))


def run_unproved(words: Sequence[str]) -> int:
    """Has the broker without proofs replace this process, with these words. Returns the exit status if none is made."""
    environment, made = {**os.environ}, []

    def make(room: str) -> int:
        made.append(unproved_broker(room))
        return 0

    status = status_of("unproved", make)
    if made:
        os.execve(made[0], [BROKER, *words], environment)
    return status


def up_to_date(programs: Iterable[Path], sources: Iterable[Path]) -> Path | None:
    """The first of these programs that is there and is newer than the sources."""
    changed = max(source.stat().st_mtime for source in sources)
    there = (path for path in programs if os.access(path, os.X_OK))
    return next((path for path in there if path.stat().st_mtime > changed), None)


def made_once(crate: str, room: str, minutes: str, known: Callable[[], Path | None]) -> Path:
    """The program of a crate that is known, or else one that `rt try` makes without proofs, and that is kept."""
    program = Path(TOP, "crates", crate, UNPROVED)
    program.parent.mkdir(exist_ok=True)
    with open(program.with_suffix(".lock"), "w") as turn:
        fcntl.flock(turn, fcntl.LOCK_EX)  # who comes meanwhile takes what is made here
        if there := known():
            return there
        says = f"making {crate} without proofs, which takes {minutes} minutes or more"
        print(f"{os.path.basename(sys.argv[0])}: {says}", file=sys.stderr, flush=True)
        shutil.move(built(str(program.parent.parent), room), program)
        os.utime(program)
    return program


def built(folder: str, room: str, *words: str) -> str:
    """The path of the program that `rt try`, with these words, builds in a crate's folder. It lies in `room`.

    `rt try` removes what it built, so a second name is given to the program as soon as it is there. If none is built,
    this process ends with status 2, after what `rt try` said.
    """
    inside, kept = f"{room}/try", f"{room}/program"
    os.mkdir(inside)
    with open(f"{room}/said", "w+b") as said:
        environment = {**os.environ, "TMPDIR": inside}
        with subprocess.Popen(["rt", "try", *words], cwd=folder, env=environment, stdin=subprocess.DEVNULL, stdout=said,
                              stderr=said) as trying:
            while trying.poll() is None:
                for path in glob.glob(f"{inside}/*/*/program"):
                    if not os.path.exists(kept):
                        with contextlib.suppress(FileNotFoundError):
                            os.link(path, kept)
                time.sleep(0.02)
        said.seek(0)
        text = said.read().decode(errors="replace")
    if not os.path.isfile(kept):
        print(f"{os.path.basename(sys.argv[0])}: rt try built no program:\n{text}", file=sys.stderr)
        sys.exit(2)
    return kept
