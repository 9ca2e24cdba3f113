"""Libraries that the gate left in out/, of which rt must be told that they are those of the sources.

`rt ci` takes a library for that by sums of its own, and leaves no stamp beside it. Without one `rt check` proves the
library once more, and all below it.
"""
import os
import shutil
import subprocess
import sys
from pathlib import Path

from building.crates import PARTS, with_those_below

# Runs beside the kit's own modules: the stamp of each library that is named.
STAMP = """
import os, sys
_, kit, top, *names = sys.argv
sys.path.insert(0, kit)
os.chdir(top)
import rtlib
for crate in rtlib.crates_below(top):
    if crate.name in names:
        path = f"{crate.folder}/out/rlib/stamp"
        with open(f"{path}.new", "w", encoding="utf-8") as file:
            file.write(crate.stamp())
        os.replace(f"{path}.new", path)  # one that is there may have another name elsewhere
"""


def stamp_libraries(top: Path, uses: dict[str, list[str]]) -> set[str]:
    """Stamps the libraries of a checkout that are younger than their sources, and than those of all that they stand on,
    and returns their names. Where the kit has another form, they are proved once more."""
    there = {path.name: path for path in (top / "crates").iterdir()}
    changed = {name: changed_at(path) for name, path in there.items()}
    built = [name for name, path in there.items() if (path / f"out/rlib/{name}.rlib").is_dir()]
    fresh = {name for name in built if (there[name] / "out/rlib").stat().st_mtime > max(
        changed[below] for below in with_those_below([name], uses))}
    kit = os.path.dirname(os.path.realpath(shutil.which("rt") or "rt"))
    subprocess.run([sys.executable, "-c", STAMP, kit, str(top), *fresh], stdout=subprocess.DEVNULL,
                   stderr=subprocess.DEVNULL, stdin=subprocess.DEVNULL, check=False)
    return fresh


def changed_at(crate: Path) -> float:
    """When a source of a crate was last changed."""
    return max(path.stat().st_mtime for part in PARTS for path in (crate / part).rglob("*") if path.is_file())
