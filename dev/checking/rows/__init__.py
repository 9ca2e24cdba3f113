"""rb_cases, its program and its tables of rows."""
from pathlib import Path

from checking import trying
from common.program import TOP

CRATE = Path(TOP, "crates/rb_cases")
PROVED = CRATE / "out/rb_cases"


def kept() -> Path | None:
    """The program that the gate left, or an earlier call of `rb_cases`, unless a source is newer."""
    return trying.up_to_date((PROVED, CRATE / trying.UNPROVED), (CRATE / "src").rglob("*.rt"))


def rb_cases(room: str) -> Path:
    """The program that is kept. If there is none, `rt try` makes one without proofs."""
    return trying.made_once("rb_cases", room, "three", kept)


def tables_of(path: Path) -> list[list[str]]:
    """The lines of each table of a file, without comments."""
    tables: list[list[str]] = []
    for line in path.read_text("utf-8").splitlines():
        if line.startswith("table "):
            tables.append([])
        if line.strip() and not line.startswith("#"):
            tables[-1].append(line)
    return tables
