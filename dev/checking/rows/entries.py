"""The cases and tables of rb_cases' files, as far as they can be told without a run."""
import difflib
import re
from pathlib import Path
from typing import Iterable, NamedTuple, Sequence

from conforming.cases import read_cases

HEAD = re.compile(r"table [^ ]+ (.+)")


class Entry(NamedTuple):
    """A case or a table: its file as it was named, its line there, and its name."""

    file: str
    line: int
    name: str

    @property
    def is_table(self) -> bool:
        return self.file.endswith(".rows")

    @property
    def passed(self) -> str:
        """What rb_cases prints if it comes out as it must."""
        return f"{self.file}: {self.name}: ok"

    def placed(self, told: str) -> str:
        """What rb_cases prints of it, with its line if it is a wrong case. Of a wrong table it tells the row's line."""
        if told == self.passed or self.is_table:
            return told
        return told.replace(f"{self.file}: ", f"{self.file}:{self.line}: ", 1)


def entries_of(files: Iterable[str], folder: Path = Path()) -> list[Entry]:
    """The cases and tables of files of a folder. Raises a `Malformed` as tools/conform does, or an `OSError`."""
    return [entry for file in files for entry in (tables_in if file.endswith(".rows") else cases_in)(folder, file)]


def cases_in(folder: Path, file: str) -> list[Entry]:
    return [Entry(file, case.line, case.name) for case in read_cases(str(folder / file))]


def tables_in(folder: Path, file: str) -> list[Entry]:
    lines = enumerate((folder / file).read_text("utf-8", errors="replace").split("\n"), start=1)
    return [Entry(file, number, head[1]) for number, line in lines if (head := HEAD.fullmatch(line.strip()))]


def counts_of(entries: Sequence[Entry], wrong: int) -> str:
    """The last line that rb_cases prints."""
    tables = sum(entry.is_table for entry in entries)
    return f"{len(entries) - tables} cases and {tables} tables, {wrong} not as they must be"


def differences_of(entries: Sequence[Entry], stdout: Path) -> list[str]:
    """What a file has in place of the lines that rb_cases prints if all come out as they must, as lines of a diff."""
    wanted = stdout.read_text("utf-8").splitlines()
    passed = [*(entry.passed for entry in entries), counts_of(entries, 0)]
    return [*difflib.unified_diff(wanted, passed, "stdout", "data", lineterm="", n=0)]
