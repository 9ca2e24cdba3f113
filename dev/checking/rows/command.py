"""Runs files of cases and tables by rb_cases, which is not compiled for that: dev/cases [FILE ..]

For each case and table of these files it prints a line, with what differs and, for a case, its line in the file; and at
the end one with the counts.

Without a FILE it runs all files that crates/rb_cases/args names, as the gate does. It first compares their cases and
tables with crates/rb_cases/stdout, and runs none if that differs: it prints lines to remove with `-`, and lines to add
with `+`. Then it runs several files at once, and as each ends it prints what differs, and the file's counts.

It runs the program that the gate left in crates/rb_cases/out. If there is none, or a source of rb_cases is newer, `rt
try` first makes one without proofs, which takes some minutes; later calls use it. It is slow: a script takes 20
seconds, and all files half an hour or more.

Exit status: 0 if each case and row came out as it must, 1 if one did not, 2 if there is no program, or a file can't be
read or is malformed; a line then says why, with the line of the file.
"""
import subprocess
import sys
from itertools import chain, repeat
from pathlib import Path
from typing import Callable, Sequence

from checking.parts import PROCESSORS
from checking.rows import CRATE, PROVED, kept, rb_cases
from checking.rows.entries import Entry, counts_of, differences_of, entries_of
from common.words import exit_status, parser_of
from conforming.cases import Malformed
from leaving import status_of
from side_by_side import side_by_side

SLOW = "no gate left rb_cases, and all files take half an hour or more by one without proofs; dev/cases FILE tries one"

Tell = Callable[[str], None]


def run(words: Sequence[str | Path], folder: Path, entries: Sequence[Entry], tell: Tell) -> int:
    """Runs rb_cases, by these words, on files of a folder, which have these cases and tables. It tells each line as it
    comes, and returns the exit status."""
    with subprocess.Popen(words, cwd=folder, stdout=subprocess.PIPE, encoding="utf-8") as running:
        assert running.stdout
        for line, entry in zip(running.stdout, chain(entries, repeat(None))):
            told = line.rstrip("\n")
            tell(entry.placed(told) if entry else told)
    return running.returncode


def run_named(files: Sequence[str], room: str) -> int:
    """Runs these files, and returns the exit status."""
    entries = entries_of(files)
    return run([rb_cases(room), *files], Path(), entries, lambda line: print(line, flush=True))


def run_all(room: str) -> int:
    """Runs all files, unless the gate wants other lines, and returns the exit status."""
    files = (CRATE / "args").read_text("utf-8").split()
    entries = entries_of(files, CRATE / "data")
    if differences := differences_of(entries, CRATE / "stdout"):
        print("\n".join(differences))
        return 1
    if kept() != PROVED:
        print(f"cases: {SLOW}", file=sys.stderr)
    return run_side_by_side(rb_cases(room), files, entries)


def run_side_by_side(program: Path, files: Sequence[str], entries: Sequence[Entry]) -> int:
    """Runs files, as many at once as there are processors, and returns the exit status."""
    passed, wrong, statuses = {entry.passed for entry in entries}, 0, {0}

    def run_one(file: str) -> tuple[int, list[str]]:
        lines: list[str] = []
        own = [entry for entry in entries if entry.file == file]
        return run([program, file], CRATE / "data", own, lines.append), lines

    for file, (status, lines) in side_by_side(run_one, files, PROCESSORS):
        counts = lines.pop() if status in (0, 1) else f"rb_cases ended with status {status}"
        differing = [line for line in lines if line not in passed]
        print("\n".join([*differing, f"{file}: {counts}"]), flush=True)
        wrong += len(differing)
        statuses.add(status)
    print(counts_of(entries, wrong))
    return max(statuses) if statuses <= {0, 1} else 2


def cases(files: Sequence[str], room: str) -> int:
    """Runs these files, or all, and returns the exit status."""
    try:
        return run_named(files, room) if files else run_all(room)
    except Malformed as fault:
        print(fault, file=sys.stderr)
        return 2


def main() -> int:
    parser = parser_of("dev/cases", __doc__)
    parser.add_argument("files", nargs="*", metavar="FILE", help="a file of cases, or one of tables, NAME.rows")
    files = parser.parse_args().files
    return exit_status("cases", lambda: status_of("cases", lambda room: cases(files, room)))
