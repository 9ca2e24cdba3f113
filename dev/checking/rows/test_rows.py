"""rb_cases finds what is wrong in tables of rows.

Each row of each table is given another answer, one at a time, and the program must then name that row: what it was
given in place of which answer. Malformed tables must each be an error, with the line and the reason.
"""
import re
import subprocess
from itertools import islice
from pathlib import Path
from typing import Callable, Iterator

import pytest

from checking.pages.reading import blocks, section
from checking.rows import CRATE, rb_cases, tables_of
from common.program import TOP

OTHER = " @"  # what is put behind an answer, which no answer ends with
PATIENCE = 600  # seconds that a run may take
SHARES = 4  # of a file, which are tried side by side
# Malformed tables, each with the line and the reason by which it has to be refused.
_, *PIECES = re.split(r"^== (.*)\n", Path(__file__).with_name("malformed.txt").read_text("utf-8"), flags=re.M)

Reads = Callable[[str], subprocess.CompletedProcess[str]]


@pytest.fixture(scope="module")
def reads(tmp_path_factory: pytest.TempPathFactory) -> Reads:
    """Runs the program on a file of this text."""
    room = tmp_path_factory.mktemp("rows")
    program = rb_cases(str(room))

    def read(text: str) -> subprocess.CompletedProcess[str]:
        (room / "tried.rows").write_text(text, "utf-8")
        return subprocess.run([program, "tried.rows"], cwd=room, capture_output=True, encoding="utf-8",
                              timeout=PATIENCE, check=False)

    return read


def with_other_answer(row: str) -> str:
    command, _, answers = row.rpartition(" = ")
    return f"{command} = {' or '.join(answer + OTHER for answer in answers.split(' or '))}"


def wrong_tables(path: Path) -> Iterator[tuple[str, list[str], int]]:
    """The tables of a file, once for each row, up to that row and with another answer there: its name, as a pattern,
    its lines, and the place of the row."""
    for table in tables_of(path):
        for at, line in enumerate(table):
            if " = " in line:
                name = f"{table[0]}, wrong at {at}"
                yield re.escape(name.split(" ", 2)[2]), [name, *table[1:at], with_other_answer(line), *table[at + 1:]], at


@pytest.mark.parametrize("share", range(SHARES))
@pytest.mark.parametrize("path", sorted(CRATE.glob("data/*.rows")), ids=lambda path: path.name)
def test_each_row_with_another_answer_is_named(reads: Reads, path: Path, share: int) -> None:
    tried: list[str] = []
    wanted: list[str] = []
    for name, table, at in islice(wrong_tables(path), share, None, SHARES):
        over, place = r"(kept, |shared, )?(over \w+, )?", len(tried) + at + 1
        wanted.append(rf"tried\.rows: {name}: {over}line {place}: .* in place of .*")
        tried += table
    ran = reads("".join(f"{line}\n" for line in tried))
    *told, _counts = ran.stdout.splitlines()
    assert (ran.returncode, ran.stderr, len(told)) == (1, "", len(wanted))
    assert not [line for line, pattern in zip(told, wanted) if not re.fullmatch(pattern, line)]


@pytest.mark.parametrize(("told", "text"), zip(PIECES[::2], PIECES[1::2]))
def test_a_malformed_table(reads: Reads, told: str, text: str) -> None:
    ran = reads(text)
    assert (ran.returncode, ran.stderr) == (2, f"tried.rows:{told}\n"), ran.stdout


def cases(path: str) -> subprocess.CompletedProcess[str]:
    """Runs dev/cases on a file, from the top folder."""
    return subprocess.run([f"{TOP}/dev/cases", path], cwd=TOP, capture_output=True, encoding="utf-8", check=False)


def test_the_command_of_the_page() -> None:
    """The second command that EXTENDING names for a changed row."""
    command, path = blocks(section("docs/EXTENDING.md", "A case or a row"))[0].splitlines()[1].split(" ")
    ran = cases(path)
    assert (command, ran.returncode, ran.stderr) == ("dev/cases", 0, "")
    assert re.search(r"^0 cases and \d+ tables, 0 not as they must be\n\Z", ran.stdout, re.M)


def test_a_wrong_case_is_told_with_its_line(tmp_path: Path) -> None:
    path = tmp_path / "a.case"
    path.write_text("case one\n> SIZE\n< SIZE 0\nends input 0\n\ncase two\n> SIZE\n< SIZE 1\nends input 0\n")
    ran = cases(str(path))
    first, second, counts = ran.stdout.splitlines()
    assert (ran.returncode, first) == (1, f"{path}: one: ok"), ran.stderr
    assert second.startswith(f"{path}:6: two: over list, ") and second.endswith(r'"SIZE 0\n" in place of "SIZE 1\n"')
    assert counts == "2 cases and 0 tables, 1 not as they must be"


@pytest.mark.parametrize(("name", "text", "told"), [
    ("a.rows", "table queue a\nbegin 1 = begun\n0 0 sise = size 0\n", "3: no such command"),
    ("a.case", "case a\n> SIZE\nend input 0\n", "3: no word of a case: end"),
])
def test_a_misspelt_word(tmp_path: Path, name: str, text: str, told: str) -> None:
    (tmp_path / name).write_text(text)
    ran = cases(str(tmp_path / name))
    assert (ran.returncode, ran.stdout, ran.stderr) == (2, "", f"{tmp_path}/{name}:{told}\n")
