"""dev/cases, beside a stand-in for rb_cases."""
import os
import subprocess
from pathlib import Path
from typing import Callable

import pytest

from checking.rows import command
from checking.testing import PATIENCE, run_tool
from common.program import TOP

# What the stand-in prints of a file lies beside it. It ends with 1 if that has something `in place of` another.
STAND_IN = """#!/bin/sh
case $1 in slow*) sleep 1; esac
cat "$1.says"
! grep -q ' in place of ' "$1.says"
"""
SCRIPTS = "# remark\ncase one\n> SIZE\n< SIZE 0\nends input 0\n\ncase two\n> SIZE\n< SIZE 1\nends input 0\n"
TABLES = "table timer one\nleast = none\n\n  table queue two: a\nbegin 1 = begun\n"
STDOUT = ["slow.case: one: ok", "slow.case: two: ok", "b.rows: one: ok", "b.rows: two: a: ok"]
COUNTS = "2 cases and 2 tables, 0 not as they must be"

Files = Callable[[dict[str, str]], Path]


@pytest.fixture
def crate(files: Files, monkeypatch: pytest.MonkeyPatch) -> Path:
    """A folder with the files of rb_cases, all of which pass."""
    folder = files({
        "rb_cases": STAND_IN, "args": "slow.case\nb.rows\n", "stdout": "\n".join([*STDOUT, COUNTS, ""]),
        "data/slow.case": SCRIPTS, "data/slow.case.says": "\n".join([*STDOUT[:2], "the counts of a", ""]),
        "data/b.rows": TABLES, "data/b.rows.says": "\n".join([*STDOUT[2:], "the counts of b", ""])})
    (folder / "rb_cases").chmod(0o755)
    for name, value in {"CRATE": folder, "PROVED": folder / "rb_cases"}.items():
        monkeypatch.setattr(command, name, value)
    monkeypatch.setattr(command, "kept", lambda: folder / "rb_cases")
    monkeypatch.setattr(command, "rb_cases", lambda _room: folder / "rb_cases")
    return folder


def cases(capfd: pytest.CaptureFixture[str], *files: str) -> tuple[int, list[str], str]:
    """What the command does with these files: its status, the lines that it prints, and standard error."""
    status = command.cases(files, "no room")
    told = capfd.readouterr()
    return status, told.out.splitlines(), told.err


def test_each_file_is_told_as_it_ends(crate: Path, capfd: pytest.CaptureFixture[str]) -> None:
    assert cases(capfd) == (0, ["b.rows: the counts of b", "slow.case: the counts of a", COUNTS], "")


def test_what_comes_out_wrong(crate: Path, capfd: pytest.CaptureFixture[str]) -> None:
    two, row = "over list: replies, line 1: x in place of y: ok", "over heap, line 4: x in place of y"
    (crate / "data/slow.case.says").write_text(f"slow.case: one: ok\nslow.case: two: {two}\n2 cases\n")
    (crate / "data/b.rows.says").write_text(f"b.rows: one: ok\nb.rows: two: a: {row}\n2 tables\n")
    assert cases(capfd) == (1, [
        f"b.rows: two: a: {row}", "b.rows: 2 tables", f"slow.case:7: two: {two}", "slow.case: 2 cases",
        COUNTS.replace("0 not", "2 not")], "")


def test_a_run_that_is_killed(crate: Path, capfd: pytest.CaptureFixture[str]) -> None:
    (crate / "rb_cases").write_text("#!/bin/sh\nkill -9 $$\n")
    status, lines, _ = cases(capfd)
    killed = "rb_cases ended with status -9"
    assert (status, sorted(lines)) == (2, [COUNTS, f"b.rows: {killed}", f"slow.case: {killed}"])


def test_a_slow_program_is_told_of_at_the_start(crate: Path, capfd: pytest.CaptureFixture[str],
                                                monkeypatch: pytest.MonkeyPatch) -> None:
    monkeypatch.setattr(command, "kept", lambda: None)
    assert cases(capfd)[::2] == (0, f"cases: {command.SLOW}\n")


def refuse_to_run(_room: str) -> Path:
    raise AssertionError("it makes a program first")


@pytest.mark.parametrize(("text", "told"), [
    ("slow.case: two: ok\n", ["+slow.case: two: ok"]),
    ("b.rows: one: ok\n", ["+b.rows: one: ok"]),
    (f"{COUNTS}\n", [f"+{COUNTS}"]),
])
def test_what_the_gate_wants_is_compared_first(crate: Path, text: str, told: list[str], monkeypatch: pytest.MonkeyPatch,
                                               capfd: pytest.CaptureFixture[str]) -> None:
    monkeypatch.setattr(command, "rb_cases", refuse_to_run)
    (crate / "stdout").write_text((crate / "stdout").read_text().replace(text, ""))
    status, lines, errors = cases(capfd)
    assert (status, errors) == (1, "")
    assert [line for line in lines if line[:1] in "+-" and line[:3] not in ("+++", "---")] == told


def test_a_named_file(crate: Path, capfd: pytest.CaptureFixture[str]) -> None:
    """Each line comes as it is, and that of a wrong case has the place of the case."""
    path = f"{crate}/data/slow.case"
    told = "two: over list, replies at once, reads whole: replies, line 1: x in place of y"
    Path(f"{path}.says").write_text(f"{path}: one: ok\n{path}: {told}\n2 cases\n")
    assert cases(capfd, path) == (1, [f"{path}: one: ok", f"{path}:7: {told}", "2 cases"], "")


@pytest.mark.parametrize(("text", "told"), [
    (b"case a\nends imput 0\n", "2: ends does not take imput 0"),
    (b"case a\n> \xff\nends input 0\n", "2: invalid start byte, where UTF-8 is needed"),
])
def test_what_both_readers_refuse(tmp_path: Path, text: bytes, told: str) -> None:
    """As tools/conform does, and before a program is made."""
    path = tmp_path / "a.case"
    path.write_bytes(text)
    ran = command_on(path)
    assert (ran.returncode, ran.stdout, ran.stderr) == (2, "", f"{path}:{told}\n")
    assert run_tool("conform", path).stderr == f"conform: {path}:{told}\n"


@pytest.mark.parametrize("name", ["none.rows", "none.case"])
def test_a_file_that_is_absent(tmp_path: Path, name: str) -> None:
    ran = command_on(tmp_path / name)
    assert (ran.returncode, ran.stdout) == (2, "")
    assert ran.stderr == f"cases: {tmp_path}/{name}: No such file or directory\n"


def command_on(path: Path) -> subprocess.CompletedProcess[str]:
    """Runs dev/cases on a file where there is no rt."""
    environment = {**os.environ, "PATH": "/usr/bin:/bin"}
    return subprocess.run([f"{TOP}/dev/cases", path], env=environment, capture_output=True, encoding="utf-8",
                          timeout=PATIENCE, check=False)
