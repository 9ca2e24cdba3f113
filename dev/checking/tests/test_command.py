"""dev/check as a command: one part or several, its refusals, skipped tests, and what a signal leaves."""
import os
import re
import signal
import subprocess
import sys
import time
from pathlib import Path

import pytest
from typing import Any

from checking.parts import Part
from checking.testing import PATIENCE
from common.program import TOP

CHECK = [sys.executable, "-B", f"{TOP}/dev/check"]


def check(room: Path, *words: str, **settings: str) -> subprocess.CompletedProcess[str]:
    environment = {**os.environ, "TMPDIR": str(room), **settings}
    how: dict[str, Any] = {"capture_output": True, "text": True, "timeout": PATIENCE, "env": environment}
    return subprocess.run([*CHECK, *words], check=False, **how)


def test_one_part(tmp_path: Path) -> None:
    ran = check(tmp_path, "tools", "--only", "columns")
    assert (ran.returncode, ran.stderr) == (0, ""), ran.stdout
    assert re.search(r"^\d+ passed.* in \S+s\n\Z", ran.stdout, re.M) and os.listdir(tmp_path) == []


def test_several_parts_of_which_one_fails(tmp_path: Path) -> None:
    ran = check(tmp_path, "docs", "tools", "--only", "way")
    assert (ran.returncode, ran.stderr) == (1, ""), ran.stdout
    assert re.search(r"^docs: passed, \d+ s: \d+ passed", ran.stdout, re.M)
    assert re.search(r"^tools: FAILED with status 1(?: while .*?)?, \d+ s: \d+ deselected", ran.stdout, re.M)
    assert ran.stdout.splitlines()[-1] == "1 parts passed, 1 failed"


@pytest.mark.parametrize(("words", "said"), [
    (["docs", "no-such-part"], "no part is named no-such-part"),
    (["program", "--program", "/nowhere/none"], "/nowhere/none is no command\n"),
    (["program", "--program", sys.executable, "--unproved"], "not allowed with argument --program\n"),
])
def test_words_that_are_refused(tmp_path: Path, words: list[str], said: str) -> None:
    ran = check(tmp_path, *words)
    assert (ran.returncode, ran.stdout) == (2, "") and said in ran.stderr


def test_a_command_that_is_missing(tmp_path: Path) -> None:
    ran = check(tmp_path, "worker", "--program", sys.executable, PATH=str(tmp_path))
    said = "check: there is no perl on the path, which worker needs\n"
    assert (ran.returncode, ran.stdout, ran.stderr) == (2, "", said)


@pytest.mark.parametrize(("allowed", "status"), [([], 0), (["--may-skip", ""], 1), (["--may-skip", "no .*|x"], 0)])
def test_a_test_that_is_skipped(tmp_path: Path, allowed: list[str], status: int) -> None:
    file = tmp_path / "test_moon.py"
    file.write_text("import pytest\ndef test_moon(): pytest.skip('no moon')\ndef test_sun(): pass\n")
    words = [sys.executable, "-B", "-m", "pytest", "-c", f"{TOP}/pytest.ini", "-p", "conftest", *allowed, file]
    environment = {**os.environ, "PYTHONPATH": f"{TOP}:{TOP}/tools:{TOP}/dev"}
    ran = subprocess.run(words, cwd=TOP, env=environment, capture_output=True, text=True, check=False)
    assert (ran.returncode, "no moon" in ran.stdout) == (status, True), ran.stdout


def test_no_byte_code_is_written(tmp_path: Path, monkeypatch: pytest.MonkeyPatch) -> None:
    """Neither by pytest nor by the processes among which it deals tests, whatever this one was told."""
    monkeypatch.delenv("PYTHONDONTWRITEBYTECODE", raising=False)
    (tmp_path / "moon.py").write_text("")
    (tmp_path / "test_moon.py").write_text("import moon\ndef test_it(): assert moon\n")
    for at_once in (1, 2):
        part = Part("the moon", [str(tmp_path / "test_moon.py")], at_once=at_once)
        assert part.run([], is_strict=False)
    assert not (tmp_path / "__pycache__").exists()


def processes_in(room: Path) -> list[str]:
    """The processes whose folder for temporary files is below this one."""
    found = []
    for process in Path("/proc").glob("[0-9]*"):
        try:
            found += [process.name] if f"TMPDIR={room}/".encode() in (process / "environ").read_bytes() else []
        except OSError:
            continue  # it has ended, or is another user's
    return found


@pytest.mark.parametrize("parts", [["verify"], ["docs", "tools"]])
def test_a_signal_leaves_neither_a_process_nor_a_file(tmp_path: Path, parts: list[str]) -> None:
    environment = {**os.environ, "TMPDIR": str(tmp_path), "RB_BROKER_AT_ONCE": "2"}
    with subprocess.Popen([*CHECK, *parts, "--program", sys.executable], stdout=subprocess.PIPE, stderr=subprocess.PIPE,
                          text=True, env=environment) as process:
        until = time.monotonic() + PATIENCE
        while len(processes_in(tmp_path)) < 2 and time.monotonic() < until:
            time.sleep(0.05)
        process.send_signal(signal.SIGTERM)
        _, said = process.communicate(timeout=PATIENCE)
    assert (process.returncode, said.splitlines()[-1]) == (128 + 15, "check: it was broken off")
    assert processes_in(tmp_path) == [] and os.listdir(tmp_path) == []
