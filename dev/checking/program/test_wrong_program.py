"""The tests of the program find what is wrong: with one that gets other words for some, exactly these tests fail."""
import re
import shlex
import subprocess
import sys
from pathlib import Path

import pytest

from common.program import TESTED

HERE = Path(__file__).parent
FILES = [HERE / f"test_{name}.py" for name in ("scripts", "faults", "served")]
# Becomes the program, which gets other words for some.
STAND_IN = """#!/bin/sh
case "$*" in
{cases}
esac
exec {program} "$@"
"""
# Words, those in their place, and the test that fails.
WRONG = [
    ("'script --calls 1'", "script --calls 2", "test_a_script[--calls 1-"),
    ("'script --timer wheel'", "script --timer list", "test_a_timer[--timer wheel-wheel]"),
    ("'scripts'", "script", "test_words_that_are_refused[scripts]"),
    ("'replay /'", "--help", "test_a_run_that_fails[replay /-"),
    ("'serve --port '*' --timer list'", 'serve --port "$3" --timer heap', "test_a_timer_of_a_server[list]"),
    ("'serve --port '*' --calls 2'", 'serve --port "$3" --calls 3', "test_a_server_that_loses_a_job"),
]


def test_what_is_wrong_is_found(tmp_path: Path, program: str, monkeypatch: pytest.MonkeyPatch) -> None:
    cases = "\n".join(f"{words}) set -- {others} ;;" for words, others, _ in WRONG)
    (tmp_path / "stand_in").write_text(STAND_IN.format(cases=cases, program=shlex.quote(program)))
    (tmp_path / "stand_in").chmod(0o700)
    monkeypatch.setenv(TESTED, str(tmp_path / "stand_in"))
    words = [sys.executable, "-B", "-m", "pytest", "--tb=no", "-rf", *FILES]
    ran = subprocess.run(words, capture_output=True, encoding="utf-8", check=False)
    failed = re.findall(r"^FAILED \S+?::(.*?)(?: - .*)?$", ran.stdout, re.M)
    assert len(failed) == len(WRONG), ran.stdout
    assert all(any(name.startswith(test) for name in failed) for _, _, test in WRONG), failed
