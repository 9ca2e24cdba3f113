"""What tests of pages share: the program, and a folder with the checkout's examples in which it runs."""
import os
import subprocess
import sys
from pathlib import Path
from typing import Callable

import pytest

from common.program import TOP

PATIENCE = 120  # seconds

Ended = subprocess.CompletedProcess[str]
Run = Callable[..., Ended]


@pytest.fixture
def run(tmp_path: Path, program: str) -> Run:
    """Runs a line of the shell as a page has it, with the program that is tested and the checkout's tools."""
    os.symlink(f"{TOP}/examples", tmp_path / "examples")

    def ran(line: str, given: str = "") -> Ended:
        line = line.replace("./broker ", "rb_broker ").replace("tools/", f"{sys.executable} -B {TOP}/tools/")
        words = ["sh", "-c", f'program="{program}"; rb_broker() {{ "$program" "$@"; }}\n{line}']
        return subprocess.run(words, cwd=tmp_path, input=given, capture_output=True, timeout=PATIENCE, encoding="utf-8",
                              check=False)

    return ran
