"""What the tests of the program share: a shell."""
import os
import subprocess
from pathlib import Path
from typing import Any, Callable

import pytest

# Seconds that anything may take that ends by itself: the machine may be slow, and busy with other work.
PATIENCE = 120

Ended = tuple[int, str, str]
Run = Callable[..., Ended]


@pytest.fixture
def run(tmp_path: Path, program: str) -> Run:
    """Runs a line of the shell in the test's folder, in which `rb_broker` is the program. Gives its exit status, and
    what it wrote to standard output and standard error. Words after it are settings of its environment."""

    def ran(line: str, given: str = "", **settings: object) -> Ended:
        words = ["sh", "-c", line.replace("rb_broker", '"$0"'), program]
        environment = {**os.environ, **{name: str(it) for name, it in settings.items()}}
        how: dict[str, Any] = {"cwd": tmp_path, "env": environment, "capture_output": True, "timeout": PATIENCE}
        done = subprocess.run(words, input=given.encode(), check=False, **how)
        said, errors = (text.decode(errors="backslashreplace") for text in (done.stdout, done.stderr))
        return done.returncode, said, errors

    return ran
