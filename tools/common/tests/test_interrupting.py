"""What a tool shows if Ctrl-C or a fault ends it while it is being imported."""
import os
import signal
import subprocess
import sys
from pathlib import Path

import pytest

from common.program import TOP

TOOLS = sorted(str(it.relative_to(TOP)) for it in Path(TOP, "tools").iterdir() if it.is_file())


def ended(tool: str, room: Path, raises: str) -> tuple[int, str]:
    """The status and standard error of a command that finds another argparse, which raises this."""
    (room / "argparse.py").write_text(f"raise {raises}\n", "ascii")
    ran = subprocess.run([sys.executable, "-B", f"{TOP}/{tool}"], env={**os.environ, "PYTHONPATH": str(room)},
                         capture_output=True, encoding="utf-8", check=False)
    return ran.returncode, ran.stderr


@pytest.mark.parametrize("tool", [*TOOLS, "dev/check", "dev/test"])
def test_ctrl_c_shows_nothing(tmp_path: Path, tool: str) -> None:
    assert ended(tool, tmp_path, "KeyboardInterrupt") == (-signal.SIGINT, "")


def test_a_fault_shows_its_traceback(tmp_path: Path) -> None:
    status, errors = ended("tools/load", tmp_path, "ValueError('it')")
    assert status == 1 and errors.startswith("Traceback ") and errors.endswith("\nValueError: it\n")
