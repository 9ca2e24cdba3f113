"""The types of the tools, of dev, and of their tests, as mypy.ini has them."""
import os
import subprocess
import sys
from pathlib import Path

import pytest

from common.program import TOP

PLACES = [path for folder in ("dev", "tools") for path in sorted(Path(TOP, folder).iterdir())]
SOURCES = [str(path) for path in PLACES if path.suffix == ".py" or (path / "__init__.py").exists()]
COMMANDS = [str(path) for path in PLACES if path.is_file() and os.access(path, os.X_OK)]


@pytest.mark.parametrize("paths", [SOURCES, COMMANDS], ids=["sources", "commands"])
def test_each_type_is_right(paths: list[str]) -> None:
    pytest.importorskip("mypy")
    words = [sys.executable, "-m", "mypy", "--cache-dir", os.devnull, *paths]
    ran = subprocess.run(words, cwd=TOP, capture_output=True, text=True, check=False)
    assert ran.returncode == 0, ran.stdout
