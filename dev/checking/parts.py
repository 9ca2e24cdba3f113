"""The parts of dev/check: what each tries, and how."""
import os
import subprocess
import sys
import tomllib
from dataclasses import dataclass
from importlib.util import find_spec
from pathlib import Path
from typing import Iterable, Sequence

from common.program import TOP

PROCESSORS = os.cpu_count() or 1
DEBIANS_PYTHON = "/usr/bin/python3"  # which has pytest and the other packages, whichever is first on the path
PATIENCE = 3_000  # seconds that a test may take, unless only some are tried


@dataclass(frozen=True)
class Part:
    """A part, as parts.toml has it."""

    tries: str
    tests: Sequence[str]
    needs: Sequence[str] = ()
    packages: str = ""
    at_once: int = 1
    by_test: bool = False
    runs_program: bool = True
    is_long: bool = False
    is_alone: bool = False
    may_skip: Sequence[str] = ()

    def run(self, only: Sequence[str], is_strict: bool) -> bool:
        """Tries what has one of these words in its name, or all, and returns whether all passed. If this is strict, no
        test may be skipped but for a reason that the part allows."""
        sys.stdout.flush()
        settings = {**os.environ, "PYTHONDONTWRITEBYTECODE": "1"}  # also of the processes among which pytest deals tests
        return subprocess.run(self.command(only, is_strict), cwd=TOP, env=settings, check=False).returncode == 0

    def command(self, only: Sequence[str] = (), is_strict: bool = False) -> list[str]:
        """The command of pytest that tries it."""
        words = [python_with_pytest(), "-B", "-m", "pytest", *self.tests]
        at_once = int(os.environ.get("RB_BROKER_AT_ONCE") or self.at_once or PROCESSORS)
        if self.at_once != 1 and at_once > 1:
            words += ["-n", str(at_once), "--dist", "load" if self.by_test else "loadscope"]
        words += ["-k", " or ".join(only), "--timeout", "0"] if only else ["--timeout", str(PATIENCE)]
        return words + ["--may-skip", "|".join(self.may_skip)] if is_strict else words


def python_with_pytest() -> str:
    """This Python, or Debian's if only that has pytest."""
    return sys.executable if find_spec("pytest") or not os.access(DEBIANS_PYTHON, os.X_OK) else DEBIANS_PYTHON


with Path(__file__).with_suffix(".toml").open("rb") as file:
    TABLE = tomllib.load(file)
PARTS = {name: Part(**told) for name, told in TABLE["part"].items()}


def packages_of(names: Iterable[str]) -> list[str]:
    """Debian's packages for all of these parts."""
    told = [TABLE["packages"], *(PARTS[name].packages for name in names)]
    return sorted({package for packages in told for package in packages.split()})
