"""Runs commands to their end."""
import os
import subprocess
from typing import NamedTuple

PATIENCE = 300  # seconds, for anything that ends by itself


class Told(NamedTuple):
    """The result of a command: its exit status, and what it wrote to standard output and standard error."""

    status: int
    said: str
    errors: str


DONE = Told(0, "", "")


def run(*words: str, folder: str = ".") -> Told:
    """Runs a command in a folder, with no input."""
    # dpkg asks for commands of the administrator, which a user's path leaves out.
    path = f"{os.environ.get('PATH', '/usr/bin:/bin')}:/usr/sbin:/sbin"
    environment = {**os.environ, "PATH": path, "LC_ALL": "C.UTF-8", "MANWIDTH": "100"}
    done = subprocess.run(words, cwd=folder, env=environment, stdin=subprocess.DEVNULL, capture_output=True,
                          encoding="utf-8", errors="replace", timeout=PATIENCE, check=False)
    return Told(done.returncode, done.stdout, done.stderr)
