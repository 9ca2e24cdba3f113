"""What the program and tools/verify say of the histories of a queue."""
from __future__ import annotations

import os
import subprocess
from pathlib import Path

from checking.testing import run_tool
from verifying.tests.support import counts_in

PROGRAM = os.environ.get("RB_BROKER_PROGRAM", "")


def faults_in(*words: object) -> tuple[dict[str, int], str]:
    """How many faults of which kinds tools/verify finds, and what it says."""
    ran = run_tool("verify", *words)
    assert ran.returncode in (0, 1), ran.stderr
    return counts_in(ran.stdout), ran.stdout


def replay_chains(path: Path, delay: int, attempts: int) -> int:
    """Lets the program replay a history with its retries, which it must accept. The number of its events."""
    words = [PROGRAM, "replay", path, "--chains", "--delay", str(delay), "--attempts", str(attempts)]
    ran = subprocess.run(words, capture_output=True, text=True, check=False)
    assert (ran.returncode, ran.stderr) == (0, ""), f"{path}: {ran.stdout}{ran.stderr}"
    return int(ran.stdout.partition('"calls":')[2].partition(",")[0])
