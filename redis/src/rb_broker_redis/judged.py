"""The history that a command is given, which the program judges where there is one."""
from __future__ import annotations

import shutil
import subprocess
from pathlib import Path

from rb_broker_formats.faults import BadCompression
from rb_broker_formats.queue import LegalQueue, read_queue

from .ending import Failed


class Refused(Failed):
    """The program refuses it, or it can't be read as a compressed one."""


def read_judged(path: Path) -> LegalQueue:
    """The queue at the end of a history, once `rb_broker replay` has judged its text too, if that is on the path and the
    text not compressed."""
    program = shutil.which("rb_broker")
    if program and path.suffix != ".gz":
        ran = subprocess.run([program, "replay", path], capture_output=True, text=True, check=False)
        if ran.returncode == 1:
            raise Refused(f"{path}: rb_broker replay: {ran.stdout.strip()}")
    try:
        return read_queue(path)
    except BadCompression as fault:
        raise Refused(f"{path}: it is {fault.strerror}") from None
