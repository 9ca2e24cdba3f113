"""A program that speaks the protocol almost correctly: python3 wrong_broker.py FLAW PROGRAM WORD ..

It runs `PROGRAM WORD ..` on its own standard input and passes on its output and its exit status, changed as the flaw
says. tools/conform must find each flaw except `no flaw`.
"""
import os
import re
import signal
import subprocess
import sys
from collections.abc import Callable
from pathlib import Path

Change = Callable[[bytes], bytes]

# What becomes of a line of standard output.
LINES: dict[str, Change] = {
    "a wait ends with NONE": lambda line: line.replace(b"STOPPED", b"NONE"),
    "attempts are not counted": lambda line: re.sub(rb"^(ITEM \d+ \d+) \d+ ", rb"\1 1 ", line),
    "lines end with CR LF": lambda line: line.replace(b"\n", b"\r\n"),
    "no BYE": lambda line: b"" if line == b"BYE\n" else line,
    "the last line has no end": lambda line: line.rstrip(b"\n") if line == b"BYE\n" else line,
    "refused events count from 1": lambda line: re.sub(rb"^refused 1 ", b"refused 2 ", line),
}

# What becomes of the history.
HISTORIES: dict[str, Change] = {
    "the history is empty": lambda text: b"", "a history has no end": lambda text: text[:-1]}


def main() -> int:
    """Runs the program, and returns the status to end with."""
    flaw, *command = sys.argv[1:]
    errors = subprocess.DEVNULL if flaw == "the fault is not told" else None
    process = subprocess.Popen(command, stdout=subprocess.PIPE, stderr=errors)
    assert process.stdout
    change = LINES.get(flaw, lambda line: line)
    try:
        for line in process.stdout:  # each as it comes
            os.write(1, change(line))
    except BrokenPipeError:
        pass
    process.stdout.close()  # since its own is closed
    status = process.wait()
    if flaw in HISTORIES and "--history" in command:
        history = Path(command[command.index("--history") + 1])
        history.write_bytes(HISTORIES[flaw](history.read_bytes()))
    return 0 if flaw == "the status is 0" else status


if __name__ == "__main__":
    signal.signal(signal.SIGINT, signal.SIG_DFL)
    sys.exit(main())
