#!/usr/bin/env python3
"""Makes docs/report.png, the picture of a report's page: tools/reporting/tests/make_picture.py [--program PATH]

The run is an hour of reminders, which the program served as a script: some 60 a minute, due after one to ten minutes,
one in 25 of which fails and comes back, and for three minutes nobody takes them. The life of a job with three attempts
is shown, on a page of 1100 pixels in light colors. All follows from a seed, so the picture changes only with the page,
or with the fonts. It needs chromium on the path, and pngquant to make the file a third as large.
"""
import argparse
import random
import shutil
import subprocess
import sys
import tempfile
from pathlib import Path

TOP = Path(__file__).resolve().parents[3]
sys.path[:0] = [f"{TOP}/tools", f"{TOP}/dev"]

import common.paths  # noqa: E402, F401
from common.program import add_program_option, built_program  # noqa: E402
from reporting.tests.browser import Browser  # noqa: E402

WIDTH = 1100
BEGAN = "2026-11-26T08:00:00Z"
SECOND = 10**9
HOUR, MINUTE = 3600, 60  # in seconds
STALL = range(34 * MINUTE, 37 * MINUTE)
WORDS = ["script", "--calls", "20000", "--delay", str(30 * SECOND), "--attempts", "20", "--history", "run.txt"]


def hour_of_reminders(program: str, room: str) -> None:
    """Lets the program serve the hour, and leaves its history in a folder."""
    chance = random.Random(90)
    with subprocess.Popen([program, *WORDS], cwd=room, stdin=subprocess.PIPE, stdout=subprocess.PIPE, text=True) as run:
        def ask(request: str) -> list[str]:
            print(request, file=run.stdin, flush=True)
            return run.stdout.readline().split()  # type: ignore[union-attr]

        number = 0
        for second in range(HOUR):
            ask(f"AT {second * SECOND + chance.randrange(SECOND)}")
            while chance.random() < 0.5:
                number += 1
                ask(f"OFFER {int(chance.triangular(1, 10, 2) * MINUTE * SECOND)} reminder-{number}")
            while second not in STALL and (job := ask("POLL"))[0] == "ITEM":
                ask(f"{'FAIL' if chance.random() < 0.04 else 'DONE'} {job[1]}")
        ask("QUIT")


def picture(program: str, room: str) -> bytes:
    """Makes the history and its page in a folder, and takes a picture of the whole page."""
    hour_of_reminders(program, room)
    words = [sys.executable, f"{TOP}/tools/report", "run.txt", "--began", BEGAN, "--html", "page.html"]
    subprocess.run(words, cwd=room, stdout=subprocess.DEVNULL, check=True)
    browser = Browser("chromium", room)
    try:
        browser.prefer("light")
        browser.go(f"file://{room}/page.html")
        browser.value("document.querySelector('code').closest('tr').querySelector('a').click()")
        browser.resize(WIDTH, 800)
        return browser.picture(WIDTH, int(browser.value("document.documentElement.scrollHeight")))
    finally:
        browser.end()


if __name__ == "__main__":
    parser = argparse.ArgumentParser("make_picture.py")
    add_program_option(parser, "the program that serves the run")
    given = built_program(parser.parse_args().program)
    with tempfile.TemporaryDirectory(prefix="rb-picture-") as folder:
        made = picture(given, folder)
    if shutil.which("pngquant"):
        made = subprocess.run(["pngquant", "64", "-"], input=made, stdout=subprocess.PIPE, check=True).stdout
    Path(TOP, "docs/report.png").write_bytes(made)
