"""What several tests need: the figures of a text, the tool within this process or as a command, and a browser."""
import math
import re
import subprocess
import tempfile
import time
import unittest
from pathlib import Path
from typing import Any, Sequence

from checking.testing import RoomTest, call_tool, run_tool
from history_texts import read
from reporting import tests
from reporting.figures import Figures, figures_of
from reporting.tests.browser import PATIENCE, Browser

# The parts of the page that are wider than their room.
TOO_WIDE = """[document.documentElement, ...document.querySelectorAll('.scrolled, section, p, td')]
    .filter((it) => it.scrollWidth > it.clientWidth).map((it) => it.outerHTML.slice(0, 100))"""
# The colors of words, and of what lies behind them.
COLORS = """[...document.querySelectorAll('h1, h2, p, th, td, a')]
    .filter((it) => it.textContent.trim() !== '').map((it) => {
        const isClear = (node) => getComputedStyle(node).backgroundColor === 'rgba(0, 0, 0, 0)';
        let behind = it;
        while (isClear(behind)) { behind = behind.parentElement; }
        return [it.outerHTML.slice(0, 80), getComputedStyle(it).color, getComputedStyle(behind).backgroundColor];
    })"""


def luminance(color: str) -> float:
    """The relative luminance of a color such as rgb(27, 33, 40), as WCAG 2 defines it."""
    parts = [int(part) / 255 for part in color[color.index("(") + 1:-1].split(",")[:3]]
    red, green, blue = [part / 12.92 if part <= 0.04045 else math.pow((part + 0.055) / 1.055, 2.4) for part in parts]
    return 0.2126 * red + 0.7152 * green + 0.0722 * blue


def contrast(one: str, other: str) -> float:
    low, high = sorted((luminance(one), luminance(other)))
    return (high + 0.05) / (low + 0.05)


def figures(text: str, last: int | None = None) -> Figures:
    return figures_of("run.txt", read(text), last)


class ReportTest(RoomTest):
    """A test that runs tools/report within this process, with files in a folder of its own."""

    def lines(self, *words: str) -> list[str]:
        """What tools/report prints if all is well."""
        status, out, errors = call(*words)
        self.assertEqual((status, errors), (0, ""))
        return out.splitlines()

    def refused(self, status: int, *words: str) -> str:
        """What tools/report says if it prints nothing and ends with this status."""
        told = call(*words)
        self.assertEqual(told[:2], (status, ""))
        return told[2]


class PageTest(unittest.TestCase):
    """Tests in one browser, which are left out if there is none."""

    browser: Browser
    room: str

    @classmethod
    def setUpClass(cls) -> None:
        if not tests.BROWSER:
            raise unittest.SkipTest("there is no chromium on the path")
        room = tempfile.TemporaryDirectory(prefix="rb-report-")
        cls.addClassCleanup(room.cleanup)
        cls.room = room.name
        cls.browser = Browser(tests.BROWSER, cls.room)
        cls.addClassCleanup(cls.browser.end)

    def shows(self, expression: str, expected: Any) -> None:
        """Waits until the page has answered what was done, if it must."""
        end = time.monotonic() + PATIENCE
        while (told := self.browser.value(expression)) != expected and time.monotonic() < end:
            time.sleep(0.05)
        self.assertEqual(told, expected)


    def assert_is_seen_well(self, name: str) -> None:
        """On a telephone and on a screen, light and dark, nothing is wider than its room, and words have the contrast
        of WCAG 2 at its level AA."""
        for width in (420, 1200):
            self.browser.resize(width, 900)
            for scheme in ("light", "dark"):
                self.browser.prefer(scheme)
                with self.subTest(state=name, width=width, scheme=scheme):
                    self.assertEqual(self.browser.value("document.documentElement.scrollWidth"), width)
                    self.assertEqual(self.browser.value(TOO_WIDE), [])
                    body = self.browser.value("getComputedStyle(document.body).backgroundColor")
                    self.assertEqual(luminance(body) < 0.1, scheme == "dark")
                    for words, color, behind in self.browser.value(COLORS):
                        self.assertGreaterEqual(contrast(color, behind), 4.5, words)


class ReportPageTest(PageTest):
    """Tests of pages of tools/report, none of which complains."""

    def setUp(self) -> None:
        self.browser.complaints.clear()

    def tearDown(self) -> None:
        self.assertEqual(self.browser.complaints, [])

    @classmethod
    def page(cls, name: str, texts: Sequence[str], *options: str) -> str:
        """The address of the page of these runs, of which one is in the file run.txt."""
        paths = [f"{cls.room}/{f'{name}-{place}' if place else 'run'}.txt" for place in range(len(texts))]
        for path, text in zip(paths, texts):
            Path(path).write_text(text, "utf-8")
        status, _, errors = call(*paths, "--html", f"{cls.room}/{name}.html", *options)
        assert status == 0, errors
        return f"file://{cls.room}/{name}.html"

    def place(self, selector: str) -> list[float]:
        """Left, top, width and height of what a selector names, once it is in sight."""
        place: list[float] = self.browser.value(f"""(() => {{
            const it = document.querySelector('{selector}');
            it.scrollIntoView({{ block: "center" }});
            const {{ left, top, width, height }} = it.getBoundingClientRect();
            return [left, top, width, height];
        }})()""")
        return place


def counts(lines: Sequence[str]) -> list[int]:
    """How many elements a report has at the start, offered, given, removed, cleared, and left at the end."""
    return [int(number.replace(",", "")) for number in re.findall(r"(\d[\d,]*) [a-z]", lines[1])]


def call(*words: str) -> tuple[int, str, str]:
    """Runs tools/report in this process: its status, and what it prints on standard output and standard error."""
    status, out, errors = call_tool("report", *words)
    return status, out.decode(), errors


def run(*words: str, given: str = "") -> subprocess.CompletedProcess[str]:
    """Runs tools/report."""
    return run_tool("report", *words, given=given)
