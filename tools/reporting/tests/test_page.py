"""The page as a text: what a payload may spell, what it needs, and which jobs it has."""
import json
import re
import unittest
from html.parser import HTMLParser
from typing import Any
from unittest import mock

from history_texts import RUN, offer, read, text_of
from reporting.figures import figures_of
from reporting.page import page
from reporting.tests.support import figures

HOSTILE = [
    "<script>alert(1)</script>", "</script><script>alert(2)</script>", "<!--<script>", "-->", "]]>",
    '"><img/src=x/onerror=alert(3)>', "'onload='alert(4)", "&lt;b&gt;", "&amp;", "\\u003c/script\\u003e",
    "</style>", "</title>",
]


class Outline(HTMLParser):
    """The elements of a page, with their attributes and the text of each kind."""

    def __init__(self, text: str) -> None:
        super().__init__(convert_charrefs=True)
        self.tags: list[tuple[str, dict[str, str | None]]] = []
        self.texts: dict[str, list[str]] = {}
        self._open = ""
        self.feed(text)
        self.close()

    def handle_starttag(self, tag: str, attrs: list[tuple[str, str | None]]) -> None:
        self.tags.append((tag, dict(attrs)))
        self._open = tag
        self.texts.setdefault(tag, []).append("")

    def handle_data(self, data: str) -> None:
        if self._open:
            self.texts[self._open][-1] += data

    def handle_endtag(self, tag: str) -> None:
        self._open = ""

    def count(self, tag: str) -> int:
        return sum(name == tag for name, _ in self.tags)


def page_of(*events: str) -> str:
    return page(figures(text_of(*events)))


def lives_in(text: str) -> dict[str, list[Any]]:
    found = re.search(r'<script type="application/json" id="lives">(.*?)</script>', text, re.S)
    lives: dict[str, list[Any]] = json.loads(found[1])["jobs"] if found else {}
    return lives


def hostile_text() -> str:
    lines = [offer(place, 0, payload) for place, payload in enumerate(HOSTILE)]
    return text_of(*lines, f"1 9 9 drain 64 {' '.join(map(str, range(len(HOSTILE))))}")


class PageTest(unittest.TestCase):
    def test_payloads_stay_text(self) -> None:
        text = page(figures(hostile_text()))
        outline = Outline(text)
        counts = {tag: outline.count(tag) for tag in ("script", "style", "title", "img", "b")}
        self.assertEqual(counts, {"script": 2, "style": 1, "title": 1, "img": 0, "b": 0})
        self.assertEqual(outline.texts["code"], HOSTILE)
        self.assertEqual([job[0] for job in lives_in(text).values()], HOSTILE)
        handlers = [name for _, attributes in outline.tags for name in attributes if name.startswith("on")]
        self.assertEqual(handlers, [])
        name = page(figures_of("</title><img src=x>\udcff&", read(RUN)))
        self.assertEqual(Outline(name).count("img"), 0)

    def test_it_needs_nothing_else_and_no_script_but_its_own_may_run(self) -> None:
        tags = Outline(page(figures(RUN))).tags
        self.assertEqual([name for _, attributes in tags for name in attributes if name == "src"], [])
        policy = next(told["content"] for tag, told in tags if tag == "meta" and "http-equiv" in told)
        self.assertIn("default-src 'none'", policy or "")
        self.assertNotIn("unsafe", policy or "")

    def test_the_lives_of_jobs(self) -> None:
        lives = lives_in(page(figures(RUN)))
        self.assertEqual(set(lives), {"0", "1", "3"})
        self.assertEqual(lives["3"], ["c", "100", [
            ["1", "3", "100", "1", "100", "120", "2", "take", "20 ns"],
            ["2", "4", "160", "1", "300", "310", "1", "drain", "10 ns"]]])
        self.assertEqual(lives["1"][2], [["2", "2", "before", "", "150", "170", "2", "pollfor", "20 ns"]])
        # Numbers that a browser can't tell exactly are text.
        self.assertEqual(lives_in(page_of(offer(0, 2**64 - 1)))["0"][1], str(2**64 - 1))

    def test_of_many_jobs_it_has_some_and_says_which(self) -> None:
        lines = [offer(id, 0) for id in range(50)] + ["1 9 9 poll 40", "1 9 9 offer 50 9 40 0 2 a"]
        with mock.patch("reporting.page.MOST_ELEMENTS", 10):
            text = page_of(*lines)
        lives = lives_in(text)
        self.assertIn("40", lives)
        self.assertLessEqual(sum(len(job[2]) for job in lives.values()), 10)
        self.assertIn(f"the lives of {len(lives)} of 50 jobs", text)
        self.assertIn("The command with --job prints any other.", text)

    def test_a_job_of_too_many_elements_leaves_room_for_others(self) -> None:
        lines = [f"1 0 0 offer {id} 0 0 0 1 a" for id in range(11)] + [offer(11, 0)]
        with mock.patch("reporting.page.MOST_ELEMENTS", 10):
            self.assertEqual(list(lives_in(page_of(*lines))), ["11"])
