"""The page as it is seen: at the widths of a telephone and of screens, light and dark."""
from reporting.tests.large_histories import history
from reporting.tests.support import ReportPageTest, contrast, luminance
from reporting.tests.test_plots import backlog
from reporting.tests.test_series import RUNS

WIDTHS = (420, 800, 1200)

# Pairs of words in a drawing that touch, and words that leave their part of the page.
TOUCHING = """[...document.querySelectorAll(".drawing > svg")].flatMap((drawing) => {
    const room = drawing.closest("section").getBoundingClientRect();
    const words = [...drawing.querySelectorAll("text")].filter((it) => getComputedStyle(it).display !== "none")
        .map((it) => [it.textContent, it.getBoundingClientRect()]);
    const outside = words.filter(([, it]) => it.left < room.left || it.right > room.right).map(([text]) => [text]);
    return [...outside, ...words.flatMap(([text, one], place) => words.slice(place + 1)
        .filter(([, other]) => one.left < other.right && other.left < one.right
            && one.top < other.bottom && other.top < one.bottom)
        .map(([other]) => [text, other]))];
})"""

# The least height of words in a drawing that are shown, and how many there are.
WORDS = """(() => {
    const words = [...document.querySelectorAll(".drawing text")].filter((it) =>
        getComputedStyle(it).display !== "none");
    return [Math.min(...words.map((it) => it.getBoundingClientRect().height)), words.length];
})()"""

# What has a color: words, and marks, each with the name of its color. What lies behind them is a plot's.
WORDS_OF_PAGE = [("h2", "color"), (".note", "color"), ("td a", "color"), ("svg text.x", "fill"), ("input", "color"),
                 (".reading", "color")]
MARKS = [(mark, "stroke") for mark in (".line.standing", ".line.expired", ".line.median", ".cursor")]


class SightTest(ReportPageTest):
    pages: dict[str, str]

    @classmethod
    def setUpClass(cls) -> None:
        super().setUpClass()
        cls.pages = {"made": cls.page("made", ["".join(history("busy", 30_000))]),
                     "backlog": cls.page("backlog", [backlog()], "--began", "2026-11-26T08:00:00Z"),
                     "series": cls.page("series", RUNS, "--began", "@1795680000", "--attempts", "3")}

    def color(self, selector: str, name: str) -> str:
        return str(self.browser.value(f"getComputedStyle(document.querySelector('{selector}'))['{name}']"))

    def test_labels_at_every_width(self) -> None:
        for name, page in self.pages.items():
            self.browser.resize(WIDTHS[0], 800)
            self.browser.go(page)
            for width in WIDTHS:
                with self.subTest(page=name, width=width):
                    self.browser.resize(width, 800)
                    self.assertEqual(self.browser.value(TOUCHING), [])
                    height, words = self.browser.value(WORDS)
                    self.assertGreaterEqual(height, 10)
                    self.assertGreater(words, 12)
                    self.assertLessEqual(self.browser.value("document.documentElement.scrollWidth"), width)

    def test_colors_light_and_dark(self) -> None:
        self.browser.go(self.pages["made"])
        for scheme, is_dark in (("light", False), ("dark", True)):
            self.browser.prefer(scheme)
            behind = self.color("section.plot", "backgroundColor")
            self.assertEqual(luminance(behind) < 0.1, is_dark)
            # What WCAG 2 asks for at its level AA.
            for places, least in ((WORDS_OF_PAGE, 4.5), (MARKS, 3.0)):
                for place in places:
                    with self.subTest(scheme=scheme, place=place):
                        self.assertGreaterEqual(contrast(self.color(*place), behind), least)
