"""The page in a browser: it opens without complaint, its plots tell their values, a job is found, and payloads are
text."""
from typing import Any

from history_texts import RUN, offer, text_of
from reporting.tests.support import ReportPageTest
from reporting.tests.test_page import HOSTILE, hostile_text

ANSWER = "document.getElementById('answer').textContent"
LIFE = "[...document.querySelectorAll('#life tbody tr')].map((row) => [...row.cells].map((cell) => cell.textContent))"
READING = "[...document.querySelectorAll('#plot-depth .reading')].map((it) => it.hidden ? null : it.textContent)"


class BrowserTest(ReportPageTest):
    def show(self, text: str, job: str = "") -> None:
        """Opens the page of a history, at a job if one is named."""
        # A page of its own: to go to another job of the page that is shown loads nothing.
        page = self.page(self._testMethodName, [text])
        self.browser.go(page + (f"#job={job}" if job else ""))

    def told(self, selector: str, what: str = "textContent") -> Any:
        """What the page says at a place, or whether it is hidden and the like."""
        return self.browser.value(f"document.querySelector(`{selector}`).{what}")

    def look_up(self, word: str) -> str:
        """Types an origin or a payload into the box. What the page answers."""
        self.browser.value("document.getElementById('word').value = ''; document.getElementById('word').focus()")
        self.browser.type(word)
        return str(self.told("#answer"))

    def test_jobs_are_found_by_origin_or_payload(self) -> None:
        self.show(RUN)
        self.assertTrue(self.told("#life", "hidden"))
        for word in ("3", "c"):
            self.assertEqual(self.look_up(word), "Job 3, payload c, first expiry 100, 2 elements")
            self.assertEqual(self.browser.value(LIFE), [
                ["1", "3", "100", "1", "100", "120", "2", "take", "20 ns"],
                ["2", "4", "160", "1", "300", "310", "1", "drain", "10 ns"],
            ])
        self.look_up("1")
        self.assertEqual(self.browser.value(LIFE), [["2", "2", "before", "", "150", "170", "2", "pollfor", "20 ns"]])
        for word in ("7", "constructor", "__proto__", "<b>", ""):
            self.assertEqual(self.look_up(word), f"No job of origin or payload {word} is on this page.")
            self.assertTrue(self.told("#life", "hidden"))

    def test_several_jobs_of_a_payload(self) -> None:
        self.show(text_of(*[offer(id, 0, payload) for id, payload in enumerate(["mail", "bill", "mail", "0"])]))
        for word, origins in (("mail", "0 2"), ("0", "0 3")):
            self.assertEqual(self.look_up(word), f"Jobs of origin or payload {word}: {origins}")
            self.assertTrue(self.told("#life", "hidden"))
        self.told("#answer a:last-child", "click()")
        self.shows(ANSWER, "Job 3, payload 0, first expiry 0, 1 element")

    def test_the_value_under_the_pointer_and_at_the_keyboard(self) -> None:
        self.show(RUN)
        left, top, width, _ = self.place("#plot-depth .axis")
        for moment, says in ((150, "50 ns\n1 in the queue\n1 of these expired"),
                             (165, "65 ns\n2 in the queue\n1 of these expired"), (60, None)):
            self.browser.point(left + width * (moment + 0.5 - 100) / 211, top - 90)
            self.shows(READING, [says])
        told = [says for _, says in self.browser.value("told.readings.depth")]
        self.browser.value("document.querySelector('h1').tabIndex = -1; document.querySelector('h1').focus()")
        self.browser.press("Tab")
        for key, place in (("Home", 0), ("ArrowLeft", 0), ("ArrowRight", 1), ("ArrowRight", 2), ("ArrowLeft", 1),
                           ("End", -1), ("ArrowRight", -1)):
            self.browser.press(key)
            self.shows(READING, [told[place]])
            spoken = self.browser.value("document.activeElement.getAttribute('aria-valuetext')")
            self.assertEqual(spoken, told[place].replace("\n", ", "))
        self.browser.press("Tab")
        self.shows(READING, [None])
        self.shows("document.activeElement.id", "plot-lateness")

    def test_a_link_shows_a_job(self) -> None:
        self.show(RUN, job="0")
        self.assertIn("payload a", self.told("#answer"))
        self.told('a[href="#job=3"]', "click()")
        self.shows(f"{ANSWER}.slice(0, 16)", "Job 3, payload c")

    def test_payloads_stay_text(self) -> None:
        self.show(hostile_text())
        shown = self.browser.value("[...document.querySelectorAll('code')].map((it) => it.textContent)")
        self.assertEqual(shown, HOSTILE)
        for origin, payload in enumerate(HOSTILE):
            self.assertEqual(self.look_up(str(origin)), f"Job {origin}, payload {payload}, first expiry 0, 1 element")
        self.assertEqual(self.browser.value("[document.scripts.length, document.images.length]"), [2, 0])

    def test_a_script_in_the_page_would_not_run(self) -> None:
        """What the page's policy is for: even markup that got through is not run."""
        self.show(RUN)
        self.browser.value("document.body.insertAdjacentHTML('beforeend', '<img src=x onerror=\"document.title=1\">')")
        self.browser.value("document.body.appendChild(document.createElement('script')).text = 'document.title = 2'")
        self.assertEqual(self.browser.value("document.title"), "run.txt: report")
        self.assertNotEqual(self.browser.complaints, [])
        self.browser.complaints.clear()
