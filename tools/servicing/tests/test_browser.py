"""The page in a browser, which asks a server of this process for states that were written by hand."""
import dataclasses
from typing import Any

from reporting.tests.support import PageTest
from servicing.texts import attention, headline, since, tables
from servicing.endpoints import answer_of
from servicing.state import Alert, Board, Phase, Queue, Reason, State
from servicing.tests.support import AT, HELD, connection, first_state, state, troubled_state
from rb_broker_redis.watching.http import HttpServer

STATE, TITLE = "document.querySelector('#state').textContent", "document.title"
# All that the page shows.
SEEN = """(() => {
    const texts = (parts) => [...parts].map((it) => it.textContent);
    return [document.title, document.getElementById('state').textContent,
        texts(document.querySelectorAll('#attention p')),
        [...document.querySelectorAll('main table')].map((it) => [...it.tBodies[0].rows].map((row) =>
            texts(row.cells)))];
})()"""

HOSTILE = "<img/src=x/onerror=document.title=1>"


def seen(state: State) -> list[Any]:
    """What the page has to show of a state."""
    rows = [[[*row] for row in it.rows] for it in tables(state)]
    return [f"{headline(state)}: rb_broker 7011", since(state), attention(state) or ["Nothing."], rows]


class ServedTest(PageTest):
    def setUp(self) -> None:
        self.board = Board(7011)
        self.browser.go("about:blank")  # or the page of the test before asks a server that is gone
        self.browser.complaints.clear()
        self.browser.resize(1200, 900)
        self.begin(0)

    def tearDown(self) -> None:
        self.stop()
        self.browser.go("about:blank")
        self.assertEqual(self.browser.complaints, [])

    def begin(self, port: int) -> None:
        self.server = HttpServer(("127.0.0.1", port), lambda path: answer_of(self.board, "/nowhere", path))

    def stop(self) -> None:
        self.server.shutdown()
        self.server.server_close()

    def show(self, state: State) -> None:
        """Opens the page of a service in this state."""
        self.board.put(state)
        self.browser.go(f"http://127.0.0.1:{self.server.server_address[1]}/")

    def test_what_it_shows_without_being_loaded_again(self) -> None:
        """What stays the same stays in its place, so that whoever reads or selects is not disturbed."""
        self.show(first_state())
        self.browser.value("window.mark = 1; null")
        self.shows(SEEN, seen(first_state()))
        waiting = tuple(connection(40_000 + it, is_served=False) for it in range(130))
        for it in (state(), troubled_state(), state(clients=waiting), state()):
            self.board.put(it)
            self.shows(SEEN, seen(it))
        self.browser.value("window.mark = document.querySelector('#runs'); null")
        it = state(at=AT + 3, phase=Phase.ENDING, why=Reason.SESSIONS, queue=Queue(AT, 7, 0))
        self.board.put(it)
        self.shows(SEEN, seen(it))
        self.assertTrue(self.browser.value("window.mark === document.querySelector('#runs')"))
        asked = self.browser.value("[...new Set(performance.getEntriesByType('resource').map((it) => it.name))]")
        self.assertEqual(asked, [self.browser.value("document.location.href")], "it asks for nothing else")

    def test_a_service_that_goes_and_comes_back(self) -> None:
        self.show(state())
        before, port = seen(state()), self.server.server_address[1]
        self.stop()
        self.shows(TITLE, f"no answer: {before[0]}")
        self.assertEqual(self.browser.value(SEEN)[1:], [f"no answer; this was seen last: {before[1]}", *before[2:]])
        self.assertEqual(self.browser.value("document.body.className"), "old")
        self.begin(port)
        self.shows(SEEN, before)
        self.assertEqual(self.browser.value("document.body.className"), "")
        self.browser.complaints.clear()  # that nobody answered

    def test_texts_stay_text(self) -> None:
        it = state(waits_for=(HOSTILE,), alerts=(Alert("a", HOSTILE, AT),))
        self.show(it)
        self.assertEqual(str(self.browser.value(SEEN)).count(HOSTILE), 3)
        self.assertEqual(self.browser.value(SEEN), seen(it))
        self.assertEqual(self.browser.value("[document.images.length, document.scripts.length]"), [0, 1])
        self.assertEqual(self.browser.complaints, [])
        self.browser.value("document.body.insertAdjacentHTML('beforeend', '<img src=x onerror=\"document.title=1\">')")
        self.assertNotEqual(self.browser.value(TITLE), "1", "even markup that got through is not run")
        self.assertNotEqual(self.browser.complaints, [])
        self.browser.complaints.clear()

    def test_every_width_and_scheme(self) -> None:
        for name, it in (("usual", state()), ("first", first_state()), ("troubled", troubled_state())):
            self.show(it)
            self.assert_is_seen_well(name)
