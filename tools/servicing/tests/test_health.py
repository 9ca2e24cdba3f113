"""Alerts of what keeps jobs from getting out, by what is seen of clients that were made by hand."""
import time
import unittest
from unittest import mock

from servicing import state as served
from servicing.looking import Looks
from servicing.settings import parser, settings_of
from servicing.session import OwnSession
from servicing.publisher import Publisher
from servicing.connections import Connection
from servicing.state import Alert, Board, Phase, Queue
from servicing.tests.support import AT, connection, record, state
from rb_broker_redis.watching.units import SECOND


class HealthTest(unittest.TestCase):
    def setUp(self) -> None:
        runs = mock.Mock(lost=(0, 0), unacknowledged=(0, 0), **{"past.return_value": ()})
        runs.folder.id = "abc"
        self.board = Board(1)
        words = parser("").parse_args(["--workers", "2"])
        self.publisher = Publisher(settings_of(words, "program"), runs, self.board)
        self.publisher.looks = self.looks = Looks(OwnSession(1), record(), 2)

    def alerts(self, *clients: Connection, queue: Queue | None = None) -> list[str]:
        self.looks.see([*clients])
        self.looks.queue = queue
        self.publisher.show()
        return [it.name for it in self.board.state.alerts]

    def test_all_workers_are_silent(self) -> None:
        """That is no harm unless somebody waits, or a job does."""
        silent, unread = connection(1, heard=20_000, told=19_000), connection(2, send_queue=9, told=2000)
        gone, busy = connection(3, has_hung_up=True), connection(4, heard=10, told=20_000)
        waits = connection(5, is_served=False, told=2000)
        late, due = Queue(time.time(), 1, 11.0), Queue(time.time(), 1, 1.0)
        for wanted, clients, queue in (
            ([], (silent, unread), None), (["all-silent"], (silent, unread, waits), None),
            (["all-silent"], (silent, gone, waits), None), ([], (silent, busy, waits), None),
            ([], (silent, waits), None), (["all-silent"], (silent, unread), late), ([], (silent, unread), due),
            ([], (silent, busy), late),
            (["all-silent"], (silent, unread), Queue(time.time() - 30, 1, -1.0)),  # it is late meanwhile
            ([], (silent, unread), Queue(time.time() - 30, 0, 0.0)),
        ):
            self.assertEqual(self.alerts(*clients, queue=queue), wanted)

    def test_looks_that_get_no_turn(self) -> None:
        for seconds, wanted in ((59, []), (61, ["no-turn"])):
            self.looks.own._since = time.monotonic() - seconds
            self.assertEqual(self.alerts(), wanted)

    def test_closed(self) -> None:
        """From the end of one run to the beginning of the next."""
        with mock.patch.object(served, "CLOSED", 0.2):
            for phase in (Phase.ENDING, Phase.BETWEEN):
                self.publisher.enter(phase)
                time.sleep(0.15)
            it = self.board.state
            self.assertEqual(([it.name for it in it.alerts], it.is_healthy), (["closed"], False))
            self.publisher.enter(Phase.SERVING)
            self.assertEqual(self.alerts(), [])
        closed = (Alert("closed", "no new client is served", AT),)
        for phase, is_healthy in ((Phase.ENDING, True), (Phase.BETWEEN, False)):  # clients that are served go on
            self.assertEqual(state(phase=phase, alerts=closed).is_healthy, is_healthy)
            self.assertTrue(state(phase=phase).is_healthy)

    def test_silent_clients_are_ended_unless_another_time_is_said(self) -> None:
        for words, minutes in (([], 10), (["--silent", "1h"], 60)):
            self.assertEqual(settings_of(parser("").parse_args(words), "program").silent, minutes * 60 * SECOND)
