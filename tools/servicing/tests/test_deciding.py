"""What the service decides, by what is known."""
import json
import unittest
from dataclasses import replace
from typing import Any, NamedTuple
from unittest import mock

from servicing.deciding import Start, how_to_start, is_to_cut, runs_to_drop, why_to_end
from servicing.folder import record_of, run_in
from servicing.settings import Keep, parser, settings_of
from servicing.state import End, Queue, Reason
from servicing.tests.support import SECOND, record

WELL, LOST = End(1000.0, Reason.TIME, 5, 2, 0, 2, 0, 0), End(1000.0, Reason.KILLED)


class Seen(NamedTuple):
    """What a service has seen of a run of 1,000 calls, and what it has to know beside. It is quiet."""

    calls: int = 0
    is_closed: bool = False
    waits: float = 0
    rate: float = 0
    served: int = 0
    elements: int = 5
    aside: int = 0
    first_aside: int = 0
    age: float = 100  # seconds

    @property
    def looks(self) -> Any:
        queue = Queue(0, self.elements, 0)
        return mock.Mock(**{**self._asdict(), "served": [None] * self.served}, queue=queue, moment=10**12)


class DecidingTest(unittest.TestCase):
    def test_how_to_start(self) -> None:
        def found(has_ended: bool, listens: bool, size: int) -> Any:
            return mock.Mock(has_ended=has_ended, listens=listens, size=size)

        going, served, ended = record(7), found(False, True, 0), found(True, True, 9)
        for wanted, last, has_history, server in (
            (Start.GO_ON, going, False, served), (Start.GO_ON, going, False, found(False, False, 0)),
            (Start.COLLECT, going, False, ended),
            (Start.COLLECT, going, False, found(True, True, 0)),  # its server was killed, which is found then
            (Start.COLLECT, going, False, found(True, False, 0)),  # it served nobody, likewise
            (Start.CONTINUE, going, True, ended),  # killed before the memory was let go
            (Start.CONTINUE, record(7, WELL), True, None), (Start.MISSING, record(7, WELL), False, None),
            (Start.AGAIN, record(7, LOST), False, None), (Start.AGAIN, record(7, LOST), False, ended),
            (Start.LOST, going, False, None),
        ):
            with self.subTest(wanted, server=server):
                self.assertEqual(how_to_start(last, has_history, server), wanted)

    def test_why_a_run_ends(self) -> None:
        """By what is different from a quiet run, which goes on."""
        late, soon, options = 10**12 + 31 * SECOND, 10**12 + 29 * SECOND, ["--every", "1h", "--turn-within", "30s"]
        settings = settings_of(parser("").parse_args(options), "program")
        cases: list[tuple[Reason | None, dict[str, Any]]] = [
            (None, {}), (None, {"calls": 899}), (Reason.CALLS, {"calls": 900}),
            (Reason.SESSIONS, {"is_closed": True}), (Reason.TIME, {"age": 3600}), (None, {"age": 3599}),
            (Reason.TURNS, {"waits": 30}), (None, {"waits": 29.9}), (None, {"waits": 100, "age": 29}),
            # Elements that were set aside are due, or there is room for many of them.
            (Reason.ELEMENTS, {"aside": 5, "first_aside": soon}), (Reason.ELEMENTS, {"aside": 5, "first_aside": late}),
            (None, {"aside": 5, "first_aside": soon, "elements": 1_000_000}),
            (None, {"aside": 300_000, "first_aside": late, "elements": 950_000}),
            (Reason.ELEMENTS, {"aside": 300_000, "first_aside": late, "elements": 899_000}),
            (None, {"aside": 5, "first_aside": soon, "age": 59}),
        ]
        for wanted, told in cases:
            with self.subTest(told):
                it = Seen(**told)
                why = why_to_end(it.looks, record(aside=it.aside), settings, int(it.age * SECOND), it.first_aside)
                self.assertEqual(why, wanted)

    def test_jobs_in_hand_have_their_calls(self) -> None:
        """A run that ends is cut while each job that clients hold can still come back."""
        for wanted, used, limit, a_second, served in (
            (False, 998_000, 1_000_000, 0, 16), (True, 999_000, 1_000_000, 0, 16), (False, 999_000, 1_000_000, 0, 0),
            (True, 950_000, 1_000_000, 500_000, 16), (False, 940_000, 1_000_000, 500_000, 16),
            (False, 54, 60, 0, 1), (True, 57, 60, 0, 1),
        ):
            it = Seen(calls=used, rate=a_second, served=served)
            self.assertEqual(is_to_cut(it.looks, record(calls=limit), 0.1), wanted, (used, served))

    def test_which_runs_are_dropped(self) -> None:
        """The present one and the one before never are."""
        records = [record(it, End(1000.0 * it, Reason.TIME)) for it in range(1, 10)] + [record(10)]
        for keep, now, last in ((Keep(4, None), 0, 5), (Keep(1, None), 0, 8), (Keep(50, None), 0, 0),
                                (Keep(None, 3000 * 10**9), 7500, 4), (Keep(None, 1), 10**6, 8)):
            self.assertEqual(runs_to_drop(records, keep, now), [*range(1, last + 1)], keep)


class RecordTest(unittest.TestCase):
    def test_it_is_read_as_it_was_written(self) -> None:
        for end in (None, LOST, replace(WELL, sessions=3, cut=2, closed=0.25)):
            it = record(12, end, next_id=2**40, moment=2**64 - 1)
            self.assertEqual(run_in(record_of(it)), it)

    def test_what_an_earlier_version_knew_is_passed_over(self) -> None:
        told = json.loads(record_of(record(12, WELL)))
        told["end"]["held_by"] = told["more"] = ["client 5: 3s"]
        self.assertEqual(run_in(json.dumps(told).encode()), record(12, WELL))

    def test_other_texts_are_refused(self) -> None:
        for text in (b"", b"{}", b"[]", b'{"end": null}', b"null"):
            with self.subTest(text), self.assertRaises((ValueError, KeyError, TypeError)):
                run_in(text)
