"""The texts of large histories, which a single queue could have had: `rb_broker replay --chains` accepts them."""
import re
from typing import Iterator

from verifying.tests.simulated import Simulation


def mostly_offers(events: int) -> Iterator[str]:
    """97 events in 100 are offers, and each drain fetches all that expired since the one before. Elements expire a
    microsecond after their offer, and drains come some microseconds later."""
    id = fetched = 0
    for event in range(events):
        moment = 1000 * event
        if event % 100 in (33, 66, 99):
            yield f"{event % 8} {moment} {moment} drain 64 {' '.join(map(str, range(fetched, id)))}"
            fetched = id
        else:
            yield f"{event % 8} {moment} {moment} offer {id} {moment + 1000} {id} {moment + 1000} 1 letter-{id}"
            id += 1


def history(kind: str, events: int) -> Iterator[str]:
    """The lines of a history: `offers`, `busy`, which has all kinds of calls, or `old`, the same in the first
    version."""
    yield "history 1\n" if kind == "old" else "history 3\nopen 0 0 0\n"
    lines = mostly_offers(events) if kind == "offers" else Simulation(1, events, seats=8, longest=1000).events[:events]
    for line in lines:
        yield (re.sub(r"(offer \d+ \d+ \d+) \d+", r"\1", line) if kind == "old" else line) + "\n"
    yield f"end {events}\n"
