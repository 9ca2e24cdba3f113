"""What is wrong with a run."""
import collections

from verifying.record import Exchange
from rb_broker_redis.watching.units import counted

# The kinds of faults, each with the sentence that it breaks.
KINDS: dict[str, str] = {
    "strange": "each reply is one that its request may get, with what the session holds",
    "changed": "a reply says what the event of its call says, and about an element what its offer says",
    "missing": "each call has an event",
    "twice": "no event is the call of two replies",
    "gap": "a session's calls follow one another at their seat, with nothing between them",
    "order": "a session's calls are in the order of its requests",
    "seat": "a session's calls are all at one seat",
    "return": "the jobs that a session holds at its end come back directly after its last call",
    "time": "a call whose reply had come before another was sent comes before it in the history",
    "unrecorded": "each event is a call of a record",
}

MOST_TOLD = 10  # of each kind


class Faults:
    """The faults that were found: how many of each kind, and the first of them in words."""

    def __init__(self) -> None:
        self._counts: collections.Counter[str] = collections.Counter()
        self._lines: dict[str, list[str]] = {kind: [] for kind in KINDS}

    def add(self, kind: str, where: str, what: str) -> None:
        self._counts[kind] += 1
        if self._counts[kind] <= MOST_TOLD:
            self._lines[kind].append(f"{where}: {kind}: {what}")

    def add_strange(self, path: str, exchange: Exchange) -> None:
        """Adds a reply of the record at this path that its request can't get."""
        where = f"{path}:{exchange.line}: session {exchange.session}"
        self.add("strange", where, f"{exchange.reply[0][:80]!a} answers {exchange.request[:80]!a}")

    @property
    def total(self) -> int:
        return sum(self._counts.values())

    def lines(self) -> list[str]:
        """The lines that are printed, and behind those of each kind how many more there are."""
        lines = []
        for kind, told in self._lines.items():
            more = self._counts[kind] - len(told)
            lines += told
            if more:
                of = f"more of the kind {kind}"
                lines.append(f"and {counted(more, f'fault {of}', f'faults {of}')}")
        return lines

    def sentences(self, is_whole: bool) -> list[str]:
        """Each sentence with the number of its faults, and their sum. Unless all clients have a record, other events
        are right."""
        kinds = [kind for kind in KINDS if is_whole or kind != "unrecorded"]
        told = [f"{kind + ':':<11} {counted(self._counts[kind], 'fault')}: {KINDS[kind]}" for kind in kinds]
        return [*told, counted(self.total, "fault")]
