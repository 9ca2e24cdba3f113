"""The calls of all records, in columns, the sessions that made them, and which event each is."""
from array import array

from verifying.account import Account, Expected, Rules, Strange
from verifying.faults import Faults
from rb_broker_formats.element import NONE
from verifying.history import History
from verifying.record import GREATEST_TIME, Exchange

# Takes the place of the time at which a reply came, if none did.
NEVER = GREATEST_TIME


class Session:
    """One connection: its calls, in the order of its requests."""

    def __init__(self, index: int, name: str, path: str, account: Account) -> None:
        self.index, self.name, self.path, self.account = index, name, path, account
        self.calls = array("I")
        self.unanswered: list[Exchange] = []  # which may have been carried out
        self.seat: int | None = None  # the index of the seat at which its calls stand, once that is known
        self.end = 0  # the place in the seat's row behind its last call

    def __str__(self) -> str:
        return f"{self.path}: session {self.name}"

    @property
    def is_cut(self) -> bool:
        """Whether its record ends with a reply, and not with that to a QUIT: its client was killed, or hung up."""
        return not self.unanswered and not self.account.has_left


class Calls:
    """Every request that made an event by its reply, by its number, from 0. A reply that names an element shows which
    event that is; the others are placed by these."""

    def __init__(self, history: History, faults: Faults, rules: Rules = Rules()) -> None:
        self.history, self.faults, self._rules = history, faults, rules
        self.sent, self.received = array("q"), array("q")
        self.lines, self.owners = array("I"), array("I")  # the owner is the index of a session
        self.events = array("i")  # the event that it is, or the complement of an index into what is expected
        self.claims = array("i", [NONE]) * len(history)  # the number of the call that each event is
        self.astray: set[int] = set()  # events of calls that stand at another seat, or out of order
        self.sessions: list[Session] = []
        self._by_name: dict[tuple[str, str], Session] = {}
        self._expected: list[Expected] = []
        self._indexes: dict[Expected, int] = {}

    def __len__(self) -> int:
        return len(self.sent)

    def read(self, path: str, exchange: Exchange) -> None:
        """Takes the next line of the record at this path."""
        session = self._by_name.get((path, exchange.session))
        if session is None:
            session = Session(len(self.sessions), exchange.session, path, Account(self.history, self._rules))
            self._by_name[path, exchange.session] = session
            self.sessions.append(session)
        if exchange.received is None:
            session.unanswered.append(exchange)
            return
        try:
            expected = session.account.expected(exchange.request, exchange.reply)
        except Strange:
            self.faults.add_strange(path, exchange)
            return
        if expected is not None:
            event = self._event(expected)
            session.calls.append(self.add(session, exchange.line, exchange.sent, exchange.received, event))

    def add(self, session: Session, line: int, sent: int, received: int, event: int) -> int:
        """Adds a call, and returns its number."""
        self.sent.append(sent)
        self.received.append(received)
        self.lines.append(line)
        self.owners.append(session.index)
        self.events.append(event)
        return len(self.sent) - 1

    def _event(self, expected: Expected) -> int:
        """The event that names the element, if it is as expected."""
        event = expected.event
        if event != NONE and not expected.flaw and self.history.fits(event, expected.act):
            return event
        index = self._indexes.setdefault(expected, len(self._expected))
        if index == len(self._expected):
            self._expected.append(expected)
        return ~index

    def expectation(self, call: int) -> Expected:
        """What the event of a call must be that is yet to be found."""
        return self._expected[~self.events[call]]

    def session(self, call: int) -> Session:
        return self.sessions[self.owners[call]]

    def where(self, call: int) -> str:
        session = self.session(call)
        return f"{session.path}:{self.lines[call]}: session {session.name}"

    def tell(self, kind: str, call: int, what: str) -> None:
        """Adds a fault of a call."""
        self.faults.add(kind, self.where(call), what)

    def tell_missing(self, call: int) -> None:
        self.tell("missing", call, f"{self.expectation(call).act} is not at its place in the history")

    def may_be(self, call: int, event: int) -> bool:
        """Whether an event is nobody's, and what a call's reply says."""
        return self.claims[event] == NONE and self.history.fits(event, self.expectation(call).act)

    def settle(self, call: int, event: int) -> None:
        """This event is the call's, by its place. It must be as the reply says."""
        expected = self.expectation(call)
        if not self.history.fits(event, expected.act):
            self.tell("changed", call, f"its reply says {expected.act}, and {self.history.told(event)}")
        elif expected.flaw:
            self.tell("changed", call, f"{self.history.told(event)}: {expected.flaw}")
        self.events[call] = event
        self.claims[event] = call
