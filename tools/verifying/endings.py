"""What stands behind a session's last reply: requests that got none, and the return of the jobs that it still held.

A client notes a request once it has the reply, or never gets one. One that is killed notes neither, so the request that
is under way then is in no record.
"""
from __future__ import annotations

from array import array
from collections import Counter, deque

from rb_broker_formats.acts import given_ids
from rb_broker_formats.element import NONE
from rb_broker_formats.protocol import MOST_HELD
from verifying.calls import NEVER, Calls, Session


def follow_ends(calls: Calls) -> Counter[str]:
    """Takes the events of each session's end. Counts the events of requests that got no reply as `unheard`, those of
    jobs that came back as `returned`, and jobs that a session held and that did not come back as `gone`."""
    counts: Counter[str] = Counter()
    for session in calls.sessions:
        if session.seat is not None:
            Ending(calls, session, counts).follow(calls.history.rows[session.seat][session.end:])
    return counts


class Ending:
    """Follows a session from its last reply to its end."""

    def __init__(self, calls: Calls, session: Session, counts: Counter[str]) -> None:
        self._calls, self._history, self._session, self._counts = calls, calls.history, session, counts
        self._requests = session.unanswered
        self._held = [self._history.returns[id] for id in session.account.held]
        self._returns = deque(event for event in self._held if event != NONE)
        counts["gone"] += len(self._held) - len(self._returns)

    def follow(self, row: array[int]) -> None:
        """Takes the events that are the session's among these, which stand at its seat behind its last call."""
        for event in row:
            owner = self._calls.claims[event]
            if owner != NONE:
                if self._calls.session(owner) is self._session:  # out of order, which was told
                    continue
                break
            if self._returns and event == self._returns[0]:
                self._take(event, 0, self._calls.sent[self._session.calls[-1]])
                self._returns.popleft()
                self._counts["returned"] += 1
            elif not self._is_of_request(event):
                first = self._returns[0] if self._returns else NONE
                if event >= first or self._history.seats[first] != self._session.seat:
                    break
                if not self._is_unrecorded(event):  # and before the first return that is still to come
                    self._tell("gap", event, "comes before the return of a job that it held at its end")
        for event in self._returns:
            self._tell("return", event, "returns a job that it held at its end, and is not directly after its last call")

    def _tell(self, kind: str, event: int, what: str) -> None:
        self._calls.faults.add(kind, str(self._session), f"{self._history.told(event)} {what}")

    def _take(self, event: int, line: int, sent: int) -> None:
        self._calls.claims[event] = self._calls.add(self._session, line, sent, NEVER, event)

    def _is_of_request(self, event: int) -> bool:
        """Whether an event may be that of a request without a reply. Those before it were then refused."""
        act = self._history.act(event).split(" ")
        for number, request in enumerate(self._requests, 1):
            if self._may_answer(request.request.rstrip("\r").split(" "), event, act):
                self._requests = self._requests[number:]
                self._take(event, request.line, request.sent)
                self._counts["unheard"] += 1
                if event in self._returns:
                    self._returns.remove(event)
                self._counts["gone"] += sum(not self._comes_back(id) for id in given_ids(act))
                return True
        return False

    def _may_answer(self, asked: list[str], event: int, act: list[str]) -> bool:
        """Whether an event, which is this act, may be that of a request."""
        keyword = asked[0]
        if keyword == "FAIL":
            return len(asked) == 2 and asked[1].isdecimal() and self._history.returns[int(asked[1])] == event
        if keyword in ("OFFER", "OFFERAT"):
            return act[0] == "offer" and len(asked) == 3 and act[-2:] == ["1", asked[2]]
        if keyword == "REMOVE":
            return act[:2] == ["remove", *asked[1:2]]
        if keyword == "POLLFOR":
            return act[0] == "pollfor" and act[2:3] == asked[1:2]
        return act[0] == keyword.lower() and keyword in ("TAKE", "POLL", "PEEK", "DRAIN", "CLEAR", "SIZE")

    def _comes_back(self, id: int) -> bool:
        """Whether a job that was given came back, which then has to be at the end."""
        back = self._history.returns[id]
        if back != NONE:
            self._returns.append(back)
        return back != NONE

    def _is_unrecorded(self, event: int) -> bool:
        """Whether an event before these returns may be that of a request which a client that was killed did not come
        to note: the FAIL of a job that it held, or any other."""
        if not self._session.is_cut:
            return False
        if event in self._held:
            self._returns.remove(event)
            return True
        act = self._history.act(event).split(" ")
        is_return = act[0] == "offer" and act[-2] != "1"
        return not is_return and self._may_have_given(event, given_ids(act))

    def _may_have_given(self, event: int, given: list[int]) -> bool:
        """Whether a session may have got these jobs without a note. They were then held too, and must come back."""
        if len(self._returns) + len(given) > MOST_HELD or any(self._history.exits[id] != event for id in given):
            return False
        for id in given:
            if self._comes_back(id):
                continue
            if self._is_gone(id, event):
                self._counts["gone"] += 1
            else:
                self._tell("return", event, f"gave job {id}, which did not come back")
        return True

    def _is_gone(self, id: int, event: int) -> bool:
        """Whether replies say that a job which this event gave could not come back: its attempt was the last, or the
        run was full."""
        element, accounts = self._history.element(id), [session.account for session in self._calls.sessions]
        if element is not None and any(account.last_attempt == element.attempt for account in accounts):
            return True
        was_full = any(account.was_full for account in accounts)
        return was_full and self._history.last_beside(event) in (event, *self._returns)
