"""What looks wrong in a history: each finding is a sentence, with the jobs that it is about.

None is a fault of the broker. Most are what a person would ask about first; the others, such as a job in two places,
are of a history that the program did not write, since it is proved that it never does.
"""
from array import array
from heapq import nsmallest
from typing import Iterator, NamedTuple, Sequence

from rb_broker_formats.acts import CLEAR, GIVES, POLL, POLL_NONE
from rb_broker_formats.element import NONE
from rb_broker_formats.history import History
from reporting.depth import Depth
from rb_broker_redis.watching.units import counted, percent, span

AT_ONCE, JOBS_AT_ONCE = 1_000_000, 10  # nanoseconds from a return until it is due, and jobs that came back so soon
IDLE_POLLS, IDLE_SHARE = 100, 0.9  # this many polls, of which this share found nothing
DEEP_END, DEEP_SHARE = 100, 0.9  # this many elements at the end, and this share of the greatest number
MOST_NAMED = 5

PARENT = "offered again without an attempt before that was given"


class Finding(NamedTuple):
    """A sentence, and the origins of some of the jobs that it is about."""

    says: str
    origins: Sequence[int] = ()


def findings_of(history: History, depth: Depth) -> Iterator[Finding]:
    """All that looks wrong."""
    for fault, roots in _broken_chains(history).items():
        yield Finding(f"{_were(len(roots), 'job')} {fault}: this history is not one that the program wrote, or its"
                      " opening is not", _named(history, roots))
    yield from _at_once(history)
    yield from _left(history)
    yield from _calls(history)
    at_end, deepest = depth.standing[-1], max(depth.standing)
    if at_end >= max(DEEP_END, DEEP_SHARE * deepest):
        yield Finding(f"the queue was about as deep at the end ({at_end:,}) as ever ({deepest:,}): more came in than left")


def _broken_chains(history: History) -> dict[str, list[int]]:
    """What the program never writes about a job: that it is in two places, or an attempt that does not follow from the
    one before. By each fault that occurs, the roots of its jobs, each once. docs/HISTORY.md says under "Why retries are
    not right" which attempt follows."""
    elements = history.elements
    broken: dict[str, dict[int, None]] = {}
    latest = array("i", [NONE]) * len(elements)  # the last row so far of the job with this root
    for row, (root, attempt) in enumerate(zip(elements.roots, elements.attempts)):
        before, latest[root] = latest[root], row
        is_later = before != NONE or attempt > 1
        fault = _fault_of_later(history, row, before) if is_later else _fault_of_first(history, row)
        if fault:
            broken.setdefault(fault, {})[root] = None
    return {fault: list(roots) for fault, roots in broken.items()}


def _fault_of_first(history: History, row: int) -> str:
    elements = history.elements
    is_own = elements.origins[row] == elements.ids[row] and elements.firsts[row] == elements.expiries[row]
    return "" if is_own else "begun with another origin or first expiry than its own"


def _fault_of_later(history: History, row: int, before: int) -> str:
    """What is wrong with an element behind another one of its job, or with a later attempt behind none."""
    elements, offered = history.elements, history.elements.offered_in[row]
    if before == NONE:
        return PARENT if offered != NONE else ""  # of a job of the opening, the attempts before are not told
    left = elements.left_in[before]
    if offered == NONE or not NONE < left < offered:
        return "in the queue twice at once"
    if elements.attempts[row] <= elements.attempts[before]:
        return "offered twice as the same attempt"
    if elements.attempts[row] > elements.attempts[before] + 1 or history.events.acts[left] not in GIVES:
        return PARENT
    # Earlier versions do not tell the first expiry, and what is taken for it may change from run to run.
    tells_first = all(run.version == 3 for run in history.runs)
    is_same = elements.payload(row) == elements.payload(before) and (
        not tells_first or elements.firsts[row] == elements.firsts[before])
    return "" if is_same else "offered again with another payload or first expiry"


def _at_once(history: History) -> Iterator[Finding]:
    """Jobs that were due again at once when they came back. Few that did so once do not look wrong."""
    elements, moments = history.elements, history.events.moments
    returns = [elements.roots[row] for row, event in history.returns()
               if elements.expiries[row] <= moments[event] + AT_ONCE]
    jobs = list(dict.fromkeys(returns))
    if len(jobs) >= JOBS_AT_ONCE or len(jobs) < len(returns):
        yield Finding(
            f"{counted(len(jobs), 'job')} came back at once, {len(returns):,} times in all: due at most {span(AT_ONCE)}"
            " after failing; the delay is tiny, or the next moment of their rate had passed", _named(history, jobs))


def _left(history: History) -> Iterator[Finding]:
    """Elements that never left, of which those are named that had expired first."""
    elements, end = history.elements, history.end
    left = array("i", (row for row, event in enumerate(elements.left_in) if event == NONE))
    expired = array("i", (row for row in left if elements.expiries[row] <= end))
    if left:
        longest = nsmallest(MOST_NAMED, expired, key=elements.expiries.__getitem__)
        since = f", the earliest {span(end - elements.expiries[longest[0]])} before" if longest else ""
        yield Finding(f"{counted(len(left), 'element')} never left the queue; {len(expired):,} of them had expired at"
                      f" the end{since}", list(dict.fromkeys(elements.origins[row] for row in longest)))


def _calls(history: History) -> Iterator[Finding]:
    """Elements that were discarded, and polls in vain."""
    acts, cleared = history.events.acts, history.left_by(CLEAR)
    if cleared:
        yield Finding(f"{_were(cleared, 'element')} discarded by {counted(acts.count(CLEAR), 'clear')}")
    idle, polls = acts.count(POLL_NONE), acts.count(POLL_NONE) + acts.count(POLL)
    if polls >= IDLE_POLLS and idle >= IDLE_SHARE * polls:
        yield Finding(f"{percent(idle, polls)} of {polls:,} polls found nothing; a take or a timed poll waits, and is"
                      " one call")


def _were(number: int, noun: str) -> str:
    return f"{counted(number, noun)} {'was' if number == 1 else 'were'}"


def _named(history: History, roots: Sequence[int]) -> Sequence[int]:
    return [history.elements.origins[root] for root in roots[:MOST_NAMED]]
