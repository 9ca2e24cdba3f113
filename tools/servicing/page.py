"""The page of a service, and what it keeps for the charts on it."""
from collections import deque
from html import escape
from typing import Callable, Iterable, Sequence

from servicing.texts import attention, headline, since, tables
from servicing.state import CUT, END, LOST_JOBS, LOST_RUN, Mark, Phase, State, Traffic
from rb_broker_redis.watching.metrics import span_of
from rb_broker_redis.watching.page import Shown, page_of, section
from rb_broker_redis.watching.units import number

EVERY, LASTS = 10.0, 3600.0  # seconds from one mark to the next at least, and for which they are kept
WIDTH, HEIGHT, EDGE = 360, 48, 2  # of a chart, and of what its line leaves free above and below

# What they lead to is in endpoints.py.
ASK = ('<section id="jobs"><h2>Jobs of ended runs</h2><form method="post" action="jobs"><label>Payload or id '
       '<input name="word" required></label> <button>Find</button></form></section>\n')
CHANGE = ('<section id="changes"><h2>Changes</h2><form method="post" action="{}"><input type="hidden" name="token" '
          'value="{}"><button>{}</button></form></section>\n')
CHANGES = {Phase.SERVING: (END, "End this run now"), Phase.ENDING: (CUT, "End all sessions of this run now")}

Point = tuple[float, float]


def page(state: State, token: str = "") -> str:
    links = {str(it.number): f'<a href="runs/{it.number}">{it.number}</a>' for it in state.runs if it.has_history}

    def linked(row: Sequence[str]) -> Iterable[str]:
        return [links.get(row[0], escape(row[0])), *(escape(it) for it in row[1:])]

    return page_of(Shown(
        f"rb_broker, port {state.port}", f"{headline(state)}: rb_broker {state.port}", _kind(state), since(state),
        attention(state), [
            _charts(state.hour),
            *(section(it, linked) if it.heading[0] == "run" else section(it) for it in tables(state)),
            ASK, _change(state, token)], "'self'"))


def _change(state: State, token: str) -> str:
    """How the run can be ended, or its end be hastened."""
    if not token:
        return ""
    path, says = CHANGES.get(state.phase, CHANGES[Phase.SERVING])
    return CHANGE.format(path, escape(token), says)


def _kind(state: State) -> str:
    if state.is_healthy:
        if any(it.name in (LOST_RUN, LOST_JOBS) for it in state.alerts):
            return "bad"
        return "good" if state.is_up and not state.alerts else "fair"
    return "fair" if state.phase in (Phase.STARTING, Phase.BETWEEN) and not state.alerts else "bad"


def add_mark(hour: deque[Mark], mark: Mark) -> None:
    """Keeps a mark among those of the last hour, unless the last one is as young."""
    if not hour or mark.at - hour[-1].at >= EVERY:
        hour.append(mark)
    while hour[0].at < mark.at - LASTS:
        hour.popleft()


def _charts(marks: Sequence[Mark]) -> str:
    queues = [(it.at, it.queue) for it in marks if it.queue is not None]
    told = "".join((
        _chart("Offered a second", _paces(marks, lambda it: it.offered), "{:,.2f}".format),
        _chart("Given, removed or cleared a second", _paces(marks, lambda it: it.left), "{:,.2f}".format),
        _chart("Failures a second, told when a run ends", _paces(marks, lambda it: it.failed), "{:,.2f}".format),
        _chart("Elements in the queue", [(at, it.elements) for at, it in queues], lambda it: number(int(it))),
        _chart("Lateness of the first", [(at, max(it.late, 0.0)) for at, it in queues], span_of)))
    return f'<section id="hour"><h2>The last hour</h2>{told or "<p>Nothing yet.</p>"}</section>\n'


def _paces(marks: Sequence[Mark], count: Callable[[Traffic], int]) -> list[Point]:
    return [(now.at, (count(now.traffic) - count(before.traffic)) / (now.at - before.at))
            for before, now in zip(marks, marks[1:])]


def _chart(title: str, points: Sequence[Point], told: Callable[[float], str]) -> str:
    """A line from the first point to the last, whose greatest value is at the top. Nothing before there are two."""
    if len(points) < 2:
        return ""
    most, last = max(value for _, value in points), points[-1]
    rise = (HEIGHT - 2 * EDGE) / most if most else 0.0
    line = " ".join(f"{WIDTH - (last[0] - at) * WIDTH / LASTS:.1f},{HEIGHT - EDGE - value * rise:.1f}"
                    for at, value in points)
    text = escape(f"{title}: {told(last[1])}, at most {told(most)}")
    return (f'<p>{text}</p><svg viewBox="0 0 {WIDTH} {HEIGHT}" width="100%" height="{HEIGHT}" role="img" '
            f'aria-label="{text}" preserveAspectRatio="none"><polyline points="{line}" fill="none" '
            'stroke="currentColor" vector-effect="non-scaling-stroke"/></svg>')
