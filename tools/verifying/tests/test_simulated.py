"""Simulated runs, as they are and changed at random places. Each change must be found, by its name."""
import random
from typing import Callable, Sequence

from hypothesis import HealthCheck, assume, given, settings
from hypothesis import strategies as st

from history_texts import text_of
from verifying.tests.simulated import Idle, Simulation
from verifying.tests.support import Line, history_of, judged

NAMED = ("OFFERED", "ITEM", "AGAIN")  # replies that name an element of their own
# A simulation seeds Python's own random numbers, by which tests choose places in it too.
SEEDS, EVENTS = st.integers(0, 2**32 - 1), st.integers(200, 400)
RUNS = st.builds(Simulation, SEEDS, EVENTS, seats=st.just(4), longest=st.just(40))

Test = Callable[..., None]


def tried(times: int) -> Callable[[Test], Test]:
    """Tries a test so often, each time with the same runs."""
    slow = [HealthCheck.too_slow, HealthCheck.data_too_large]
    return settings(max_examples=times, derandomize=True, deadline=None, suppress_health_check=slow)


def keyword(line: Line) -> str:
    return str(line["reply"][0].split(" ")[0]) if line["reply"] else ""


def tells_its_place(line: Line) -> bool:
    """Whether a reply names an element whose event is the call's."""
    return keyword(line) in NAMED or len(line["reply"]) > 1 or line["reply"] == ["REMOVED yes"]


def named_lines(run: Simulation, keywords: Sequence[str] = NAMED) -> list[int]:
    """The numbers of the lines whose replies begin with such a word."""
    return [number for number, line in enumerate(run.lines) if keyword(line) in keywords]


def one_of(numbers: list[int]) -> int:
    """One of these, where there are some."""
    assume(numbers)
    return random.choice(numbers)


def faults_of(run: Simulation | Idle, is_whole: bool = True) -> tuple[dict[str, int], list[str]]:
    """The faults of a run, by kind and in words."""
    return judged([history_of(text_of(*run.events))], run.lines, is_whole)


@tried(60)
@given(st.builds(Simulation, SEEDS, EVENTS, seats=st.just(4), longest=st.just(40), kills=st.just(True)))
def test_clients_that_are_killed(run: Simulation) -> None:
    assert faults_of(run, is_whole=False) == ({}, [])


@tried(300)
@given(st.builds(Simulation, SEEDS, EVENTS, seats=st.just(4), longest=st.sampled_from([1, 2, 3, 6, 40])))
def test_runs_as_they_are(run: Simulation) -> None:
    """Also with the records of half of the clients. Most sessions of few requests name no element and fit at several
    places, at some of them out of order."""
    assert faults_of(run) == ({}, [])
    sessions = sorted({line["session"] for line in run.lines})
    some = {*random.sample(sessions, len(sessions) // 2)}
    run.lines = [line for line in run.lines if line["session"] in some]
    assert faults_of(run, is_whole=False) == ({}, [])


@tried(8)
@given(st.builds(Idle, SEEDS, workers=st.just(6), lengths=st.sampled_from([(3,), (3, 30)]), offers=st.just(3)))
def test_workers_without_jobs(run: Idle) -> None:
    """Their sessions are alike, go on at the same time, and each kill leaves an event of no record at its seat."""
    assert faults_of(run, is_whole=False) == ({}, [])


@tried(60)
@given(st.builds(Simulation, SEEDS, EVENTS, seats=st.just(4), longest=st.just(1)))
def test_a_call_left_out_among_sessions_of_one_request(run: Simulation) -> None:
    """One session is left without a place, whichever it is. Others may then have only places out of order."""
    nameless = [event for event in run.events if event.endswith((" none", " no")) or event.split(" ")[3] == "size"]
    run.events.remove(random.choice(nameless))
    counts, faults = faults_of(run)
    assert (counts.pop("missing"), counts.keys() - {"time"}) == (1, set()), faults


@tried(60)
@given(RUNS)
def test_a_reply_changed(run: Simulation) -> None:
    number = one_of(named_lines(run))
    words = run.lines[number]["reply"][0].split(" ")
    words[2] = str(int(words[2]) + 1)  # its expiry
    run.lines[number]["reply"] = [" ".join(words)]
    counts, faults = faults_of(run)
    assert (counts, len(faults)) == ({"changed": 1}, 1), faults
    assert f":{number + 1}: session {run.lines[number]['session']}: changed: " in faults[0]


@tried(60)
@given(RUNS)
def test_a_reply_that_is_there_twice(run: Simulation) -> None:
    number = one_of(named_lines(run, ("OFFERED", "ITEM")))
    run.lines.insert(number, run.lines[number])
    counts, faults = faults_of(run)
    assert counts["twice"] == 1, faults
    assert any(f":{number + 2}: " in fault and ": twice: " in fault for fault in faults), faults


@tried(60)
@given(RUNS)
def test_a_call_that_the_history_leaves_out(run: Simulation) -> None:
    """The one left out is told. Around it a call that names no element may have lost its place, or have only one that
    is out of order."""
    number = one_of(named_lines(run, ("ITEM",)))
    id = run.lines[number]["reply"][0].split(" ")[1]
    polls = [event for event in run.events if event.split(" ")[3] in ("poll", "pollfor") and event.split(" ")[-1] == id]
    run.events.remove(polls[0])
    session = [line for line in run.lines if line["session"] == run.lines[number]["session"]]
    counts, faults = faults_of(run)
    assert any(f":{number + 1}: " in fault for fault in faults), faults
    if sum(map(tells_its_place, session)) == 1:  # nothing says where the session's other events are
        counts.pop("unrecorded", 0)
    assert {"missing", "changed"} & counts.keys() and counts.keys() <= {"missing", "changed", "time"}, faults


@tried(60)
@given(RUNS)
def test_a_call_that_a_record_leaves_out(run: Simulation) -> None:
    """In a session that has another by which its calls are found."""
    tell = [line["session"] for line in run.lines if tells_its_place(line)]
    offers = named_lines(run, ("OFFERED",))
    number = one_of([number for number in offers if tell.count(run.lines[number]["session"]) > 1])
    words = run.lines.pop(number)["reply"][0].split(" ")
    counts, faults = faults_of(run)
    assert (counts.pop("unrecorded"), counts.pop("gap", 1), counts) == (1, 1, {}), faults
    assert any(f"(offer {words[1]} {words[2]} " in fault for fault in faults), faults


@tried(60)
@given(RUNS)
def test_two_calls_of_a_session_exchanged(run: Simulation) -> None:
    numbers = named_lines(run)
    first = one_of([a for a, b in zip(numbers, numbers[1:]) if b == a + 1 and keyword(run.lines[a]) == "OFFERED"
                    and run.lines[a]["session"] == run.lines[b]["session"]])
    one, other = run.lines[first:first + 2]
    for key in ("request", "reply"):
        one[key], other[key] = other[key], one[key]
    counts, faults = faults_of(run)
    assert (counts.pop("order"), counts.keys() - {"time"}) == (1, set()), faults


@tried(60)
@given(RUNS)
def test_a_call_at_another_seat(run: Simulation) -> None:
    numbers = named_lines(run)
    sessions = [run.lines[number]["session"] for number in numbers]
    number = one_of([number for number in numbers if keyword(run.lines[number]) == "OFFERED"
                     and sessions.count(run.lines[number]["session"]) > 2])
    words = run.lines[number]["reply"][0].split(" ")
    event = next(event for event, act in enumerate(run.events) if f" offer {words[1]} " in act)
    seat, _, rest = run.events[event].partition(" ")
    run.events[event] = f"{int(seat) % 4 + 1} {rest}"
    counts, faults = faults_of(run)
    assert counts["seat"] == 1, faults
    assert any(f":{number + 1}: " in fault and ": seat: " in fault for fault in faults), faults


@tried(60)
@given(RUNS)
def test_a_reply_that_came_before_another_call_was_sent_stands_behind_it(run: Simulation) -> None:
    early = run.lines[one_of(named_lines(run))]
    late = [number for number, line in enumerate(run.lines) if line["sent"] > early["received"]
            and line["session"] != early["session"] and keyword(line) in NAMED]
    line = run.lines[one_of(late)]
    shift = line["received"] - early["sent"] + 1
    for other in run.lines:
        if other["session"] == line["session"]:
            other["sent"], other["received"] = other["sent"] - shift, other["received"] - shift
    counts, faults = faults_of(run)
    assert counts.keys() == {"time"}, faults


def test_all_kinds_of_replies_are_there() -> None:
    """The simulated runs have every reply but those that only a full run or want of memory brings."""
    seen = {keyword(line) for seed in range(40) for line in Simulation(seed, events=300, seats=4, longest=40).lines}
    assert seen == {
        "OFFERED", "ITEM", "NONE", "HEAD", "DRAINED", "REMOVED", "SIZE", "AGAIN", "DONE", "DEAD", "STOPPED", "BYE",
        "ERR",
    }
