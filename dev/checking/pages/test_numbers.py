"""Numbers that pages tell, each beside what sets it in the sources, or the page that has it from a measurement."""
import inspect
import re
from pathlib import Path
from typing import Any, Callable

import pytest

from checking.pages.reading import page, plain, section, tables
from checking.pages.test_options import of_program, of_service
from common.program import TOP
from common.words import span
from rb_broker_client import Worker
from rb_broker_client.durations import Pauses
from rb_broker_client.tasks import Tasks
from rb_broker_formats.durations import SECOND
from rb_broker_formats.grammar import GREATEST_OPENING_ID, MOST_EVENTS, MOST_OPENING_ELEMENTS
from rb_broker_formats.protocol import LONGEST_REPLY, MOST_CALLS, MOST_HELD
from reporting.page import MOST_ELEMENTS

README, PROTOCOL, HISTORY, OPERATING, PERFORMANCE, SCALING = (
    "README.md", *(f"docs/{name}.md" for name in ("PROTOCOL", "HISTORY", "OPERATING", "PERFORMANCE", "SCALING")))
PYTHON, JAVA, REDIS = "clients/python/README.md", "clients/java/README.md", "redis/README.md"


def in_source(path: str, pattern: str) -> int:
    """The number in the group of a pattern, in a file."""
    return int(re.search(pattern, Path(TOP, path).read_text("utf-8"))[1].replace("_", ""))


def constant(path: str, name: str) -> int:
    return in_source(f"crates/{path}", rf"\bconst {name}: \w+ = ([\d_]+);")


def default(kind: Callable[..., Any], name: str) -> Any:
    return inspect.signature(kind).parameters[name].default


def workers() -> int:
    return constant("rb_options/src/server_run_options.rt", "MOST_WORKERS")


def rest() -> int:
    """Milliseconds between two looks of a call that waits."""
    return constant("rb_bell/src/bell.rt", "LONGEST_REST")


def jobs_in(seconds: int) -> int:
    """How many a second use up a run's calls in this time: three calls each, and a tenth in reserve."""
    return MOST_CALLS * 9 // 10 // 3 // seconds


# The page, what stands around the number, and what it has to be.
TOLD: list[tuple[str, str, Callable[[], Any]]] = [
    (README, r"by default some (\d+) minutes", lambda: sum(
        span(of_service()[name]) for name in ("every", "stop-within")) // (60 * SECOND)),
    (README, r"at (\d+) jobs a second, an hour", lambda: jobs_in(3_600)),
    (SCALING, r"and (\d+) with one every hour", lambda: jobs_in(3_600)),
    (SCALING, r"carries ([\d,]+) jobs a second with a rollover every 5 minutes", lambda: jobs_in(300)),
    (SCALING, r"\| Clients at the same time \| (\d+) \|", workers),
    (SCALING, r"\| Calls \| ([\d,]+), then", lambda: MOST_CALLS),
    (SCALING, r"\| Jobs in hand \| [\d,]+ \| (\d+) for each client", lambda: MOST_HELD),
    (SCALING, r"\| Jobs in hand \| ([\d,]+) \|", lambda: workers() * MOST_HELD),
    (OPERATING, r"They end at (2\^\d+)\.", lambda: GREATEST_OPENING_ID),
    (OPERATING, r"begins with at most ([\d,]+) elements", lambda: MOST_OPENING_ELEMENTS),
    (HISTORY, r"first offer gets, at most (2\^\d+);", lambda: GREATEST_OPENING_ID),
    (HISTORY, r"elements in the queue, at most ([\d,]+) \|", lambda: MOST_OPENING_ELEMENTS),
    (HISTORY, r"number of events, at most ([\d,]+);", lambda: MOST_EVENTS),
    (HISTORY, r"an event follows ([\d,]+) others", lambda: MOST_EVENTS),
    (HISTORY, r"shows at most ([\d,]+) elements", lambda: MOST_ELEMENTS),
    (PROTOCOL, r"has at most (\d+) bytes with it", lambda: LONGEST_REPLY),
    (PROTOCOL, r"\| ([\d,]+) reads, each", lambda: constant("rb_protocol/src/limits.rt", "MOST_READS")),
    (PROTOCOL, r"`DRAIN` holds it, (\d+) at most", lambda: MOST_HELD),
    (PROTOCOL, r"a waiting request: after at most (\d+) ms", rest),
    (PROTOCOL, r"a second is `(\d+)`", lambda: SECOND),
    (PROTOCOL, r"Up to (\d+) KiB of replies are gathered", lambda: in_source(
        "crates/rb_session/src/delivery.rt", r"GATHERED_BYTES: usize = (\d+) \* 1024;")),
    (PROTOCOL, r"turns last about (\d+) seconds", lambda: int(of_program("serve")["turns"]) * rest() // 1_000),
    (PROTOCOL, r"adds status (\d+) if the program can't", lambda: in_source("broker", r"Status (\d+): the program could")),
    (PROTOCOL, r"and (\d+) if `rt` or `python3`", lambda: in_source("broker", r"Status (\d+): it must be built")),
    ("docs/ARCHITECTURE.md", r"A bell has (\d+) places", lambda: constant("rb_bell/src/bell_state.rt", "PLACES")),
    (REDIS, r"or port (\d+) of this machine", lambda: in_source("redis/src/rb_broker_redis/address.py", r':(\d+)"')),
    (REDIS, r"keeps the last ([\d,]+) events", lambda: MOST_EVENTS),
    (REDIS, r"no Redis when it starts ends with status (\d)",
     lambda: in_source("redis/src/rb_broker_redis/ending.py", r"return (\d) if isinstance\(fault, REDIS_FAULTS\)")),
    (PYTHON, r"`overdue=(\d+)`", lambda: default(Tasks, "overdue")),
    (PYTHON, r"With `attempts=(\d+)`, the server's number", lambda: int(of_service()["attempts"])),
    (PYTHON, r"that double from ([\d.]+) to", lambda: default(Pauses, "first")),
    (PYTHON, r"that double from [\d.]+ to (\d+) seconds", lambda: default(Pauses, "longest")),
    (PYTHON, r"N jobs, (\d+) at most, run at once", lambda: MOST_HELD),
    (PYTHON, r"a fifth of `wait` later, ([\d.]+) seconds by default", lambda: default(Worker, "wait") / 5),
    (JAVA, r"makes ([\d,]+) of a run's", lambda: 3_600_000 // in_source(
        "clients/java/src/rbbroker/client/RemoteDelayQueue.java", r"longestWait = Duration\.ofMillis\((\d+)\)")),
    (JAVA, r"; a session holds (\d+)\.", lambda: MOST_HELD),
    ("docs/TESTING.md", r"longer than ([\d,]+) jobs in Java", lambda: in_source(
        "dev/checking/java/test_java.py", r'get\("RB_BROKER_JOBS", "(\d+)"\)')),
    ("docs/TESTING.md", r", ([\d,]+) in Python and on Redis", lambda: in_source(
        "clients/python/tests/day/test_hostile_day.py", r'get\("RB_BROKER_JOBS", ([\d_]+)\)')),
    ("docs/TESTING.md", r" and (\d+) tasks\.", lambda: in_source(
        "clients/python/tests/day/test_hostile_tasks.py", r'get\("RB_BROKER_TASKS", (\d+)\)')),
]


@pytest.mark.parametrize(("name", "told", "value"), TOLD, ids=[f"{name}, {told}" for name, told, _ in TOLD])
def test_a_number(name: str, told: str, value: Callable[[], Any]) -> None:
    number, wanted = re.search(told, page(name))[1], value()
    base, _, power = plain(number).partition("^")
    assert wanted == (number if isinstance(wanted, str) else float(base) ** int(power or 1))


def test_the_measured_numbers_of_the_first_page() -> None:
    """They are those of PERFORMANCE."""
    told = section(README, "Measured")
    rounds = {row[0]: row[-1] for row in tables(section(PERFORMANCE, "On Redis"))[0]}
    assert list(re.search(r"made ([\d,]+) rounds .* and ([\d,]+) with 16", told).groups()) == [rounds["1"], rounds["16"]]
    rows = tables(section(PERFORMANCE, "Servers"))[0]
    ratios = re.search(r"it made (.*) times beanstalkd's rounds, and (.*) times in batches of 32", told).groups()
    for ratio, column in zip(ratios, (2, -1)):
        assert re.findall(r"[\d.]+", ratio) == [row[column].partition(" ")[0] for row in rows]


@pytest.mark.parametrize(("told", "file"), [
    (r"each of ([\d,]+) jobs \(`(\w+)=N`\)", "test_hostile_day.py"),
    (r"during (\d+) tasks \(`(\w+)=N`\)", "test_hostile_tasks.py"),
])
def test_a_number_that_a_setting_changes(told: str, file: str) -> None:
    number, setting = re.search(told, page(PYTHON)).groups()
    source = Path(TOP, "clients/python/tests/day", file).read_text("utf-8")
    assert f'get("{setting}", {plain(number)})' in source.replace("_000", "000")


def test_what_a_gateway_needs() -> None:
    python, redis = re.search(r"needs Python ([\d.]+), redis-py ([\d.]+), hiredis", page(REDIS)).groups()
    package = Path(TOP, "redis/pyproject.toml").read_text("utf-8")
    assert f'requires-python = ">={python}"' in package and f'"redis>={redis}"' in package
    assert f"Python's redis {redis} and hiredis" in page("docs/TESTING.md")


def test_the_kit_that_a_build_needs() -> None:
    """Both pages that name it name the same."""
    assert len({re.search(r"\blogic (\w{16})`", page(name))[1] for name in (README, "CONTRIBUTING.md")}) == 1


def test_what_a_service_needs() -> None:
    """Both pages that say it say the same, and the package depends on it."""
    needs = [dict(re.findall(r"(Linux|Python) (\d[\d.]*\d)", text)) for text in (
        page(README), page(OPERATING).partition("\n## ")[0])]
    assert needs[0] == needs[1] and len(needs[0]) == 2
    gzip = re.search(r"needs Python [\d.]+, gzip ([\d.]+\d)", page(OPERATING))[1]
    package = Path(TOP, "packaging/debian/control").read_text("utf-8")
    assert f"Depends: gzip (>= {gzip}), python3 (>= {needs[0]['Python']})," in package
