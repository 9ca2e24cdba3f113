"""Options that pages name: each is one of --help, with its default there, and its range is what the program accepts."""
import inspect
import os
import re
import subprocess
import sys
from functools import cache
from pathlib import Path

import pytest

from checking.pages.reading import code, page, plain, section, tables
from checking.pages.test_words import NOW, spoken
from common import program
from common.program import TOP
from rb_broker_client import Producer
from rb_broker_formats.durations import UNITS
from rb_broker_formats.protocol import LONGEST_PAYLOAD, MOST_HELD

PROTOCOL, OPERATING = "docs/PROTOCOL.md", "docs/OPERATING.md"
SERVE = "serve --port 7 --from /nowhere/f"  # a missing file: words that are accepted end by it
# What PROTOCOL says of an option's range and default: the words before, the range, the default.
TOLD = re.compile(r"`--([a-z-]+)[^`|]*`(?:(?!`--).)*?\((\d[\d,]*) to (2\^64 - 1|\d[\d,]*\d)(?:, default (\d[\d,]*))?")
DEFAULT = re.compile(r"[\[(](?:default: )?([^()\[\] ]+)(?:, if .*?)?[\])](?: \[possible.*)?$")
JAVA = {"Duration.ofMillis": "ms", "Duration.ofSeconds": "s"}
WORDS = {"nanosecond": "ns", "microsecond": "us", "millisecond": "ms", "second": "s"}
OWN = re.compile(r"(?:^|[\s(])(?:\./broker|rb_broker) ((?:script|serve --|replay [^-])[^|;&<>`\n#)]*)", re.M)


@cache
def help_of(*words: str) -> str:
    environment = {**os.environ, "PYTHONPATH": f"{TOP}/redis/src:{TOP}/clients/python/src", "COLUMNS": "1000"}
    return subprocess.run([*words, "--help"], capture_output=True, text=True, check=True, env=environment).stdout


@cache
def defaults(*words: str) -> dict[str, str]:
    """The options of a command, each with its default, or nothing."""
    rows = re.findall(r"^ +(?:-h, )?--([a-z-]+)(?: [^ ].*?)?(?:  +|\n +)(.*)$", help_of(*words), re.M)
    found = {name: DEFAULT.search(text) for name, text in rows}
    return {name: default[1] if default else "" for name, default in found.items() if name != "help"}


def of_program(command: str) -> dict[str, str]:
    return defaults(program.tested_program(), command)


def of_service() -> dict[str, str]:
    return defaults(sys.executable, "-B", f"{TOP}/tools/service")


def of_gateway() -> dict[str, str]:
    return defaults(sys.executable, "-B", "-m", "rb_broker_redis", "serve")


def accepts(option: str, value: int) -> bool:
    words = [program.tested_program(), *SERVE.split(), f"--{option}={value}"]
    ran = subprocess.run(words[:2] + words[4:] if option == "port" else words, capture_output=True, check=False)
    assert ran.returncode in (2, 3), ran
    return ran.returncode == 3


@pytest.mark.parametrize("command", ["script", "serve"])
def test_a_synopsis(command: str) -> None:
    text = page(PROTOCOL).partition(f"\n    rb_broker {command} ")[2].partition("\n\n")[0]
    assert {*re.findall(r"--([a-z-]+)", text)} == {*of_program(command)}


# The commands of the program in pages, but for what stands for others.
SPOKEN = {words.strip() for name in NOW for words in OWN.findall(spoken(name))}
COMMANDS = sorted(words for words in SPOKEN if not re.search(r"\[|\.\.", words))


@pytest.mark.parametrize("words", COMMANDS)
def test_a_command_of_the_program(tmp_path: Path, words: str) -> None:
    """The program takes its words, and then finds no such file."""
    given = re.sub(r" --from \S+", "", re.sub(r" P\b", " 7", words)).split()
    missing = [] if words.startswith("replay") else ["--from=/nowhere/f"]
    ran = subprocess.run([program.tested_program(), *given, *missing], cwd=tmp_path, stdin=subprocess.DEVNULL,
                         capture_output=True, check=False)
    assert ran.returncode == (1 if "/dev/stdin" in given else 3), ran


def accepts_just(option: str, least: str, most: str) -> bool:
    """Whether the program takes the numbers of this range, and none beside it."""
    low, high = int(plain(least)), int(plain(most))
    return [accepts(option, value) for value in (low - 1, low, high, high + 1)] == [False, True, True, False]


RANGES = [found.groups() for found in TOLD.finditer(page(PROTOCOL))]


@pytest.mark.parametrize(("option", "least", "most", "default"), RANGES)
def test_a_range_of_the_protocol(option: str, least: str, most: str, default: str | None) -> None:
    low, high = int(plain(least)), int(plain(most))
    assert [accepts(option, value) for value in (low, high, high + 1)] == [True, True, False]
    assert low == 0 or not accepts(option, low - 1)
    assert default is None or plain(default) == of_program("serve")[option]


def test_the_ranges_that_are_told() -> None:
    wanted = {"calls", "workers", "sessions", "turns", "socket", "silent", "since"}
    assert wanted <= {told[0] for told in RANGES}
    least, most = re.search(r"at port P \(([\d,]+) to ([\d,]+)\)", page(PROTOCOL)).groups()
    assert accepts_just("port", least, most)


def test_the_defaults_of_jobs() -> None:
    rows = {re.match("`--([a-z]+)", row[0])[1]: row for row in tables(section(PROTOCOL, "Jobs"))[0]}
    told = {name: (re.findall(r"^[\d,]+", row[2]) or [""])[0] for name, row in rows.items()}
    there = {name: of_program("serve")[name] for name in ("delay", "rate", "attempts")}
    assert {name: plain(default) for name, default in told.items()} == there
    number, unit = re.search(r"^([\d,]+), which is a (\w+)$", rows["delay"][2]).groups()
    assert int(plain(number)) == UNITS[WORDS[unit]]
    least, most = re.search(r"([\d,]+) to ([\d,]+)", rows["attempts"][1]).groups()
    assert accepts_just("attempts", least, most)
    assert f"(default `{of_program('script')['timer']}`)" in page(PROTOCOL)


def test_the_greatest_greeting() -> None:
    most = int(re.search(r"`--greeting LINE` \|.*at most (\d+) bytes", page(PROTOCOL))[1])
    words = [program.tested_program(), *SERVE.split(), "--greeting"]
    for count, status in ((most, 3), (most + 1, 2)):
        assert subprocess.run([*words, count * "x"], capture_output=True, check=False).returncode == status


def options_of_service() -> list[tuple[str, str]]:
    """The options in the table of OPERATING, each with its default."""
    found = []
    for row in tables(section(OPERATING, "Before production"))[0]:
        names = [word.partition(" ")[0].removeprefix("--") for word in code(row[0]) if word.startswith("--")]
        found += zip(names, [plain(default) for default in row[1].split("; ")])
    return found


@pytest.mark.parametrize(("option", "default"), options_of_service())
def test_a_default_of_the_service(option: str, default: str) -> None:
    assert of_service()[option] == default


def test_the_units_of_times() -> None:
    assert code(re.search(r"^A time is a number with (.*)\.$", page(OPERATING), re.M)[1]) == [*UNITS]


def test_ranges_of_the_service() -> None:
    for row in tables(section(OPERATING, "Before production"))[0]:
        option = code(row[0])[0].partition(" ")[0].removeprefix("--")
        for told in re.findall(r"\b\d+ to \d+\b", row[-1]):
            assert re.search(rf"--{option} .*\b{told}\b", help_of(sys.executable, "-B", f"{TOP}/tools/service")), row


def rows_of_gateways() -> list[tuple[list[str], str]]:
    rows = tables(section("redis/README.md", "Gateways"))[0]
    return [([word.partition(" ")[0].removeprefix("--") for word in code(row[0])], row[1]) for row in rows]


@pytest.mark.parametrize(("options", "text"), rows_of_gateways())
def test_a_row_of_the_gateway(options: list[str], text: str) -> None:
    """Each option is there, and what stands in brackets first, as `(30s, 20 attempts)`, is a default of one."""
    there = of_gateway()
    assert {*options} <= {*there}
    parts = [part for brackets in re.findall(r"\((\d[^()]*)\)", text) for part in brackets.split(", ")]
    told = [re.match(r"\w+", part)[0] for part in parts if part[:1].isdigit()]
    assert {*told} <= {there[option] for option in options}, text


def test_defaults_that_gateways_have_told() -> None:
    told = " ".join(text for _, text in rows_of_gateways())
    names = "delay", "lease", "grace", "replicas"
    assert re.findall(r"\((\d+s?)[,)]", told) == [of_gateway()[name] for name in names]
    assert f"`--timeout` ({of_gateway()['timeout']})" in page("redis/README.md")


def test_the_settings_in_java() -> None:
    source = Path(TOP, "clients/java/src/rbbroker/client/RemoteDelayQueue.java").read_text("utf-8")
    rows = {row[0].strip("`"): row[1] for table in tables(page("clients/java/README.md")) for row in table}
    for name in ("waiters", "longestWait", "patience"):
        kind, number = re.search(rf"private \w+ {name} = (?:([\w.]+)\()?(\d+)\)?;", source).groups()
        assert rows[name] == (f"{number} {JAVA[kind]}" if kind else number), name
    assert f'Address.at("{rows["host"]}", port)' in source


def test_the_patience_of_producers_in_python() -> None:
    told = re.search(r"`patience` is (\d+) seconds by default", page("clients/python/README.md"))[1]
    assert int(told) == inspect.signature(Producer).parameters["patience"].default


def test_the_limits_on_the_first_page() -> None:
    rows = {row[0]: row[1] for table in tables(page("README.md")) for row in table}
    numbers = {name: [plain(number) for number in re.findall(r"\d[\d,]*", text)] for name, text in rows.items()}
    assert numbers["Payload"] == ["1", str(LONGEST_PAYLOAD)]
    clients, held = numbers["Clients"]
    # The service needs one worker for itself now and then.
    assert accepts_just("workers", "1", str(int(clients) + 1)) and held == str(MOST_HELD)
    assert accepts_just("calls", "1", numbers["Calls"][0])
