"""Dialogues, commands and texts of the pages, run as they stand."""
import re
import socket
import subprocess
from pathlib import Path
from typing import Iterator

import pytest

from checking.pages.conftest import Run
from checking.pages.reading import blocks, code, page, section, tables
from common.program import TOP
from serving.server import Server

PROTOCOL, HISTORY = "docs/PROTOCOL.md", "docs/HISTORY.md"
REFUSALS = {row[0].strip("`"): row for row in tables(section(PROTOCOL, "Refusals"))[0]}
HELD = "OFFER 0 a\nPOLL\n"


def example(name: str) -> str:
    return Path(TOP, "examples", name).read_text("ascii")


def dialogue(block: str) -> tuple[str, str]:
    """The requests and the replies of a block in two columns."""
    pairs = [re.split(r" {2,}", line) for line in block.splitlines()]
    return "".join(f"{pair[0]}\n" for pair in pairs), "".join(f"{pair[1]}\n" for pair in pairs)


def test_the_dialogue_of_the_protocol(run: Run) -> None:
    text = section(PROTOCOL, "Requests")
    requests, replies = dialogue(blocks(text)[0])
    command = re.search(r"dialogue of `(.*?)`", text)[1]
    assert requests == example("first.txt")
    assert run(command).stdout == replies


def test_each_request_is_in_the_table_and_the_grammar() -> None:
    table = [row[0].strip("`").split()[0] for row in tables(section(PROTOCOL, "Requests"))[0]]
    grammar = section(PROTOCOL, "Grammar").partition("    line-end")[0]
    assert table == re.findall(r'%s"([A-Z]+)"', grammar)


def test_the_first_screen(run: Run) -> None:
    command, *replies = blocks(page("README.md"))[0].splitlines()
    assert run(command.removeprefix("$ ")).stdout.splitlines() == replies and len(replies) == 4


def test_the_first_look(run: Run) -> None:
    """It plays the dialogue of the protocol."""
    command = blocks(section("README.md", "First look"))[0].strip()
    assert run(command).stdout == dialogue(blocks(section(PROTOCOL, "Requests"))[0])[1]


def test_the_commands_of_histories(run: Run) -> None:
    """A run, its replay, and one that continues it."""
    told = {}
    for line in blocks(page(HISTORY))[0].splitlines():
        ran = run(line)
        told[line] = ran.stdout
        assert ran.returncode == 0, (line, ran)
    verdict = code(tables(page(HISTORY))[0][0][0])[0]
    assert [said.strip() for line, said in told.items() if " replay " in line] == [verdict] * 2


@pytest.mark.parametrize("history", [block for block in blocks(page(HISTORY)) if block.startswith("history ")])
def test_a_history_of_the_page(run: Run, tmp_path: Path, history: str) -> None:
    (tmp_path / "h").write_text(history, "ascii")
    assert run("rb_broker replay h --chains").returncode == 0


@pytest.mark.parametrize("line", blocks(section(HISTORY, "A report on a history"))[0].splitlines())
def test_the_commands_of_reports(run: Run, line: str) -> None:
    for before in blocks(page(HISTORY))[0].splitlines():
        run(before)
    ran = run(re.split(r" {2,}", line)[0])
    assert ran.returncode == 0 and ran.stdout, ran


def test_the_history_that_is_chained(run: Run, tmp_path: Path) -> None:
    text = section(HISTORY, "Why retries are not right")
    history = blocks(text)[-1]
    says = re.search(r"With a delay of (\d+) and (\w+) attempts this run is chained. Event (\d) is refused as `(.*?)` with "
                     r"a delay of (\d+), as `(.*?)` with one attempt, and as `(.*?)` if its `FIRST` is (\d)\.", text)
    delay, attempts, event, late, other, many, base, first = says.groups()
    changed = re.sub(r"^(0 0 0 offer 1 \d+ 0) 0", rf"\1 {first}", history, flags=re.M)
    for told, words, verdict in (
        (history, f"--delay {delay} --attempts {('one', 'two', 'three').index(attempts) + 1}", None),
        (history, f"--delay {other}", late), (history, f"--delay {delay} --attempts 1", many),
        (changed, f"--delay {delay}", base),
    ):
        (tmp_path / "h").write_text(told, "ascii")
        ran = run(f"rb_broker replay h --chains {words}")
        wanted = f"unchained {event} {verdict}\n" if verdict else ran.stdout
        assert (ran.returncode, ran.stdout) == (1 if verdict else 0, wanted)


@pytest.mark.parametrize("told", [
    r"After `(AT \d+)`, `(AT \d+)` gets `(.*?)`\.", "`(POLLFOR 0)` gets `(.*?)` instead",
])
def test_a_reply_in_a_sentence(run: Run, told: str) -> None:
    *requests, reply = re.search(told, page(PROTOCOL)).groups()
    replies = run("rb_broker script", "".join(f"{request}\n" for request in requests)).stdout.splitlines()
    assert (len(replies), replies[-1]) == (len(requests), reply)


@pytest.mark.parametrize(("told", "requests"), [
    ("With 64 held `(.*?)` is a call", 64 * HELD + "OFFER 0 b\nDRAIN 1\n"),
    ("A held job is not in the queue, so its `REMOVE` gets `(.*?)`", f"{HELD}REMOVE 0\n"),
])
def test_a_reply_while_jobs_are_held(run: Run, told: str, requests: str) -> None:
    assert run("rb_broker script", requests).stdout.splitlines()[-1] == re.search(told, page(PROTOCOL))[1]


def refusals() -> Iterator[tuple[str, str, str]]:
    """The refusals of the table, each with the requests of an example and the options of their script."""
    for reply, (_, _, example_of) in REFUSALS.items():
        requests = code(example_of)
        if it := re.fullmatch(r"a line of (\d+) bytes", example_of):
            yield reply, int(it[1]) * "x", ""
        elif example_of == "a tab or an `é` in it":
            yield from ((reply, f"OFFER 0 a{character}b", "") for character in "\té")
        elif it := re.fullmatch("`(.*)` after `(.*)`", example_of):
            yield reply, f"{it[2]}\n{it[1]}", ""
        elif it := re.fullmatch(r"the second `(.*?)`(?: with `(.*)`)?", example_of):
            yield reply, f"{'' if it[2] else HELD}{it[1]}\n{it[1]}", it[2] or ""
        else:
            yield from ((reply, request, "") for request in requests)


@pytest.mark.parametrize(("reply", "requests", "options"), refusals())
def test_a_refusal(run: Run, reply: str, requests: str, options: str) -> None:
    assert run(f"rb_broker script {options}", f"{requests}\n").stdout.splitlines()[-1] == reply


def test_the_refusals_that_have_examples() -> None:
    assert len({reply for reply, _, _ in refusals()}) == 7


def test_a_line_of_the_greatest_length_is_no_fault(run: Run) -> None:
    most = int(re.search(r"Before its end it has at most (\d+) bytes", page(PROTOCOL))[1])
    long, longer = (run("rb_broker script", f"{count * 'x'}\n").stdout for count in (most, most + 1))
    assert (long, longer) == ("ERR 1 syntax\n", "ERR 8 line\n")


def test_the_examples_that_the_protocol_names(run: Run) -> None:
    told = "`examples/refusals.txt` shows refusals 1 to 4 and 8, `examples/retries.txt` failures and a `DRAIN`."
    assert told in page(PROTOCOL)
    refusals, retries = (run(f"./broker script < examples/{name}.txt").stdout for name in ("refusals", "retries"))
    assert {*re.findall(r"^ERR (\d)", refusals, re.M)} == {"1", "2", "3", "4", "8"}
    words = [line.split()[0] for line in retries.splitlines() if line.split()[0] != "NOW"]
    assert words == "OFFERED ITEM AGAIN ITEM AGAIN ITEM DONE OFFERED OFFERED DRAINED ITEM ITEM DONE AGAIN BYE".split()


def test_another_program_that_speaks_the_protocol(run: Run, tmp_path: Path, program: str) -> None:
    """The command of the page, with one file of cases."""
    (tmp_path / "my_broker.py").write_text(f"import os, sys\nos.execv({program!r}, [{program!r}, *sys.argv[1:]])\n")
    [command] = [line for line in blocks(page(PROTOCOL)) if line.startswith("tools/conform")]
    ran = run(command.replace("tools/conform", "tools/conform --only refusals.case"))
    assert ran.returncode == 0 and re.search(r"^[1-9]\d* passed, 0 failed, 0 skipped$", ran.stdout, re.M), ran


def test_the_cases_of_a_file(run: Run, tmp_path: Path) -> None:
    """The first command that EXTENDING names for a changed case."""
    command = blocks(section("docs/EXTENDING.md", "A case or a row"))[0].splitlines()[0]
    (tmp_path / "crates").symlink_to(f"{TOP}/crates")
    ran = run(f"{command} $program")
    assert ran.returncode == 0 and re.search(r"^[1-9]\d* passed, 0 failed", ran.stdout, re.M), ran


@pytest.mark.parametrize("line", blocks(section("docs/TESTING.md", "Where a behaviour is tested"))[0].splitlines())
def test_the_lists_of_tests(line: str) -> None:
    ran = subprocess.run(["bash", "-c", line], cwd=TOP, capture_output=True, text=True, check=False)
    assert (ran.returncode, ran.stderr) == (0, "") and ran.stdout


# The blocks of these pages by how they begin, each with the test that runs it. Others are forms, not dialogues; some do
# what costs hours, changes the machine, or takes a compiler.
TRIED = {
    "README.md": {
        "$ printf": "test_the_first_screen", "./broker script": "test_the_first_look",
        "tools/service": "test_five_minutes_as_a_service", "def deliver": "test_five_minutes_as_a_service",
        "PYTHONPATH=": "test_five_minutes_as_a_service", "apt install": "dev/check package", "dev/unproved": "dev/checking/tests",
    },
    PROTOCOL: {
        "rb_broker script": "test_a_synopsis", "rb_broker serve": "test_a_synopsis",
        "AT 100": "test_the_dialogue_of_the_protocol", "sessions 2": "test_the_end_of_a_run_with_two_clients",
        "tools/conform": "test_another_program_that_speaks_the_protocol",
        "requests  =": "test_a_case", "replies   =": "test_a_case", "id        =": "test_a_case",
    },
    HISTORY: {
        "./broker script": "test_the_commands_of_histories", "tools/report": "test_the_commands_of_reports",
        "tools/service": "test_a_run_judged_from_outside", '{"session"': "test_the_record_of_the_page",
        "history 3": "test_a_history_of_the_page",
    },
    "clients/python/README.md": {
        "pip install": "clients/python/tests", "tools/service": "test_tasks_in_five_minutes",
        "from rb_broker_client.tasks": "test_tasks_in_five_minutes", "export PYTHONPATH": "test_tasks_in_five_minutes",
        "def deliver": "test_workers_of_the_python_page", "python3 -m rb_broker_client worker":
        "test_workers_of_the_python_page", "python3 -m rb_broker_client dead": "test_each_option_of_a_tool_is_there",
        "with Producer": "test_programs_of_the_python_page", "with Broker": "test_programs_of_the_python_page",
        **dict.fromkeys(("worker = Worker", "Worker(", "async def", "tls = ssl"), "clients/python/tests"),
    },
    "redis/README.md": {
        "clients --TCP": "a picture", "apt-get install": "dev/setup", "/usr/bin/python3 -m": "test_each_option_of_a_tool_is_there",
        **dict.fromkeys(("mkdir -p", "export PYTHONPATH", "cat > letters.py", "exec 3<>"), "redis/tests"),
    },
    "docs/SCALING.md": {"/usr/bin/python3 -m rb_broker_redis load": "redis/tests"},
    "docs/EXTENDING.md": {"tools/conform": "test_the_cases_of_a_file", "dev/check program": "test_the_tests_that_are_chosen"},
    "docs/TESTING.md": {"dev/test": "dev/test", "ls crates": "test_the_lists_of_tests", "file: ": "dev/attack"},
}


@pytest.mark.parametrize("name", TRIED)
def test_each_block_is_tried(name: str) -> None:
    begins, files = tuple(TRIED[name]), Path(__file__).parent.glob("test_*.py")
    tests = {*re.findall(r"^def (test_\w+)", "\n".join(file.read_text("utf-8") for file in files), re.M)}
    assert {value for value in TRIED[name].values() if value.startswith("test_")} <= tests
    text = re.sub(r"^```.*?^```", "", page(name), flags=re.M | re.S)
    assert not [block for block in blocks(text) if not block.startswith(begins)]


def test_the_end_of_a_run_with_two_clients(program: str) -> None:
    """The client that takes the job and the one that offers it are those of examples/two_clients.sh."""
    text = section(PROTOCOL, "Served sessions")
    worker, giver = re.findall(r"printf '(.*)' >&", example("two_clients.sh"))
    with Server(["--sessions", "2"], program) as server:
        place = "127.0.0.1", server.port
        with socket.create_connection(place) as one, socket.create_connection(place) as two:
            one.sendall(worker.encode().decode("unicode_escape").encode())
            two.sendall(giver.encode().decode("unicode_escape").encode())
            replies = [client.makefile().read() for client in (one, two)]
        status, told, _ = server.end()
    assert (status, "".join(f"{line}\n" for line in told)) == (0, blocks(text)[1]), replies
    assert "`listening 127.0.0.1:P`" in text
