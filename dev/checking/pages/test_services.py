"""What pages say to do with a service, done as they say it: at a free port, with the program that is tested."""
import contextlib
import os
import re
import signal
import subprocess
import sys
from pathlib import Path
from typing import Callable, Iterator

import pytest

import rb_broker_client
from checking.pages.conftest import PATIENCE
from checking.pages.reading import blocks, page, section
from common.program import TOP
from serving.server import free_port

HISTORY, PYTHON = "docs/HISTORY.md", "clients/python/README.md"

Begins = Callable[[str], contextlib.AbstractContextManager[subprocess.Popen[str]]]


@pytest.fixture
def port() -> int:
    """The port in the place of those that pages name."""
    return free_port()


@pytest.fixture
def begins(tmp_path: Path, program: str, port: int) -> Begins:
    """Begins a line of the shell, in a folder with what a checkout has. At the end it gets Ctrl-C, and must end well."""
    for name in ("tools", "clients"):
        os.symlink(f"{TOP}/{name}", tmp_path / name)

    @contextlib.contextmanager
    def begun(line: str) -> Iterator[subprocess.Popen[str]]:
        line = re.sub(r"\b70\d\d\b", str(port), line.replace("/tmp/", f"{tmp_path}/"))
        own = f" --program {program}" + ("" if "--port" in line else f" --port {port}")
        line = line.replace("tools/", f"{sys.executable} -B tools/").replace("tools/service", f"tools/service{own}")
        how = {"cwd": tmp_path, "text": True, "stdout": subprocess.PIPE, "stderr": subprocess.PIPE}
        environment = {**os.environ, "HOME": str(tmp_path), "PYTHONDONTWRITEBYTECODE": "1", "PYTHONUNBUFFERED": "1"}
        with subprocess.Popen(["bash", "-c", f"exec env {line}"], env=environment, **how) as process:
            try:
                yield process
            finally:
                process.send_signal(signal.SIGINT)
                said = process.communicate(timeout=PATIENCE)
        assert process.returncode == 0, (line, said)

    return begun


def is_served(service: subprocess.Popen[str]) -> bool:
    """Waits until a service says that it serves, and returns whether it does."""
    return any("event=serving" in line for line in service.stderr)


def test_five_minutes_as_a_service(begins: Begins, tmp_path: Path) -> None:
    text = section("README.md", "Five minutes as a service")
    serve, module, commands = blocks(text)
    work, offer = commands.strip().split("\n\n")
    (tmp_path / re.search("write `(.*?)`", text)[1]).write_text(module, "utf-8")
    with begins(serve.strip()) as service:
        assert is_served(service)
        with begins(work) as worker:
            with begins(offer) as offering:
                assert offering.wait(PATIENCE) == 0
            told = re.search("The worker prints `(.*?)`", text)[1]
            assert worker.stdout.readline() == f"{told}\n"


def one_line(block: str) -> str:
    """Settings and a command in one line, which `env` takes."""
    return block.replace("export ", "").replace("\n", " ").strip()


def test_tasks_in_five_minutes(begins: Begins, tmp_path: Path, port: int) -> None:
    serve, module, work, offer = blocks(section(PYTHON, "Tasks in five minutes"))
    (tmp_path / "reminders.py").write_text(module.replace("7011", str(port)), "utf-8")
    with begins(serve.strip()) as service:
        assert is_served(service)
        with begins(one_line(work)) as worker:
            with begins(one_line(offer)) as offering:
                assert offering.wait(PATIENCE) == 0
            assert worker.stdout.readline() == "remind 17 your order\n"


def test_workers_of_the_python_page(begins: Begins, tmp_path: Path) -> None:
    module, commands, *_ = blocks(section(PYTHON, "Workers, one function for each job"))
    serve, _, tasks, _ = blocks(section(PYTHON, "Tasks in five minutes"))
    setting, _ = tasks.split("\n", 1)
    work, offer = (one_line(f"{setting}\n{line}") for line in commands.split("\n\n"))
    (tmp_path / "letters.py").write_text(module, "utf-8")
    with begins(serve.strip()) as service:
        assert is_served(service)
        with begins(work) as worker:
            with begins(offer) as offering:
                assert offering.wait(PATIENCE) == 0
            told = "".join(worker.stdout.readline() for _ in range(2))
    assert pieces(told) == pieces("".join(f"deliver letter-{number} attempt 1\n" for number in (17, 18)))


def pieces(lines: str) -> list[str]:
    """What `print` writes piece by piece, so that the lines of threads may run into each other."""
    return sorted(re.findall(r"deliver|letter-1[78]|attempt|\s|.", lines))


def test_programs_of_the_python_page(begins: Begins, port: int) -> None:
    programs = [block for block in blocks(page(PYTHON)) if block.startswith(("with Producer", "with Broker"))]
    with begins("tools/service") as service:
        assert is_served(service) and len(programs) == 2
        for program in programs:
            names = dict(vars(rb_broker_client))
            exec(program.replace("7011", str(port)), names)
    assert [answer.id > names["job"].id for answer in names["answers"]] == 3 * [True]


def test_a_run_judged_from_outside(begins: Begins) -> None:
    [dialogue, *_] = blocks(section(HISTORY, "A run judged from outside"))
    serve, load, verify = (re.split(" {2,}", line)[0] for line in dialogue.splitlines())
    with begins(serve) as service:
        assert is_served(service)
        with begins(f"{load} --seconds 1") as loading:
            assert loading.wait(PATIENCE) == 0
    with begins(verify) as verifying:
        assert verifying.wait(PATIENCE) == 0


def test_the_record_of_the_page(begins: Begins, tmp_path: Path) -> None:
    """The line break in it is not part of a record. Its offer is the only call of this run."""
    record = next(block for block in blocks(page(HISTORY)) if block.startswith('{"session"')).replace("\n", "")
    (tmp_path / "record").write_text(f"{record}\n", "ascii")
    (tmp_path / "run").write_text("history 3\nopen 0 0 0\n1 5000 5000 offer 0 5000 0 5000 1 a\nend 1\n", "ascii")
    with begins("tools/verify run record --all") as verifying:
        assert verifying.wait(PATIENCE) == 0


def test_the_default_port_and_delay() -> None:
    text = section("README.md", "Five minutes as a service")
    port, seconds = re.search(r"^serves 127\.0\.0\.1:(\d+)\b.* comes back after (\d+) seconds", text, re.M).groups()
    told = subprocess.run([sys.executable, "-B", f"{TOP}/tools/service", "--help"], capture_output=True, text=True,
                          check=True).stdout
    told = " ".join(told.split())
    assert f"(default: {port})" in told and re.search(rf"--delay TIME [^()]*\(default: {seconds}s\)", told)
