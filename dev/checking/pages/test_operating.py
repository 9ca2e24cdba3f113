"""The dialogues and commands of OPERATING, run as they stand, with free ports in the place of its own."""
import json
import os
import re
import shutil
import subprocess
import sys
import time
import urllib.request
from pathlib import Path
from typing import Callable, Iterator

import pytest

from checking.pages.reading import blocks, code, page, section, tables
from common.program import TOP
from serving import PATIENCE
from serving.server import free_port
from serving.session import Session
from servicing.looking import ASK
from servicing.tests.process import Service

OPERATING = "docs/OPERATING.md"
START, LINES = blocks(section(OPERATING, "Starting"))[0].split("\n\n")
SERVING = re.compile(r"event=serving run=(\d+) port=(\d+) elements=(\d+) process=\d+(?: closed=[\d.]+s)?$", re.M)

WORDS = {"four": 4, "five": 5, "six": 6}

Begins = Callable[..., Service]


@pytest.fixture
def begins(tmp_path: Path, monkeypatch: pytest.MonkeyPatch) -> Iterator[Begins]:
    """Begins services by commands of the page, at ports of their own, and waits until they serve. None is left at the
    end."""
    (tmp_path / "memory").mkdir()
    monkeypatch.setenv("XDG_RUNTIME_DIR", str(tmp_path / "memory"))
    services: list[Service] = []

    def begun(command: str, *options: str) -> Service:
        services.append(Service(str(tmp_path / "runs"), *command.split()[1:], *options))
        services[-1].wait("serving")
        return services[-1]

    yield begun
    for service in services:
        service.kill_all()


@pytest.fixture
def served(begins: Begins) -> Service:
    """The service of the page's first screen."""
    return begins(START)


def names(line: str) -> list[str]:
    """What a line of the service tells."""
    return re.findall(r"(\w+)=", line)


def test_the_first_lines(served: Service) -> None:
    told = LINES.splitlines()
    assert [names(line) for line in served.lines[:2]] == [names(line) for line in told]
    assert SERVING.search(told[1]) and SERVING.search(served.lines[1]).groups() == ("1", str(served.port), "0")


def test_the_requests_by_hand(served: Service) -> None:
    """And the greeting that comes first."""
    text = section(OPERATING, "Starting")
    greeting, *requests = (re.search(rf"such as {form}", text)[1] for form in ("`(RUN [^`]*)`", "`(OFFER [^`]*)`"))
    assert re.search(r"such as `OFFER 0 letter`, `TAKE`, `DONE` with the id in its reply, and `QUIT`", text)
    with Session(served.port) as session:
        assert re.sub(r"\d+$", "0", session.line()) == greeting
        assert session.ask(requests[0]).startswith("OFFERED ")
        words = session.ask("TAKE").split(" ")
        assert (words[0], words[4], session.ask(f"DONE {words[1]}"), session.ask("QUIT")) == (
            "ITEM", "letter", f"DONE {words[1]}", "BYE")


def test_the_greeting_costs_no_call(served: Service) -> None:
    form = re.search("`(RUN n lost k at m)`", section(OPERATING, "The greeting"))[1]
    with Session(served.port) as session:
        assert re.fullmatch(re.sub(r"\b[nkm]\b", r"\\d+", form), session.line())
        session.ask("QUIT")
    assert served.stop() == 0
    saved = json.loads(Path(served.folder, "run-1.json").read_text("ascii"))["end"]
    count, seconds = re.search(r"The service itself makes (\w+) calls every (\w+) seconds", page(OPERATING)).groups()
    assert WORDS[seconds] == ASK and saved["calls"] % WORDS[count] == 0, "the service's own calls alone"


@pytest.mark.skipif(not shutil.which("perl"), reason="there is no perl")
def test_the_worker_in_perl(served: Service, tmp_path: Path) -> None:
    command = re.search(r"`(examples/worker\.pl 7011) COMMAND`", section(OPERATING, "Starting"))[1]
    with Session(served.port) as session:
        session.line()
        session.ask("OFFER 0 letter")
        session.ask("QUIT")
    does = "sh", "-c", f'echo "$1" >> {tmp_path}/done', "sh"
    words = ["perl", *command.replace("7011", str(served.port)).split(), *does]
    with subprocess.Popen(words, cwd=TOP, stderr=subprocess.DEVNULL) as worker:
        end = time.monotonic() + PATIENCE
        while not (tmp_path / "done").exists() or not (tmp_path / "done").read_text().endswith("\n"):
            assert time.monotonic() < end and worker.poll() is None
            time.sleep(0.05)
        worker.terminate()
    assert (tmp_path / "done").read_text() == "letter\n"


def test_the_line_of_a_rollover(begins: Begins) -> None:
    (told,) = blocks(section(OPERATING, "Rollovers and ends"))
    service = begins("tools/service", "--every", "1s")
    service.wait("serving", 2)
    assert service.stop() == 0
    _, line, *_ = (line for line in service.lines if " event=serving " in line)
    assert names(line)[2:] == names(told) and SERVING.search(line) and SERVING.search(told)


def test_the_files_of_the_folder(begins: Begins) -> None:
    """Each file that a service leaves is in the table."""
    told = {name for row in tables(section(OPERATING, "The folder"))[0] for name in code(row[0])}
    service = begins("tools/service", "--every", "1s")
    service.wait("serving", 3)
    there = {re.sub(r"\d+", "N", name) for name in os.listdir(service.folder)}
    assert {name for name in there if not name.endswith(".new")} <= told


PATHS = [code(row[0])[0] for row in tables(section(OPERATING, "Watching"))[0]]


def test_the_paths_that_are_told() -> None:
    assert {*PATHS} == {"/", "/runs/NUMBER", "/jobs/WORD", "/metrics", "/health"}


@pytest.mark.parametrize("path", PATHS)
def test_a_path_of_the_page(begins: Begins, path: str) -> None:
    command, status = blocks(section(OPERATING, "Watching"))[:2]
    path = path.replace("NUMBER", "1").replace("WORD", "letter")
    count = 2 if path == "/runs/1" else 1
    service = begins(command.replace("7080", "0"), *(("--every", "1s") if count == 2 else ()))
    service.wait("serving", count)
    address = f"http://{service.all('service')[0]['http']}{path}"
    with urllib.request.urlopen(address, timeout=5 * PATIENCE) as answer:  # a report waits for whatever else runs
        assert answer.status == 200
    asks = [sys.executable, "-B", f"{TOP}/tools/service", *status.split()[1:], "--folder", service.folder]
    ran = subprocess.run(asks, capture_output=True, text=True, check=False)
    assert ran.stdout.startswith(f"port {service.port}: ") and (ran.returncode == 0 or count == 2), ran
    service.stop()
    unhealthy = int(re.search(r"prints what `/health` says, .*; status (\d) means not healthy", page(OPERATING))[1])
    assert subprocess.run(asks, capture_output=True, check=False).returncode == unhealthy


def test_a_load(begins: Begins) -> None:
    served, _, load = blocks(section(OPERATING, "Trying a load"))[0].splitlines()
    assert served.split()[1:] == ["--port", "7013", "--folder", "/tmp/load"]
    service = begins("tools/service")
    words = load.replace("7013", str(service.port)).split()
    ran = subprocess.run([sys.executable, "-B", f"{TOP}/{words[0]}", *words[1:]], capture_output=True, text=True,
                         check=False)
    assert service.stop() == 0
    end = re.search("The summary ends with `(.*?)`", section(OPERATING, "Trying a load"))[1]
    assert ran.returncode == 0 and ran.stdout.rstrip().endswith(end), ran


@pytest.mark.skipif(not shutil.which("openssl"), reason="there is no openssl")
@pytest.mark.skipif(not shutil.which("stunnel"), reason="there is no stunnel")
def test_tls(served: Service, tmp_path: Path) -> None:
    """The certificates, the file for stunnel and the client, of the name localhost."""
    text = section(OPERATING, "Exposing the port")
    _, makes, file, client = blocks(text)
    for line in makes.splitlines():
        line = line.replace("server.example", "localhost").replace("/etc/stunnel", str(tmp_path))
        subprocess.run(line, shell=True, cwd=tmp_path, check=True, capture_output=True)
    shutil.copy(tmp_path / "client.pem", tmp_path / "clients.pem")
    assert [(tmp_path / it).stat().st_mode & 0o077 for it in ("server.key", "server.pem")] == [0, 0]
    port = free_port()
    for old, new in ("7012", f"127.0.0.1:{port}"), ("7011", str(served.port)), ("/etc/stunnel", str(tmp_path)):
        file = file.replace(old, new)
    (tmp_path / "stunnel.conf").write_text(f"foreground = yes\npid =\n{file}", "ascii")
    with subprocess.Popen(["stunnel", tmp_path / "stunnel.conf"], stderr=subprocess.DEVNULL) as proxy:
        words = client.replace("server.example", "localhost").replace("7012", str(port)).split()
        environment, end = {**os.environ, "PYTHONPATH": f"{TOP}/clients/python/src"}, time.monotonic() + PATIENCE
        while True:
            ran = subprocess.run([sys.executable, *words[1:]], cwd=tmp_path, env=environment, capture_output=True,
                                 text=True, check=False)
            if ran.returncode == 0 or time.monotonic() > end or proxy.poll() is not None:
                break
            time.sleep(0.2)
        proxy.terminate()
    assert (ran.returncode, ran.stdout) == (0, "SIZE 0\n"), ran


TAKEN = ".. is in use by the service of process ..", "cannot listen at port ..: Address already in use"


def ends() -> list[tuple[str, str]]:
    """Each line of the table of ends, with its status."""
    return [(row[0], code(row[1])[0]) for row in tables(section(OPERATING, "When nothing is served"))[0]]


def test_the_ends_that_are_told(served: Service, tmp_path: Path, program: str) -> None:
    """Another service has the folder, or the port."""
    told = dict((line, status) for status, line in ends())
    for folder, line in zip((served.folder, tmp_path / "other"), TAKEN):
        words = [sys.executable, "-B", f"{TOP}/tools/service", "--program", program, "--folder", folder,
                 "--port", str(served.port)]
        ran = subprocess.run(words, capture_output=True, text=True, check=False)
        assert str(ran.returncode) == told[line]
        assert re.search(re.escape(line).replace(r"\.\.", ".*"), ran.stderr.splitlines()[-1])
