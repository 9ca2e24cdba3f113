"""What the package installs: the service, and beside it the tools, examples and pages that its pages tell of."""
import filecmp
import gzip
import re
from pathlib import Path

import pytest

from bundling.debian import version_of_repository
from bundling.manuals import COMMANDS
from bundling.tests.running import DONE, Told, run
from bundling.tests.serving_below import FEW, serving, talk
from common.program import TOP

DOCUMENTS = "usr/share/doc/rb-broker"
OF_A_CHECKOUT = {"package", "conform"}
OF_USERS = ("README", "docs/OPERATING", "docs/PROTOCOL", "docs/HISTORY", "docs/DELAYQUEUE", "docs/SCALING",
            "clients/python/README", "redis/README")  # pages


def test_two_runs_of_a_service(root: Path, tmp_path: Path) -> None:
    """The second continues the first."""
    for requests, form in (
        (("OFFER 0 a", "TAKE", "OFFER 0 b"), r"OFFERED \d+ \d+\nITEM \d+ \d+ 1 a\nOFFERED \d+ \d+\nBYE\n"),
        (("SIZE", "POLL"), r"SIZE 2\nITEM \d+ \d+ 1 b\nBYE\n"),
    ):
        with serving(root, tmp_path, *FEW) as service:
            replies = talk(service.port, *requests, "QUIT")
            assert re.fullmatch(form, replies), replies
            assert service.stop() == 0 and " left=2" in "\n".join(service.lines), service.lines


def test_the_program(root: Path, program: str) -> None:
    """It is packed byte for byte, and is begun by a script, which knows the version."""
    assert filecmp.cmp(f"{root}/usr/lib/rb_broker/rb_broker", program, shallow=False)
    command = f"{root}/usr/bin/rb_broker"
    assert run(command, "script") == DONE
    told = run("env", f"DPKG_ADMINDIR={root}/var/lib/dpkg", command, "--version")
    assert told == Told(0, f"rb_broker {version_of_repository()[0]}\n", "")


def test_tools_that_pages_name(root: Path) -> None:
    """Each is a command, unless it is for those who have a checkout, as some pages are."""
    pages = "".join(Path(root, DOCUMENTS, f"{page}.md").read_text("utf-8") for page in OF_USERS)
    assert {*re.findall(r"\btools/([a-z_]+)\b(?!/)", pages)} - OF_A_CHECKOUT == {*COMMANDS}


@pytest.mark.parametrize("name", COMMANDS)
def test_help_of_an_installed_tool(name: str, root: Path) -> None:
    told = run(f"{root}/usr/bin/rb_broker_{name}", "--help")
    assert told.status == 0 and told.said.startswith(f"usage: rb_broker_{name} ") and "tools/" not in told.said, told


def test_changelogs(root: Path, tmp_path: Path) -> None:
    """CHANGELOG.md is there as it is, and dpkg can read Debian's own."""
    text, of_debian = (gzip.decompress(Path(root, DOCUMENTS, f"changelog{kind}.gz").read_bytes())
                       for kind in ("", ".Debian"))
    assert text == Path(TOP, "CHANGELOG.md").read_bytes()
    Path(tmp_path, "changelog").write_bytes(of_debian)
    told = run("dpkg-parsechangelog", "-l", f"{tmp_path}/changelog", "--show-field", "Source")
    assert told == Told(0, "rb-broker\n", "")


def test_load_and_report(root: Path, tmp_path: Path) -> None:
    """rb_broker_load puts load on a server, and rb_broker_report sums up its history."""
    with serving(root, tmp_path, "--calls", "10000", "--sessions", "40") as service:
        words = ["--port", str(service.port), "--clients", "4", "--rate", "100", "--seconds", "1"]
        told = run(f"{root}/usr/bin/rb_broker_load", *words)
        shown = run(f"{root}/usr/bin/rb_broker_service", "--status", "--folder", str(tmp_path))
    assert told.status == 0 and "\nerrors 0\n" in told.said, told
    assert shown.status == 0 and shown.said.startswith(f"port {service.port}: serving, run 1"), shown
    calls = service.wait("saved")["calls"]
    told = run(f"{root}/usr/bin/rb_broker_report", f"{tmp_path}/run-1.txt")
    assert told.status == 0 and f" {calls} events, " in told.said, told
