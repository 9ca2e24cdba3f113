"""Words that are refused, and files and devices that fail."""
from pathlib import Path

import pytest

from checking.program import audit, lines
from checking.program.conftest import Run
from serving.server import free_port

REFUSED = [
    "", "replay", "scripts", "script more", "script --call 1", "script --calls 0", "script --calls 1000001",
    "script --timer tree", "script --delay 1 --rate 1", "script --attempts 0", "serve", "serve --port 65536",
    "serve --port 1 --workers 0", "script \"$(printf '\\377')\"",
]
# Runs that fail, each with its input, status and line.
FAILING = [
    ("script --from none", "", 3, "cannot read history"),
    ("replay none", "", 3, "cannot read history"),
    ("replay /", "", 3, "cannot read history"),
    ("script --history none/file", "", 3, "cannot write history"),
    ("script --history /dev/full", "SIZE", 3, "cannot write history"),
    ("script < /", "", 3, "cannot read input"),
    ("script >&-", "SIZE", 3, "cannot write output"),
    ("script > /dev/full", "SIZE", 3, "cannot write output"),
    ("--help > /dev/full", "", 3, "cannot write output"),
    ("serve --port $port > /dev/full", "", 3, "cannot write output"),
]


@pytest.mark.parametrize("words", REFUSED)
def test_words_that_are_refused(run: Run, words: str) -> None:
    status, told, errors = run(f"rb_broker {words}", "SIZE\n")
    assert (status, told) == (2, "") and errors


def test_help(run: Run) -> None:
    status, told, errors = run("rb_broker --help")
    assert (status, errors) == (0, "") and "script" in told


@pytest.mark.parametrize(("words", "given", "status", "fault"), FAILING)
def test_a_run_that_fails(run: Run, words: str, given: str, status: int, fault: str) -> None:
    ran = run(f"rb_broker {words}", lines(given), port=free_port())
    assert (ran[0], ran[2]) == (status, f"rb_broker: {fault}\n")


def test_no_memory_for_the_calls(run: Run) -> None:
    status, _, errors = run("ulimit -v 60000; rb_broker script --calls 1000000", "SIZE\n")
    assert (status, errors) == (4, "rb_broker: out of memory\n")


def test_a_history_beside_an_output_that_fails(run: Run) -> None:
    """It is written if the output is full, and not if it is closed."""
    fails = 3, "", "rb_broker: cannot write output\n"
    assert run("rb_broker script --history unmade >&-", "SIZE\n") == fails
    assert run("rb_broker replay unmade") == (3, "", "rb_broker: cannot read history\n")
    assert run("rb_broker script --history full > /dev/full", "OFFER 0 a\n") == fails
    assert run("rb_broker replay full") == (0, lines(audit(calls=1, left=1, offered=1)), "")


def test_a_server_whose_opening_is_bad(run: Run, tmp_path: Path) -> None:
    (tmp_path / "broken").write_text("history 3\n", "ascii")
    status, _, errors = run("rb_broker serve --port $port --from broken", port=free_port())
    assert (status, errors) == (1, "rb_broker: bad opening\n")


def test_a_server_whose_history_can_not_be_created(run: Run) -> None:
    told = run("rb_broker serve --port $port --history none/history", port=free_port())
    assert told == (3, "", "rb_broker: cannot write history\n")


@pytest.mark.parametrize("closed", ["> /dev/full", ">&-"])
def test_a_server_whose_output_fails_leaves_the_history_before(run: Run, tmp_path: Path, closed: str) -> None:
    (tmp_path / "earlier").write_text("of an earlier run\n", "ascii")
    status, _, errors = run(f"rb_broker serve --port $port --history earlier {closed}", port=free_port())
    assert (status, errors) == (3, "rb_broker: cannot write output\n")
    assert (tmp_path / "earlier").read_text("ascii") == "of an earlier run\n"
