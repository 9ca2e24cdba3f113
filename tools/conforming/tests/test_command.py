"""tools/conform as a command: programs that are right, or wrong in one way, and words with which nothing can be run.
Each flaw is tried with one case or a few."""
import os
import sys
from pathlib import Path

import pytest

from checking.testing import run_tool
from common.program import TOP
from conforming.program import Input, Program

WRONG = [sys.executable, "-B", f"{TOP}/tools/conforming/tests/wrong_broker.py"]
STOPS, FAILS = "what is stopped is no event", "no run goes on behind an empty text"


def conform(*words: object) -> tuple[int, list[str], str]:
    """Runs the tool: its status, the lines that it prints, and standard error."""
    run = run_tool("conform", *words)
    return run.returncode, run.stdout.splitlines(), run.stderr


def counts_of(line: str) -> list[int]:
    """The three counts of the last line."""
    return [int(word) for word in line.split() if word.isdigit()]


def test_our_program_passes(program: str) -> None:
    status, lines, errors = conform("--timers", program)
    passed, failed, skipped = counts_of(lines[-1])
    assert (status, failed, errors) == (0, 0, ""), lines
    texts = [path.read_text(encoding="utf-8") for path in Path(TOP, "crates/rb_cases/data").glob("*.case")]
    assert passed + skipped == sum(f"\n{text}".count("\ncase ") for text in texts)
    assert sum("skipped: " in line for line in lines) == skipped


def test_a_wrapper_without_a_flaw_passes(program: str) -> None:
    status, lines, _ = conform("--only", "refusals.case", *WRONG, "no flaw", program)
    assert (status, counts_of(lines[-1])[1:]) == (0, [0, 0]), lines


@pytest.mark.parametrize(("flaw", "only", "told"), [
    ("a wait ends with NONE", "what would wait is stopped", "'NONE\\n' in place of 'STOPPED\\n'"),
    ("attempts are not counted", "a run goes on behind another", "'ITEM 1 1000 1 a\\n' in place of"),
    ("lines end with CR LF", "time does not go back", "'NOW 100\\r\\n' in place of 'NOW 100\\n'"),
    ("no BYE", "quit ends a session before a whole line", "nothing in place of 'BYE\\n'"),
    ("the last line has no end", "quit ends a session before a whole", "'BYE' in place of 'BYE\\n'"),
    ("refused events count from 1", "replays.case", "verdict, line 1: 'refused 2 "),
    ("the history is empty", STOPS, "nothing in place of 'history 3\\n'"),
    ("a history has no end", STOPS, "'end 2' in place of 'end 2\\n'"),
    ("the status is 0", FAILS, "status: 0 in place of 1"),
    ("the fault is not told", FAILS, "'NAME: bad opening'"),
    ("the status is 0", "a writer fails at the write of reply 2", "status: 0 in place of 3"),
    ("the fault is not told", "a reader fails behind a line", "'NAME: cannot read input'"),
    ("the fault is not told", "a history that can't be written", "'NAME: cannot write history'"),
])
def test_a_flaw_is_found_and_reported(program: str, flaw: str, only: str, told: str) -> None:
    status, lines, errors = conform("--only", only, *WRONG, flaw, program)
    assert (status, errors) == (1, ""), lines
    assert told in "\n".join(lines) and counts_of(lines[-1])[1] > 0


@pytest.mark.parametrize(("options", "told", "counts"), [
    ([], "the heap is used: skipped: ", [0, 0, 1]), (["--timers"], "", [1, 0, 0]),
])
def test_a_case_of_one_timer(program: str, options: list[str], told: str, counts: list[int]) -> None:
    status, lines, _ = conform(*options, "--only", "the heap is used", program)
    assert (status, counts_of(lines[-1])) == (0, counts) and told in lines[0]


def test_files_that_are_named(program: str, tmp_path: Path) -> None:
    right, wrong = tmp_path / "right.case", tmp_path / "wrong.case"
    right.write_text("case a\n> SIZE\n< SIZE 0\nends input 0\n")
    wrong.write_text("case b\n> SIZE\n< SIZE 1\nends input 0\n")
    told = "over list, reads whole: replies, line 1: 'SIZE 0\\n' in place of 'SIZE 1\\n'"
    counted = "1 passed, 1 failed, 0 skipped"
    assert conform("--timers", right, wrong, program) == (1, [f"wrong.case:1: b: {told}", counted], "")


def test_a_file_that_is_malformed_or_absent(tmp_path: Path) -> None:
    misspelt = tmp_path / "misspelt.case"
    misspelt.write_text("case a\n> SIZE\nend input 0\n")
    assert conform(misspelt) == (2, [], f"conform: {misspelt}:3: no word of a case: end\n")
    status, lines, errors = conform("none.case")
    assert (status, lines) == (2, []) and "none.case" in errors


def test_a_run_that_hangs_is_ended_with_what_it_started() -> None:
    ended = Program(["sh", "-c", "echo begun; sleep 600; echo on"], patience=1).run([], Input([]))
    assert (ended.status, ended.output) == (-9, b"begun\n")


def test_a_file_that_is_no_program(tmp_path: Path) -> None:
    path = tmp_path / "empty"
    path.touch()
    os.chmod(path, 0o700)
    status, lines, errors = conform("--only", "time does not go back", path)
    assert (status, lines, len(errors.splitlines())) == (2, [], 1), errors


@pytest.mark.parametrize(("words", "told"), [
    (["/nowhere/broker", "--only", "no such case"], "there is no program /nowhere/broker"),
    (["/nowhere/queues.rows"], "/nowhere/queues.rows: tables are run by dev/cases"),
    (["--only", "no such case", "true"], "no case has 'no such case' in its name"),
])
def test_words_that_are_refused(words: list[str], told: str) -> None:
    status, lines, errors = conform(*words)
    assert (status, lines) == (2, []) and told in errors.splitlines()[-1]
