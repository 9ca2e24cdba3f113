"""tools/verify as a command: its exit statuses, and what it says about bad input."""
import subprocess
from pathlib import Path
from typing import Callable, NamedTuple

import pytest

from checking.testing import tool
from history_texts import offer, text_of
from verifying.tests.support import Line, Run, line_of, record_of, texts_of, verify

RUN = Run.named("three sessions")
((TEXT,),), RECORD = RUN.texts, record_of(RUN.record)
EVENTS = TEXT.splitlines()[2:-1]
GOOD = line_of("a 5 12 SIZE = SIZE 1")
NONE, EARLY = "no request with its reply, as docs/HISTORY.md describes it", "it was sent or answered before line"

File = Callable[[str, str], str]


class Files(NamedTuple):
    """The files of a run."""

    history: str
    record: str


@pytest.fixture
def file(tmp_path: Path) -> File:
    """Writes a file of this name and text, and gives its path."""

    def written(name: str, text: str) -> str:
        (tmp_path / name).write_text(text, "utf-8")
        return str(tmp_path / name)

    return written


@pytest.fixture
def run(file: File) -> Files:
    return Files(file("run.txt", TEXT), file("record.jsonl", RECORD))


def expect_refused(says: str, *words: str) -> None:
    ran = verify(*words)
    assert (ran.returncode, ran.stdout, ran.stderr) == (2, "", f"verify: {says}\n")


def expect_none(*words: str) -> None:
    """No fault is found."""
    ran = verify(*words)
    assert (ran.returncode, ran.stderr, ran.stdout.splitlines()[-1]) == (0, "", "0 faults"), ran.stdout


def test_what_was_compared(run: Files) -> None:
    assert verify(*run).stdout.splitlines()[:3] == [
        "13 events at 2 seats; 14 requests of 3 sessions",
        "10 replies to calls; 1 request without a reply, 1 of them carried out",
        "2 jobs came back at the end of a session; 0 did not, after the last attempt or in a full run; "
        "0 events in no record",
    ]


def test_records_in_several_files(run: Files, file: File) -> None:
    """The names of sessions are unique within a file, not among all."""
    records = [[{**line, "session": 1} for line in RUN.record if line["session"] == name] for name in "abc"]
    paths = [file(f"{number}.jsonl", record_of(record)) for number, record in enumerate(records)]
    expect_none(run.history, *paths, "--all")


def test_shards(file: File) -> None:
    run = Run.named("two shards")
    record = file("both.jsonl", record_of(run.record))
    names = [f"jobs.{queue}-000000000000.txt" for queue in range(2)]
    histories = [file(name, text) for name, (text,) in zip(names, run.texts)]
    for more in ((), ("--all",)):
        expect_none(*histories, record, "--shards", "2", *more)
    for name in ("jobs-000000000000.txt", "jobs.2-000000000000.txt"):
        path = file(name, TEXT)
        expect_refused(f"{path}: with --shards 2 a history is named NAME.K-NUMBER.txt, with K below 2",
                       path, record, "--shards", "2")


def test_a_run_without_events(file: File) -> None:
    ran = verify(file("empty.txt", "history 1\nend 0\n"), file("none.jsonl", ""), "--all")
    assert (ran.returncode, ran.stderr) == (0, "")
    assert ran.stdout.splitlines()[0] == "0 events at 0 seats; 0 requests of 0 sessions"


def test_a_series_of_histories(run: Files, file: File) -> None:
    opening = ["history 3", "open 3 60 2", "keep 1 60 1 60 1 y", "keep 2 65 0 10 2 x"]
    texts = texts_of([*EVENTS[:6], *opening, *EVENTS[6:]])
    parts = [file(f"{number}.txt", text) for number, text in enumerate(texts)]
    ran, whole = verify(*parts, run.record, "--all"), verify(*run, "--all")
    assert (ran.returncode, ran.stderr, ran.stdout) == (0, "", whole.stdout)
    behind = file("behind.txt", texts[1].replace("open 3 60 2", "open 3 65 2"))
    assert verify(parts[0], behind, run.record, "--all").stdout == whole.stdout
    changed = file("changed.jsonl", RECORD.replace("HEAD 2 65", "HEAD 2 66"))
    assert "changed" in verify(*parts, changed).stdout
    expect_refused(f"{parts[0]}: line 2: it opens with 0 0, and the file before it ends with 5 105",
                   parts[1], parts[0], run.record)
    expect_refused("there is no RECORD", *parts)


@pytest.mark.parametrize(("says", "change"), [
    *((f"line 2: {NONE}", change) for change in (
        {"session": None}, {"sent": "5"}, {"sent": 5.0}, {"sent": -1}, {"received": 2**70}, {"request": 5},
        {"reply": "SIZE 1"}, {"reply": [1]}, {"reply": []}, {"received": 1004})),
    *((f"line 2: {EARLY} 1, of the same session", change) for change in ({"sent": 1004}, {"received": 1011})),
])
def test_a_damaged_line(run: Files, file: File, says: str, change: Line) -> None:
    path = file("damaged.jsonl", record_of([GOOD, {**GOOD, **change}]))
    expect_refused(f"{path}: {says}", run.history, path)


@pytest.mark.parametrize(("says", "text"), [
    *((f"line 1: {NONE}", text) for text in ("nonsense\n", "[1]\n", "{}\n", "\xff\n", record_of([GOOD])[:-1])),
    (f"line 3: {EARLY} 2, of the same session", record_of([GOOD, {**GOOD, "received": None, "reply": []}, GOOD])),
])
def test_a_damaged_record(run: Files, file: File, says: str, text: str) -> None:
    path = file("damaged.jsonl", text)
    expect_refused(f"{path}: {says}", run.history, path)


def test_files_that_can_not_be_read(run: Files, file: File, tmp_path: Path) -> None:
    none, path = f"{tmp_path}/none", file("damaged.txt", TEXT.replace("end 13", "end 12"))
    expect_refused(f"{path}: line 16: it says 12, and the number of events is 13", path, run.record)
    expect_refused(f"{none}: No such file or directory", none, run.record)
    expect_refused(f"{none}: No such file or directory", run.history, none)
    expect_refused(f"{tmp_path}: Is a directory", run.history, str(tmp_path))


@pytest.mark.parametrize(("count", "more"), [
    (0, []), (1, []), (2, ["--shards", "0"]), (2, ["--al"]), (2, ["--shards", "x"]),
])
def test_refused_words(run: Files, count: int, more: list[str]) -> None:
    ran = verify(*run[:count], *more)
    assert (ran.returncode, ran.stdout) == (2, "") and "Traceback" not in ran.stderr


def test_the_first_faults_of_a_kind(file: File) -> None:
    changed = [line_of(f"a {id} {id} OFFER 0 x = OFFERED {id} {id + 1}") for id in range(11)]
    history = file("eleven.txt", text_of(*(offer(id, id, "x", id) for id in range(11))))
    ran = verify(history, file("changed.jsonl", record_of(changed)))
    assert (ran.returncode, ran.stdout.count(": changed: ")) == (1, 10)
    assert "and 1 fault more of the kind changed\n" in ran.stdout
    assert "changed:    11 faults: " in ran.stdout


def test_a_history_and_a_record_that_come_through_pipes(run: Files) -> None:
    command = '"${@:1:3}" <(cat "$4") <(cat "$5") --all'
    ran = subprocess.run(["bash", "-c", command, "bash", *tool("verify"), *run],
                         capture_output=True, encoding="utf-8", check=False)
    assert (ran.returncode, ran.stderr, ran.stdout.splitlines()[-1]) == (0, "", "0 faults")
