"""What pages say of faults: each text is the program's own, and each of the program's texts is there."""
import re
from pathlib import Path

import pytest

from checking.pages.conftest import Run
from checking.pages.reading import blocks, code, page, section, tables
from checking.pages.test_words import NOW, spoken
from common.program import TOP
from rb_broker_formats.acts import BY_KEYWORD

PROTOCOL, HISTORY, OPERATING = (f"docs/{name}.md" for name in ("PROTOCOL", "HISTORY", "OPERATING"))
ENDS = [(int(row[0]), "".join(code(row[1])[:1])) for row in tables(section(PROTOCOL, "How a run ends"))[0]]
# Runs that end by a fault, each with its line.
RUNS = {
    "bad opening": "echo x > f; rb_broker script --from f",
    "cannot read input": "rb_broker script < .",
    "cannot write output": "echo SIZE | rb_broker script > /dev/full",
    "cannot read history": "rb_broker script --from nowhere",
    "cannot write history": "rb_broker script --history /nowhere/f",
    "cannot listen": "rb_broker serve --port 9 --socket 3 3< /dev/null",
    "error: ": "rb_broker script --no-such-option",
}


def source(*names: str) -> str:
    return "\n".join(Path(TOP, name).read_text("utf-8") for name in names)


def verdicts() -> set[tuple[str, str]]:
    """The first words and the reasons in the verdicts of the case files, which the gate compares with the program's."""
    files = Path(TOP, "crates/rb_cases/data").glob("*.case")
    text = "\n".join(file.read_text("utf-8") for file in files)
    return {*re.findall(r"^verdict (\w+) \d+ (.*)$", text, re.M)}


def test_the_faults_of_a_run() -> None:
    file = source("crates/rb_ending/src/broker_fault.rt")
    texts = dict(re.findall(r'#\[error\("(.*)"\)\]\n    (\w+),', file))
    status = {"BadOpening": 1, "Memory": 4}
    wanted = {(status.get(variant, 3), text) for text, variant in texts.items()} | {(0, ""), (2, "error: ")}
    assert {*ENDS} == wanted


@pytest.mark.parametrize("line", RUNS)
def test_a_fault_of_a_run(run: Run, line: str) -> None:
    ran = run(RUNS[line])
    says = line if line == "error: " else f"rb_broker: {line}\n"
    assert ran.stderr.startswith(says) and (ran.returncode, line) in ENDS, ran


def test_the_refusals_of_requests() -> None:
    texts = re.findall(r'b"(ERR \d [\w-]+)"', source("crates/rb_protocol/src/line_reply.rt"))
    table = [row[0].strip("`") for row in tables(section(PROTOCOL, "Refusals"))[0]]
    grammar = re.findall(r'%s"(\d [\w-]+)"', section(PROTOCOL, "Grammar"))
    assert sorted(table) == sorted(texts) == sorted(f"ERR {fault}" for fault in grammar)


@pytest.mark.parametrize("name", NOW)
def test_each_refusal_is_one_of_the_protocol(name: str) -> None:
    """With its word, or by its number alone."""
    refusals = {row[0].strip("`") for row in tables(section(PROTOCOL, "Refusals"))[0]}
    told = {*re.findall(r"\bERR \d(?: [a-z-]+)?", spoken(name))}
    assert told <= refusals | {refusal.rpartition(" ")[0] for refusal in refusals}


def test_the_statuses_of_replays(run: Run, tmp_path: Path) -> None:
    """Of each line of the table, by a history that gets it."""
    statuses = {code(row[0])[0].partition(" ")[0]: int(row[2]) for row in tables(page(HISTORY))[0]}
    chained = blocks(section(HISTORY, "Why retries are not right"))[-1]
    for begins, history in {
        '{"calls":': chained, "unreadable": "", "refused": chained.replace("poll 0", "poll none"),
        "unchained": chained.replace("0 0 2 a", "0 0 3 a"),
    }.items():
        (tmp_path / "h").write_text(history, "ascii")
        ran = run("rb_broker replay h --chains --delay 1000")
        [status] = [status for line, status in statuses.items() if line.startswith(begins)]
        assert ran.stdout.startswith(begins) and ran.returncode == status, ran


def test_the_reasons_of_replays() -> None:
    unreadable = {row[0].strip("`") for row in tables(section(HISTORY, "Why a text can't be read"))[0]}
    headings = "Why a history is not legal", "Why retries are not right"
    rows = [row for heading in headings for row in tables(section(HISTORY, heading))[0]]
    reasons = {reason for row in rows for reason in re.findall(r": `([a-z ]+)`|, `([a-z ]+)`", row[1])}
    assert unreadable | {one or other for one, other in reasons} == {reason for _, reason in verdicts()}
    assert {*re.findall(r"^\| `(\w+) (?:LINE|INDEX) REASON`", page(HISTORY), re.M)} == {word for word, _ in verdicts()}


def test_the_words_of_acts() -> None:
    rows = tables(section(HISTORY, "The third version"))[1]
    assert {word.partition(" ")[0] for row in rows for word in code(row[1]) if word != "MAX"} == {*BY_KEYWORD}


def test_the_kinds_of_faults_of_verify() -> None:
    told = dict(re.findall(r'^    "(\w+)": "(.*)",$', source("tools/verifying/faults.py"), re.M))
    rows = {row[0].strip("`"): row[1] for row in tables(section(HISTORY, "A run judged from outside"))[0]}
    rows["unrecorded"] = rows["unrecorded"].rpartition(": ")[2]
    assert rows == told


def of_service() -> str:
    """The sources of the service."""
    files = Path(TOP, "tools/servicing").glob("*.py")
    return source("tools/service", *(file.relative_to(TOP).as_posix() for file in files))


def test_the_events_of_a_service() -> None:
    events = {*re.findall(r"event=([a-z-]+)", page(OPERATING))}
    assert events and not {event for event in events if f'"{event}"' not in of_service()}


LINES = [(row[0], line) for row in tables(section(OPERATING, "When nothing is served"))[0] for line in code(row[1])]


@pytest.mark.parametrize(("status", "line"), LINES)
def test_the_lines_of_a_service_that_ends(status: str, line: str) -> None:
    """Each piece between what varies, `..`, is a text of the service, or a fault of the program."""
    assert status in ("1", "2")
    texts = re.sub(r'"\s*\n\s*f?"', "", of_service() + source("crates/rb_ending/src/broker_fault.rt"))
    for piece in re.split(r"\.\.| N\b|: Address already in use|event=|: rb_broker: |\bthe service of process\b", line):
        piece = piece.strip(" ,()")
        assert piece in texts, piece
