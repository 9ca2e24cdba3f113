"""What several tests need: runs as runs.txt has them, as files, and the tool as a command."""
import io
import json
import re
import subprocess
from pathlib import Path
from typing import Any, Iterable, Sequence

from checking.testing import run_tool
from verifying.history import History
from verifying.judge import Verdict
from verifying.record import read_record

RUNS = Path(__file__).with_name("runs.txt").read_text("utf-8")
KINDS = {"strange", "changed", "missing", "twice", "gap", "order", "seat", "return", "time", "unrecorded"}
AHEAD = 1000  # how far the clients' clock is ahead of the server's

Line = dict[str, Any]

_TEXT = re.compile(r"(?:([0-9]): )?((?:history|open|keep) .*|[0-9]+ [0-9]+ [0-9]+ [a-z].*)")
_EXCHANGE = re.compile(r"(\S+) ([0-9]+) ([0-9]+|-) (.*?)(?: =(.*))?")


class Run:
    """The lines of a run: `texts` of histories, which follow one another, by queue, and `record`, of all sessions."""

    def __init__(self, lines: Iterable[str]) -> None:
        found = [(line, _TEXT.fullmatch(line)) for line in lines]
        queues = sorted({text[1] or "" for _, text in found if text})
        self.texts = [texts_of([text[2] for _, text in found if text and (text[1] or "") == queue]) for queue in queues]
        self.record = [line_of(line) for line, text in found if not text]

    @classmethod
    def named(cls, name: str) -> "Run":
        """A run of runs.txt as it was."""
        lines = RUNS.partition(f"\nrun {name}\n")[2].splitlines()
        return cls(lines[:next(number for number, line in enumerate(lines) if line.startswith(("=", "--")))])

    def histories(self) -> list[History]:
        return [history_of(*texts, shard=queue if len(self.texts) > 1 else None)
                for queue, texts in enumerate(self.texts)]


def texts_of(lines: list[str]) -> list[str]:
    """The texts of the files of a history, of whose first one the head may be left out, and each without its end."""
    lines = lines if lines[0].startswith("history") else ["history 3", "open 0 0 0", *lines]
    firsts = [number for number, line in enumerate(lines) if line.startswith("history")]
    files = [lines[first:end] for first, end in zip(firsts, [*firsts[1:], len(lines)])]
    return ["\n".join([*file, f"end {sum(line[0].isdigit() for line in file)}", ""]) for file in files]


def line_of(told: str) -> Line:
    """The line of a record that is written as in runs.txt."""
    found = _EXCHANGE.fullmatch(told)
    assert found, told
    session, sent, received, request, reply = found.groups()
    times = {"sent": AHEAD + int(sent), "received": None if received == "-" else AHEAD + int(received)}
    return {"session": session, **times, "request": request, "reply": [] if reply is None else reply[1:].split(" / ")}


def record_of(record: Iterable[Line]) -> str:
    return "".join(f"{json.dumps(line)}\n" for line in record)


def history_of(*texts: str, shard: int | None = None) -> History:
    """The history in these texts."""
    history = History(shard)
    for text in texts:
        history.read(io.BytesIO(text.encode()))
    return history


def counts_in(said: str) -> dict[str, int]:
    """The number of faults of each kind that has any, by what tools/verify prints, which has all kinds and the sum."""
    told = re.findall(r"^(\w+): +([\d,]+) faults?:", said, re.M)
    counts = {kind: int(count.replace(",", "")) for kind, count in told}
    assert counts.keys() | {"unrecorded"} == KINDS, said
    assert re.fullmatch(rf"{sum(counts.values()):,} faults?", said.splitlines()[-1]), said
    return {kind: count for kind, count in counts.items() if count}


def verify(*words: object) -> subprocess.CompletedProcess[str]:
    return run_tool("verify", *words)


def judged(
    histories: Sequence[History], record: list[Line], is_whole: bool = True, has_leases: bool = False
) -> tuple[dict[str, int], list[str]]:
    """The number of faults of each kind that has any, and the lines of the faults."""
    exchanges = (("record.jsonl", exchange) for exchange in read_record(io.BytesIO(record_of(record).encode())))
    lines = Verdict(histories, exchanges, is_whole, has_leases).lines()
    return counts_in("\n".join(lines)), [line for line in lines if re.search(r": (%s): " % "|".join(KINDS), line)]
