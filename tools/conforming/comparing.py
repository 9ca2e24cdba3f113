"""What differs from a case when it is run, and which cases can't be run."""
import re
import signal
import tempfile
from itertools import takewhile
from operator import eq
from pathlib import Path

from conforming.cases import FAULTS, Case
from conforming.program import Ended, Input, Program, broken_off, in_pieces

FULL = "/dev/full"  # no write to it succeeds

# How many bytes a read gives at most, or None for all that there are. A long input would take too long in small
# pieces, and pieces of 4,095 bytes still cut its lines at many places.
SIZES = {"whole": None, "1": 1, "7": 7}
SIZES_OF_LONG = {"whole": None, "4095": 4095}
LONG = 65_536


def reason_to_skip(case: Case, timers: list[str]) -> str | None:
    """Why the case is not run, if it can't be tested by what a command is given and what it prints."""
    timer, values = case.value("timer"), case.values
    reasons = {
        f"equals come in the order of the timer {timer}, which is not tried": timer and timer not in timers,
        "a script does not print how many jobs were lost": case.is_script and case.lost,
        "a read of standard input can't be interrupted from outside": "reader interrupted" in values,
        "a pipe takes all that is written": "writer takes" in values,
        "a flush of standard output can't be made to fail": case.number("writer fails") % 2 == 1,
        "a flush of the history can't be made to fail": case.number("recorder fails") > 0,
    }
    return next((reason for reason, is_so in reasons.items() if is_so), None)


def difference(program: Program, case: Case, timers: list[str]) -> str | None:
    """What differs from the case, a script in the first of its runs that fails."""
    with tempfile.TemporaryDirectory(prefix="rb-conform-") as room:
        if not case.is_script:
            history = _written(room, "history", case.text("="))
            ended = program.run(["replay", history, *case.words], Input([]))
            return _of_ends(ended, "verdict", case.value("verdict").encode() + b"\n", case.number("status"))
        for timer in [case.value("timer")] if case.value("timer") else timers or [""]:
            for name, size in _sizes(case).items():
                words = ["script", *(["--timer", timer] if timer else []), *case.words]
                told = _of_script(program, case, words, size, room)
                if told:
                    return f"{f'over {timer}, ' if timer else ''}reads {name}: {told}"
    return None


def _sizes(case: Case) -> dict[str, int | None]:
    """The sizes of reads with which a script is run. How an input is cut does not matter where a device fails."""
    if "reader fails" in case.values or "writer fails" in case.values:
        return {"whole": None}
    sizes = SIZES_OF_LONG if len(case.text(">")) > LONG else SIZES
    only = case.value("reads")
    return {only: sizes[only]} if only else sizes


def _of_script(program: Program, case: Case, words: list[str], size: int | None, room: str) -> str | None:
    """What differs first: the replies, the end or the history."""
    history = ""
    if "=" in case.texts:
        history = FULL if "recorder fails" in case.values else f"{room}/history"
        words += ["--history", history]
        Path(room, "history").unlink(missing_ok=True)  # of the run before
    if "from" in case.texts:
        words += ["--from", _written(room, "opening", case.text("from"))]
    ended = _run(program, case, words, size)
    return (
        _of_ends(ended, "replies", case.text("<"), FAULTS.get(case.fault or "", 0))
        or (_of_faults(ended.errors, case.fault) if case.fault else None)
        or (_of_history(history, case.text("=")) if history not in ("", FULL) else None)
    )


def _written(room: str, name: str, content: bytes) -> str:
    """Writes a file, and returns its path."""
    Path(room, name).write_bytes(content)
    return f"{room}/{name}"


def _run(program: Program, case: Case, words: list[str], size: int | None) -> Ended:
    """Runs the script with these words, on the devices that the case names."""
    content = case.text(">")
    if "writer fails" in case.values:
        return program.run_until_closed(words, content, len(lines_of(case.text("<"))))
    if "reader fails" in case.values:
        return program.run(words, broken_off(content[: case.number("reader fails")]))
    return program.run(words, in_pieces(content, size) if size else Input([content]))


def lines_of(text: bytes) -> list[bytes]:
    """The lines of a text, each with its line feed. The last one may have none."""
    return re.findall(rb"[^\n]*\n|[^\n]+", text)


def _of_bytes(what: str, came: bytes, wanted: bytes) -> str | None:
    """The first line that came in place of another, if the texts differ."""
    if came == wanted:
        return None
    lines, others = lines_of(came), lines_of(wanted)
    same = sum(takewhile(bool, map(eq, lines, others)))
    came_here, wanted_here = (ascii(text[same].decode(errors="replace")) if same < len(text) else "nothing"
                              for text in (lines, others))
    return f"{what}, line {same + 1}: {came_here} in place of {wanted_here}"


def _of_ends(ended: Ended, what: str, wanted: bytes, status: int) -> str | None:
    """What differs first: that the run did not end, what it printed, or its status, with standard error."""
    if ended.status == -signal.SIGKILL:
        return "it had to be ended"
    told = _of_bytes(what, ended.output, wanted)
    if told or ended.status == status:
        return told
    return f"status: {ended.status} in place of {status}, {ended.errors.decode(errors='replace')!a}"


def _of_faults(errors: bytes, fault: str) -> str | None:
    """Whether a line of standard error names the fault, after the name of the program."""
    told = errors.decode(errors="replace")
    if any(line.endswith(f": {fault}") for line in told.splitlines()):
        return None
    return f"standard error: {told!a} in place of a line 'NAME: {fault}'"


def _of_history(path: str, wanted: bytes) -> str | None:
    try:
        return _of_bytes("history", Path(path).read_bytes(), wanted)
    except FileNotFoundError:
        return "history: no file was made"
