"""The cases of a file: runs and their expected results. crates/rb_cases/src/case.rt describes how one is written. The
gate refuses each file that is malformed; here a line is refused that is none of a case, or has a word that is none, and
a case that has no outcome or the name of another."""
import operator
import os
import re
from dataclasses import dataclass, field
from pathlib import Path
from typing import Sequence

TIMERS = ("list", "heap", "pairing", "wheel")

# The exit status of a run that ends by a fault, by the fault's text.
FAULTS = {
    "bad opening": 1,
    "cannot read history": 3,
    "cannot read input": 3,
    "cannot write history": 3,
    "cannot write output": 3,
    "too many reads": 3,
    "out of memory": 4,
}

# The words that a case has at most once. Those of a device have a second word.
ONCE = {
    "args", "ends", "verdict", "status", "timer", "reads", "reader fails", "reader interrupted", "writer fails",
    "writer takes", "recorder fails",
}
DEVICES = ("reader", "writer", "recorder")
ENDS = re.compile(r"(?:quit|input) \d+")

# A line of a text, a part of one, which has no end, or several: `>`, `>~` or `>*500`.
TEXT = re.compile(r"(from|[<>=])(?:(~)|\*(\d+))?")
ESCAPE = re.compile(rb"\\(?:([\\rn])|x(..)|(#)|\(([^ )]*) ([^)]*)\))")
MARKS = {b"\\": b"\\", b"r": b"\r", b"n": b"\n"}
STEPS = {"": operator.add, "+": operator.add, "*": operator.mul, "%": operator.mod}


class Malformed(ValueError):
    """A line that is none of a case: its file, its number and the reason, as rb_cases tells them."""


@dataclass
class Case:
    """A case as its file describes it: the values of the words that occur once, and its texts."""

    file: str
    line: int
    name: str
    values: dict[str, str] = field(default_factory=dict)
    texts: dict[str, bytes] = field(default_factory=dict)

    def take(self, word: str, told: str) -> None:
        """Takes a line, which begins with this word."""
        if text := TEXT.fullmatch(word):
            mark, is_part, times = text.groups()
            end = b"" if is_part else b"\n"
            lines = (text_of(told, index) + end for index in range(int(times or 1)))
            self.texts[mark] = self.text(mark) + b"".join(lines)
            return
        if word in DEVICES:
            kind, _, told = told.partition(" ")
            word = f"{word} {kind}"
        if word not in ONCE:
            raise Malformed(f"no word of a case: {word}")
        if word in self.values:
            raise Malformed(f"{word} stands twice in a case")
        if word == "timer" and told not in TIMERS or word == "ends" and told not in FAULTS and not ENDS.fullmatch(told):
            raise Malformed(f"{word} does not take {told}")
        self.values[word] = told

    @property
    def is_script(self) -> bool:
        """Whether the case runs a script, rather than replaying a history."""
        return "ends" in self.values

    @property
    def words(self) -> list[str]:
        """The words after `script` or `replay`."""
        return self.value("args").split()

    @property
    def fault(self) -> str | None:
        """The text of the fault with which the script ends."""
        return self.value("ends") if self.value("ends") in FAULTS else None

    @property
    def lost(self) -> int:
        """How many held jobs are lost at the end of the script."""
        return 0 if self.fault else int(self.value("ends").partition(" ")[2])

    def text(self, mark: str) -> bytes:
        """The text of this mark, which is empty if the case has none."""
        return self.texts.get(mark, b"")

    def value(self, word: str) -> str:
        """What follows this word, or nothing."""
        return self.values.get(word, "")

    def number(self, word: str) -> int:
        """The number after this word, or 0."""
        return int(self.value(word) or 0)


def text_of(told: str, index: int) -> bytes:
    """The bytes that a line describes, if it is the one with this index among its lines."""

    def bytes_of(escape: re.Match[bytes]) -> bytes:
        mark, byte, is_index, times, unit = escape.groups()
        if mark or byte:
            return MARKS[mark] if mark else bytes.fromhex(byte.decode())
        if is_index or times == b"#":
            return b"%d" % counted(index, (unit or b"").decode())
        return int(times) * unit

    return ESCAPE.sub(bytes_of, told.encode())


def counted(counter: int, steps: str) -> int:
    """What a counter comes to by these steps, one after the other: `65` or `+65` adds, `*5` multiplies, and `%7` leaves
    the remainder."""
    for sign, number in re.findall(r"([+*%]?)(\d+)", steps):
        counter = STEPS[sign](counter, int(number))
    return counter


def check(cases: Sequence[Case]) -> None:
    """Raises a `Malformed` if one of these has no outcome, or the name of one before."""
    names = set[str]()
    for case in cases:
        if not case.is_script and "verdict" not in case.values:
            raise Malformed(f"{case.line}: a case with neither ends nor verdict")
        if case.name in names:
            raise Malformed(f"{case.line}: a second case of this name")
        names.add(case.name)


def read_text(path: str) -> str:
    """The text of a file. Raises a `Malformed`."""
    try:
        return Path(path).read_text("utf-8")
    except UnicodeDecodeError as fault:
        line = 1 + fault.object.count(b"\n", 0, fault.start)
        raise Malformed(f"{path}:{line}: {fault.reason}, where UTF-8 is needed") from None


def read_cases(path: str) -> list[Case]:
    """The cases of a file. Raises a `Malformed`."""
    cases: list[Case] = []
    for number, line in enumerate(read_text(path).split("\n"), start=1):
        word, _, told = line.partition(" ")
        if word == "case":
            cases.append(Case(os.path.basename(path), number, told))
        elif line.strip() and not line.startswith("#"):
            try:
                if not cases:
                    raise Malformed("no case or table has begun")
                cases[-1].take(word, told)
            except Malformed as fault:
                raise Malformed(f"{path}:{number}: {fault}") from None
    try:
        check(cases)
    except Malformed as fault:
        raise Malformed(f"{path}:{fault}") from None
    return cases
