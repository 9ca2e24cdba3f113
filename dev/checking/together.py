"""Several parts, each in a process of its own, side by side."""
import subprocess
import sys
import time
from dataclasses import dataclass
from functools import partial
from pathlib import Path
from typing import Callable, Iterable, Iterator, Sequence

from checking.parts import PARTS, PROCESSORS
from common.program import TOP
from side_by_side import in_lanes

BEHIND = ["nice", "-n", "5"]  # by which a part leaves the processors to those that run alone
MUCH = 0.05  # the share of the processors without which no test of time is judged


@dataclass(frozen=True)
class Ended:
    """How a part ended: its exit status, all that it printed, the seconds that it took, and the share of the processors
    that the host of a virtual machine meanwhile gave to others."""

    name: str
    status: int
    said: str
    seconds: float
    taken: float = 0.0

    @property
    def is_disturbed(self) -> bool:
        return self.status != 0 and self.taken > MUCH

    def tell(self) -> None:
        """Prints a line, below all that was said if the part failed."""
        others, _, last = self.said.rpartition("\n")
        if self.status:
            print(others)
        state = f"FAILED with status {self.status}" if self.status else "passed"
        if self.is_disturbed:
            state += f" while the host took {self.taken:.0%} of the processors"
        print(f"{self.name}: {state}, {self.seconds:.0f} s: {last}", flush=True)


Try = Callable[[], Ended]


def ended_of(one: Try) -> Ended:
    return one()


def try_parts(names: Iterable[str], words: Sequence[str] = (), behind: Sequence[Try] = ()) -> Iterator[Ended]:
    """Tries parts by dev/check with these words: one by one those that run alone, and behind them the others, half as
    many at once as there are processors. Beside all run these. Prints a line for each and gives how it
    ended."""
    names = [*names]
    alone, others = ([name for name in names if PARTS[name].is_alone is is_alone] for is_alone in (True, False))

    def tried(name: str) -> Ended:
        before = BEHIND if alone and name in others else []
        return try_aside(name, *before, sys.executable, "-B", f"{TOP}/dev/check", name, *words)

    def in_turn(lane: list[str]) -> list[Try]:
        return [partial(tried, name) for name in lane]

    lanes = (in_turn(alone), 1), (in_turn(others), (PROCESSORS + 1) // 2), (behind, max(1, len(behind)))
    for _, ended in in_lanes(ended_of, lanes):
        ended.tell()
        yield ended


def try_parts_again(names: Iterable[str], words: Sequence[str], behind: Sequence[Try]) -> Iterator[Ended]:
    """The same, but parts that failed without some of the processors are tried again at the end."""
    disturbed = []
    for ended in try_parts(names, words, behind):
        if ended.is_disturbed and ended.name in PARTS:
            disturbed.append(ended.name)
        else:
            yield ended
    yield from try_parts(disturbed, words)


def ticks() -> tuple[int, int]:
    """What the host took of this machine's processors since it began, and all that these had, as the system counts."""
    told = [int(word) for word in Path("/proc/stat").read_text("ascii").split(maxsplit=9)[1:9]]
    return told[-1], sum(told)


def try_aside(name: str, *words: str) -> Ended:
    """Runs a command, and prints nothing."""
    began, (taken_before, had_before) = time.monotonic(), ticks()
    ran = subprocess.run(words, stdin=subprocess.DEVNULL, stdout=subprocess.PIPE, stderr=subprocess.STDOUT, text=True,
                         errors="replace", check=False)
    taken, had = ticks()
    share = (taken - taken_before) / max(had - had_before, 1)
    return Ended(name, ran.returncode, ran.stdout.strip(), time.monotonic() - began, share)


def try_command(name: str, *words: str) -> Ended:
    """Runs a command, which prints what it does as it goes."""
    print(f"{name}: {' '.join(words)}", flush=True)
    began = time.monotonic()
    status = subprocess.run(words, stdin=subprocess.DEVNULL, check=False).returncode
    return Ended(name, status, "", time.monotonic() - began)
