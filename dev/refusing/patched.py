"""A crate's tests of allocations, built once, and run with allocations refused by a patch of their machine code.

`rt try --test --fail-alloc N` builds a program that counts its allocations and refuses the one of number N. It compares
the count with N and jumps on if they differ: `cmp rax, N` and `jne`, the bytes 48 3d, N as four bytes, and 75 with the
length of the jump. Before each run another number is written there; and for all later ones too `jb` (72), which jumps
on if the count is less. A trap (cc) behind the jump, where an allocation is refused, shows whether a test makes the one
of a number. If the program has no such place, or N elsewhere too, nothing is tried. The sanitizer that is built in
prints at each end how many blocks were given.
"""
import bisect
import errno
import itertools
import os
import re
import shutil
import signal
import subprocess
import threading
from dataclasses import dataclass
from functools import cached_property
from pathlib import Path
from typing import Any
from queue import SimpleQueue

from building.crates import copy_crates
from checking.trying import built
from common.program import TOP
from side_by_side import side_by_side

# The modules of tests that are built, of those that a crate has, also in folders of its tests.
KEPT = (
    "memory_refusals",
    "timer_refusals",
    "queue_refusals",
    "word_refusals",
    "allocations",
    "devices",
    "callers",
    "fixtures",
)
# How many refusals a test of refusals meets: none until it is built here.
REFUSALS = re.compile(r"^(const REFUSALS: u32 =) 0;$", re.M)
# The allocation that the built program refuses: one that no test reaches, and a number that it has nowhere else.
NONE = 987654321
COMPARE, IF_OTHER, IF_LESS, TRAP = b"\x48\x3d", b"\x75", b"\x72", b"\xcc"
# Lets the sanitizer print its counts wherever a test ends, and leave a trap to the system.
COUNTING = "atexit=1:handle_abort=1:print_stats=1:handle_sigtrap=0"
COUNTS = re.compile(r" malloced .* by (\d+) calls\n.* realloced by (\d+) calls")
# How long a run may take, in seconds. Each takes less than one on a processor of its own.
PATIENCE = 240
# So many tests run at once, over all crates.
AT_ONCE = os.cpu_count() or 1
RUNS = threading.BoundedSemaphore(AT_ONCE)
# How many refusals no call of a test meets: those of what the test makes for itself, and those that change nothing,
# where a vector gives back the room that is left over. One more is a call that asks for memory in vain, or one that
# does without and says nothing.
UNMET = {
    "rb_blocking_tests": 2,
    "rb_kept_tests": 7,
    "rb_kept_tests/replay": 2,
    "rb_retry_tests": 14,
    # By each of the two calls, two pages for each of three servers, and two and the room of a text for the end of one.
    "rb_serving_tests": 2 * (3 * 2 + 2 + 1),
    # Four pages in each of six tests, and the history of each of 68 queues.
    "rb_session_tests": 6 * 4 + 68,
    # Two pages for each of eight runs of a script, and 93 that change nothing, most of them at the words.
    "rb_session_tests/runs": 8 * 2 + 93,
}


@dataclass(frozen=True)
class Ran:
    """How a run of a test ended."""

    status: int | None  # none if it was ended from outside
    said: str

    @cached_property
    def counts(self) -> tuple[int, int]:
        """How many blocks it was given, and how many of these took the place of another."""
        found = COUNTS.search(self.said)
        return (int(found[1]), int(found[2])) if found else (0, 0)

    @property
    def fault(self) -> str:
        """Why it did not pass; empty if it passed."""
        if self.status is None:
            return f"it did not end within {PATIENCE} seconds"
        return f"status {self.status}\n{self.said}" if self.status else ""

    @property
    def is_unmet(self) -> bool:
        """Whether it failed by the test's last comparison: no refusal was counted, and one was wanted."""
        return bool(self.fault and re.search(r" failed\n +left: 0\n +right: 1\n", self.said))


class CrateTests:
    """The built tests of a crate. The program and its copies are in `room`, in which no other tests are built."""

    def __init__(self, crate: str, room: str) -> None:
        self.room = room
        program = Path(built(copied(crate, room), room, "--test", "--fail-alloc", str(NONE)))
        self.code = program.read_bytes()
        self.places = [found.start() for found in re.finditer(re.escape(comparison(NONE, IF_OTHER)), self.code)]
        if not len(self.places) == self.code.count(word(NONE)) > 0:
            raise ValueError(f"{crate}: the program does not choose the allocation to refuse as is known here")
        # Those that no test runs now: each run writes to its own.
        self.free: SimpleQueue[Path] = SimpleQueue()
        for number in range(AT_ONCE):
            self.free.put(Path(shutil.copy2(program, f"{room}/{number}")))
        # The blocks that the program itself is given, before it looks for a test.
        self.first_blocks = self.run("").counts[0]

    def run(self, test: str, number: int = NONE, jump: bytes = IF_OTHER, trap: bytes = b"") -> Ran:
        """Runs a test with the allocation of this number refused, or with this one and all later ones."""
        program = self.free.get()
        try:
            with open(program, "r+b") as file:
                for place in self.places:
                    code = comparison(number, jump)
                    behind = place + len(code) + 1
                    file.seek(place)
                    file.write(code)
                    file.seek(behind)
                    file.write(trap or self.code[behind : behind + len(TRAP)])
            with RUNS:
                return self.ran(program, test)
        finally:
            self.free.put(program)

    def ran(self, program: Path, test: str) -> Ran:
        environment = {**os.environ, "ASAN_OPTIONS": COUNTING}
        how: dict[str, Any] = {"cwd": self.room, "env": environment, "timeout": PATIENCE, "check": False}
        how |= {"stdin": subprocess.DEVNULL, "stdout": subprocess.PIPE, "stderr": subprocess.STDOUT}
        while True:
            try:
                ran = subprocess.run([str(program), test], **how)
                return Ran(ran.returncode, ran.stdout.decode(errors="replace"))
            except subprocess.TimeoutExpired:
                return Ran(None, "")
            except OSError as fault:
                # A process that another thread starts has the program open for a moment, to write to it.
                if fault.errno != errno.ETXTBSY:
                    raise

    def allocations(self, ran: Ran, test: str) -> int:
        """How many allocations a test made that can be refused. The system's are counted too, as for a thread."""
        blocks = ran.counts[0] - self.first_blocks
        made = bisect.bisect_left(range(1, blocks + 1), True, key=lambda number: not self.makes(test, number))
        return next(number for number in itertools.count(made) if not self.makes(test, number + 1))

    def makes(self, test: str, number: int) -> bool:
        """Whether a test makes the allocation of this number."""
        return self.run(test, number, trap=TRAP).status == -signal.SIGTRAP

    def count_calls(self, suite: str) -> tuple[str, str]:
        """Compares how often the tests of allocations.rt allocate, of which both make the same things and only one
        makes the calls, and then refuses the calls all memory. Returns what was done, and what is wrong."""
        names = [f"{named(suite, 'allocations')}::{name}_of_the_calls" for name in ("none", "each")]
        none, each = map(self.run, names)
        made, with_calls = map(self.allocations, (none, each), names)
        done = f"{made} allocations without the calls, {with_calls} with them"
        if fault := none.fault or each.fault:
            return done, fault
        if none.counts != each.counts or made < 1:
            return done, "the calls take memory" if made else "nothing was made"
        for test in names:
            if fault := self.run(test, made + 1, IF_LESS).fault:
                return f"{test} with each allocation from {made + 1} on refused", fault
        return f"{done}, which answer with all memory refused", ""

    def refuse_each(self, suite: str) -> tuple[str, str]:
        """Refuses one allocation after the other of each test of refusals. Returns what was done, and what is wrong."""
        every = met = 0
        for test in tests_of_refusals(suite):
            whole = self.run(test)
            if not whole.is_unmet:
                return "with no allocation refused", whole.fault or "a refusal was counted"
            made = self.allocations(whole, test)
            for number, ran in side_by_side(lambda number: self.run(test, number), range(1, made + 1), AT_ONCE):
                if ran.fault and not ran.is_unmet:
                    return f"with allocation {number} of {made} refused", ran.fault
                met += not ran.fault
            every += made
        done = f"each of {every} allocations refused in turn, {met} refusals met"
        if not met:
            return done, "no call has met one"
        unmet = UNMET.get(suite, 0)
        return done, "" if every - met == unmet else f"{every - met} are not met, and {unmet} must not be"


def word(number: int) -> bytes:
    return number.to_bytes(4, "little")


def comparison(number: int, jump: bytes) -> bytes:
    return COMPARE + word(number) + jump


def folders_in(tests: Path) -> list[Path]:
    return sorted(found for found in tests.glob("*") if found.is_dir())


def suites_of(crate: str) -> list[str]:
    """The crate, for the modules in its src/tests, and CRATE/FOLDER for those in each folder there."""
    folders = folders_in(Path(TOP, "crates", crate, "src/tests"))
    return [crate, *(f"{crate}/{folder.name}" for folder in folders)]


def source_of(suite: str, module: str) -> str:
    """The text of a module of a suite; empty if it has none of this name."""
    crate, _, folder = suite.partition("/")
    path = Path(TOP, "crates", crate, "src/tests", folder, f"{module}.rt")
    return path.read_text("utf-8") if path.is_file() else ""


def named(suite: str, module: str) -> str:
    """A module of a suite, as the built program names it."""
    return "::".join(["tests", *suite.split("/")[1:], module])


def tests_of_refusals(suite: str) -> list[str]:
    """The tests of which each allocation is refused, as the built program names them."""
    tests = re.compile(r"^#\[test\]\nfn (\w+)\(", re.M)
    texts = {module: source_of(suite, module) for module in KEPT}
    refusing = {module: tests.findall(text) for module, text in texts.items() if REFUSALS.search(text)}
    return [f"{named(suite, module)}::{name}" for module, names in refusing.items() for name in names]


def copied(crate: str, room: str) -> str:
    """Copies the checkout, without the crate's other tests. Returns the folder of the crate in the copy."""
    copy_crates(TOP, Path(room), lambda _: ("out", "must-fail", "attacks"))
    tests = Path(room, "crates", crate, "src/tests")
    folders = [tests, *folders_in(tests)]
    kept = "|".join([*KEPT, *(folder.name for folder in folders)])
    for folder in folders:
        replace(folder.with_suffix(".rt"), re.compile(rf"^mod (?!(?:{kept});)\w+;\n", re.M), "")
        for found in folder.glob("*.rt"):
            if found.stem in KEPT:
                replace(found, REFUSALS, r"\1 1;")
            elif found.with_suffix("") not in folders:
                found.unlink()
    return f"{room}/crates/{crate}"


def replace(path: Path, old: re.Pattern[str], new: str) -> None:
    path.write_text(old.sub(new, path.read_text("utf-8")), "utf-8")
