"""Tries the attacks of crates: wrong bodies that the prover must refuse, like the must-fail edits.

    dev/attack NAME ..    the attacks of these crates (default: all), or of a crate the one that NAME/ATTACK names
    dev/attack --landing  the attacks of crates that changed since the landing before, those that changed themselves,
                          and a tenth of all, by the number in dev/tenth, to which each landing adds one
    --minutes M           gives up the attacks that have no result after M minutes

An attack is a file crates/NAME/attacks/*.edit, in the form of a must-fail edit. `rt check` tries up to eight attacks
together that change different functions, one group on each processor, in copies of the checkout, over the libraries
that the gate left in out/ and what earlier checks kept there. It tries an attack alone that changes no function, or
more than one. The command leaves the checkout as it is, and removes the copies at the end. It keeps on this machine
which attacks were refused, with the texts that the check read, and does not try these again while the texts are the
same.

Where a library that a crate stands on is missing, or older than its sources, it is proved first, which a line on
standard error says.

It prints a line for each crate, the attacks that were not refused, each with the prover's words, the attacks that were
refused only because a proof names what the edit removed, and finally `N refused, M not`, with `, K not tried` if time
was short. An earlier run has refused `(L before)` of them. In a group that also changes what a function calls, a check
may not look at the function's own proof. Such an attack is tried alone.

Exit status: 0 if all were refused, 1 if one was not, or not tried, 2 if an argument is wrong or there is no `rt`.
"""
import os
import re
import shutil
import subprocess
import sys
import time
from collections import Counter
from concurrent.futures import ThreadPoolExecutor
from pathlib import Path
from queue import SimpleQueue
from typing import Callable, Collection, Iterable, NamedTuple, Sequence

from building.build import available_memory
from building.crates import own_uses, read_uses, with_those_below
from building.rooms import link_or_copy
from common.program import TOP
from common.words import number, parser_of
from grouping import Change, Texts, change_of, groups_of, is_refused, says_little, together
from keeping import Refused
from leaving import status_of
from stamping import stamp_libraries

USES = own_uses(TOP)
TENTH = "dev/tenth"
ATTACKS = "attacks"
PROVED = ("src", "specs", "proofs")  # the folders of a crate that a check reads
MEMORY = 3_000_000_000  # bytes that a check may take
NOT_PROVED = re.compile(r"^logic=not-proved", re.M)
NOT_READ = re.compile(r"^(?:\./)?(?:src|specs)/[^:\s]+:\d+:\d+: error.*", re.M)

Chosen = dict[str, list[str]]  # crates, each with those of its attacks that are tried


class Verdict(NamedTuple):
    """What became of an attack: whether it was refused, and what is to be said of it, if anything."""

    refused: bool
    said: str = ""


def edits_of(crate: str) -> list[str]:
    """The names of the files in a crate's folder attacks/, except notes."""
    return sorted(file.name for file in Path(TOP, "crates", crate, ATTACKS).glob("*") if file.suffix != ".md")


def changed_attacks() -> set[tuple[str, str]]:
    """The attacks that changed since the last commit but one that changed dev/tenth, and all of the crates that changed:
    the landing before ended there, or behind it. Git tells, and where there is none, nothing changed."""

    def told(*words: str) -> list[str]:
        command = ["git", "-C", TOP, *words]
        return subprocess.run(command, stdout=subprocess.PIPE, stderr=subprocess.DEVNULL, text=True, check=False).stdout.split()

    *_, landed = told("log", "-2", "--format=%H", "--", TENTH) or ["HEAD"]
    paths = [Path(name).parts for name in told("diff", "--name-only", landed, "--", "crates")]
    crates = {crate for _, crate, folder, *_ in paths if folder in PROVED}
    return {(crate, edit) for crate in crates for edit in edits_of(crate)} | {
        (path[1], path[-1]) for path in paths if path[2] == ATTACKS}


def attacks_of_landing(number: int, changed: Collection[tuple[str, str]]) -> Chosen:
    """These attacks, and a tenth of all, of which each is in one of the ten."""
    every = [(crate, edit) for crate in USES for edit in edits_of(crate)]
    begin, end = (len(every) * tenth // 10 for tenth in (number % 10, number % 10 + 1))
    chosen: Chosen = {}
    for at, (crate, edit) in enumerate(every):
        if begin <= at < end or (crate, edit) in changed:
            chosen.setdefault(crate, []).append(edit)
    return chosen


def attacks_named(words: Iterable[str]) -> Chosen:
    """The attacks that words name: NAME those of a crate, and NAME/ATTACK one of them. Raises a `ValueError`."""
    chosen: Chosen = {}
    for word in words:
        crate, _, one = word.partition("/")
        if crate not in USES:
            raise ValueError(f"crates.txt has no crate {crate}")
        edits = [edit for edit in edits_of(crate) if not one or edit in (one, f"{one}.edit")]
        if one and not edits:
            raise ValueError(f"crates/{crate}/{ATTACKS} has no {one}")
        chosen[crate] = sorted({*chosen.get(crate, []), *edits})
    return {crate: edits for crate, edits in chosen.items() if edits}


def edited(crate: Path, edit: Path) -> dict[Path, str]:
    """The files that an edit changes of a crate, with their texts then. Raises a `ValueError` if an old text does not
    stand there once: the prover would never see the edit."""
    texts: dict[Path, str] = {}
    file, old = crate, ""
    for line in edit.read_text("utf-8").splitlines():
        word, _, text = line.partition(": ")
        if word == "file":
            file = crate / text
            texts.setdefault(file, file.read_text("utf-8"))
        elif word == "old":
            old = text
        elif word == "new":
            if file not in texts:
                raise ValueError(f"{edit.name}: no file is named before {text!r}")
            if texts[file].count(old) != 1:
                raise ValueError(f"{edit.name}: {old!r} stands {texts[file].count(old)} times in {file.name}")
            texts[file] = texts[file].replace(old, text)
    return texts


class Copies:
    """Copies of a crate and of all that it stands on, each for one check at a time."""

    def __init__(self, crate: str, room: Path, until: float) -> None:
        self.crate, self.room, self.until = crate, room, until
        self.free: SimpleQueue[Path] = SimpleQueue()

    def proved(self) -> str:
        """Makes the copies, once the crate is proved in the first. Returns what the check said where it is not."""
        first, needed = self.room / "0", with_those_below([self.crate], USES)
        for name in needed:
            copy_tree(Path(TOP, "crates", name), first / "crates" / name)
        table = [f"{name}: {' '.join(named)}\n" for name, named in read_uses(TOP).items() if name in needed]
        (first / "crates.txt").write_text("".join(table), "utf-8")
        shutil.copy2(f"{TOP}/HANDLES", first)
        if needed - {self.crate} - stamp_libraries(first, USES):
            print(f"attack: proving {self.crate} and what it stands on first", file=sys.stderr)
        self.free.put(first)
        many = places()
        status, said = self.check({}, many)
        if status:
            return said
        for at in range(1, many):
            copy_tree(first, self.room / str(at))
            self.free.put(self.room / str(at))
        return ""

    def check(self, texts: Texts, jobs: int = 1) -> tuple[int, str]:
        """The status of a check with these texts, and what it printed. Raises a `TimeoutExpired` if it does not end in
        time."""
        copy = self.free.get()
        folder = copy / "crates" / self.crate
        before = {file: (folder / file).read_text("utf-8") for file in texts}
        try:
            for file, text in texts.items():
                (folder / file).write_text(text, "utf-8")
            ran = subprocess.run(["rt", "check", "--jobs", str(jobs)], cwd=folder, stdin=subprocess.DEVNULL, stdout=subprocess.PIPE,
                                 stderr=subprocess.STDOUT, text=True, errors="replace", check=False,
                                 timeout=max(1, self.until - time.monotonic()))
            return ran.returncode, ran.stdout.rstrip("\n")
        finally:
            for file, text in before.items():
                (folder / file).write_text(text, "utf-8")
            self.free.put(copy)


def copy_tree(folder: Path, to: Path) -> None:
    """Copies a crate, or a checkout. What rt made, which is large, gets a second name."""

    def copied(file: str, place: str) -> None:
        if "/out/" in file.removeprefix(str(folder)):
            link_or_copy(file, place)
        else:
            shutil.copy2(file, place)

    shutil.copytree(folder, to, ignore=shutil.ignore_patterns("must-fail", ATTACKS), copy_function=copied)


def places() -> int:
    """How many checks run at once."""
    return max(1, min(len(os.sched_getaffinity(0)), available_memory() // MEMORY))


class Attacks:
    """Attacks of a crate, and what became of those that were tried."""

    def __init__(self, crate: str, edits: Sequence[str], check: Callable[[Texts], tuple[int, str]]) -> None:
        self.check, self.before, self.verdicts = check, dict[str, str](), dict[str, Verdict]()
        self.texts: dict[str, Texts] = {}
        self.changes: dict[str, Change] = {}
        folder = Path(TOP, "crates", crate)
        for edit in edits:
            self._read(edit, folder)

    def _read(self, edit: str, folder: Path) -> None:
        try:
            after = {str(file.relative_to(folder)): text for file, text in edited(folder, folder / ATTACKS / edit).items()}
        except (OSError, ValueError) as fault:
            self.verdicts[edit] = Verdict(False, f"it can't be applied: {fault}")
            return
        for file in after:
            self.before.setdefault(file, (folder / file).read_text("utf-8"))
        self.texts[edit] = after
        if change := change_of(self.before, after):
            self.changes[edit] = change

    def try_all(self, places: int) -> None:
        """Tries each, in groups first and then alone where that decided nothing."""
        with ThreadPoolExecutor(places) as pool:
            for tried in (self._try_together, self._try_alone):
                left = {edit: self.changes.get(edit) for edit in self.texts if edit not in self.verdicts}
                grouped = {edit: change for edit, change in left.items() if change}
                batches = groups_of(grouped) if tried == self._try_together else [[edit] for edit in left]
                for ended in [pool.submit(tried, batch) for batch in batches]:
                    ended.result()

    def _try_together(self, edits: list[str]) -> None:
        """Keeps a verdict on those of these attacks that a check of all of them refuses."""
        _, said = self.check(together((self.changes[edit] for edit in edits), self.before))
        if not NOT_PROVED.search(said) or NOT_READ.search(said):
            return
        for edit in edits:
            if is_refused(self.changes[edit], said):
                self._keep_refused(edit, said)

    def _try_alone(self, edits: list[str]) -> None:
        edit, = edits
        status, said = self.check(self.texts[edit])
        unread = NOT_READ.search(said)
        if not status:
            self.verdicts[edit] = Verdict(False, "the crate is still proved with it")
        elif unread or not NOT_PROVED.search(said):
            self.verdicts[edit] = Verdict(False, f"it did not reach the prover: {unread[0] if unread else said[-300:]}")
        else:
            self._keep_refused(edit, said)

    def _keep_refused(self, edit: str, said: str) -> None:
        little = says_little(self.changes.get(edit), said)
        self.verdicts[edit] = Verdict(True, "refused only because a proof names what it takes away" if little else "")


def attack_crate(crate: str, edits: Sequence[str], room: Path, until: float) -> tuple[Attacks, int]:
    """Tries attacks of a crate, in copies that it makes in this room. Gives also how many an earlier run refused."""
    copies, kept = Copies(crate, room, until), Refused(crate, with_those_below([crate], USES))
    attacks = Attacks(crate, edits, copies.check)
    before = {edit: Verdict(True, said) for edit in attacks.texts if (said := kept.said_of(edit)) is not None}
    attacks.verdicts |= before
    try:
        if len(attacks.verdicts) == len(edits):
            pass
        elif said := copies.proved():
            # Each edit would count as refused.
            print(f"{crate}: it is not proved as it stands:\n{said[-1000:]}", flush=True)
            attacks.verdicts |= {edit: Verdict(False, "not tried") for edit in edits}
        else:
            attacks.try_all(copies.free.qsize())
    except subprocess.TimeoutExpired:
        pass
    kept.keep({edit: verdict.said for edit, verdict in attacks.verdicts.items() if verdict.refused and edit not in before})
    return attacks, len(before)


def attack(chosen: Chosen, until: float, room: Path) -> int:
    """Tries attacks, and prints the results. Returns the exit status."""
    counts = Counter[str]()

    def told(refused: int, before: int, failed: int, late: int) -> str:
        said = f"{refused} refused{f' ({before} before)' if before else ''}, {failed} not"
        return said + (f", {late} not tried" if late else "")

    for crate, edits in chosen.items():
        attacks, before = attack_crate(crate, edits, room / crate, until)
        shutil.rmtree(room / crate, ignore_errors=True)
        refused = sum(verdict.refused for verdict in attacks.verdicts.values())
        failed, late = len(attacks.verdicts) - refused, len(edits) - len(attacks.verdicts)
        counts.update(refused=refused, before=before, failed=failed, late=late)
        print(f"{crate}: {told(refused, before, failed, late)}")
        for edit, verdict in sorted(attacks.verdicts.items()):
            if verdict.said:
                print(f"{crate}/{edit}: {verdict.said}")
        sys.stdout.flush()
    print(told(*(counts[name] for name in ("refused", "before", "failed", "late"))))
    return 1 if counts["failed"] or counts["late"] else 0


def main() -> int:
    parser = parser_of("dev/attack", __doc__)
    parser.add_argument("names", nargs="*", metavar="NAME",
                        help="a crate of crates.txt (default: all), or one of its attacks, as CRATE/ATTACK")
    parser.add_argument("--landing", action="store_true", help="the attacks of what changed, and a tenth of all, by dev/tenth")
    parser.add_argument("--minutes", type=number(float, 0, 10_000), default=10_000, metavar="M",
                        help="gives up the attacks that have no result after M minutes")
    given = parser.parse_args()
    try:
        chosen = attacks_named(given.names or USES)
    except ValueError as fault:
        parser.error(str(fault))
    if not shutil.which("rt"):
        parser.error("there is no command rt on the path")
    if given.landing and given.names:
        parser.error("--landing names the crates")
    if given.landing:
        chosen = attacks_of_landing(int(Path(TOP, TENTH).read_text("ascii")), changed_attacks())
    until = time.monotonic() + 60 * given.minutes
    return status_of("attack", lambda room: attack(chosen, until, Path(room, "checkout")))
