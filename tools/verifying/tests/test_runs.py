"""The runs of runs.txt, as they were and changed: which faults are found, and what is said of them."""
import itertools
import re
from fnmatch import fnmatchcase
from typing import Iterator, NamedTuple

import pytest

from history_texts import text_of
from verifying.tests.support import RUNS, Run, history_of, judged, line_of

FAULTS = re.compile(r"(|--all |--leases )= ([^:]+)(?:: (.*))?")


class Case(NamedTuple):
    """A line of runs.txt that has faults."""

    name: str
    run: list[str]
    changes: list[str]
    options: str
    kinds: str
    says: str | None

    def variants(self) -> Iterator[Run]:
        """The run with each of the changes between which `|` stands."""
        for changes in itertools.product(*(alternatives(change) for change in self.changes)):
            yield Run(changed(self.run, changes))

    def fits(self, found: dict[str, int]) -> bool:
        """Whether these are the faults of each kind."""
        words = (word.partition("*") for word in self.kinds.split() if word[0].isalpha())
        kinds = {kind: count if times else "1" for kind, times, count in words}
        kinds.pop("none", None)
        is_all = found.keys() == kinds.keys() if ".." not in self.kinds else found and found.keys() >= kinds.keys()
        return bool(is_all) and all(int(count or found[kind]) == found[kind] for kind, count in kinds.items())


def cases() -> Iterator[Case]:
    name, is_run, is_told = "", False, False
    run: list[str] = []
    changes: list[str] = []
    for line in RUNS.splitlines():
        word, _, rest = line.partition(" ")
        if word in ("run", "case"):
            name, changes, is_run, is_told = rest, [], word == "run", False
            run = [] if is_run else run
        elif found := FAULTS.fullmatch(line):
            yield Case(name, run, changes, *found.groups())
            is_run, is_told = False, True
        elif is_run and line:
            run.append(line)
        elif line and word != "#":
            changes, is_told = [*([] if is_told else changes), line], False


def alternatives(change: str) -> list[str]:
    """The changes between which `|` stands in one."""
    first, *others = change.split(" | ")
    front = "+ " if first.startswith("+ ") else first[:first.index(" -> ") + 4] if " -> " in first else ""
    return [first, *(front + other for other in others)]


def changed(run: list[str], changes: tuple[str, ...]) -> Iterator[str]:
    """The lines of a run with these changes."""
    lines, place = [[line] for line in run], len(run) - 1
    for change in changes:
        old, is_other, new = change.partition(" -> ")
        mark, _, told = change.partition(" ")
        if is_other:
            (at,) = (number for number, line in enumerate(run) if old in line)
            lines[at][0] = lines[at][0].replace(old, new)
        elif mark == "-":
            left_out = [number for number, line in enumerate(run) if fnmatchcase(line, told)]
            assert left_out, change
            for number in left_out:
                del lines[number][0]
        elif mark == "@":
            place = run.index(told)
        else:
            lines[place].append(told)
    return itertools.chain.from_iterable(lines)


CASES = [*cases()]


@pytest.mark.parametrize("case", CASES, ids=lambda case: f"{case.name}: {case.changes}")
def test_what_is_found(case: Case) -> None:
    for run in case.variants():
        found, faults = judged(run.histories(), run.record, "--all" in case.options, "--leases" in case.options)
        assert case.fits(found), f"{found} in place of {case.kinds}: {faults}"
        first = re.split(r"\W", case.kinds)[0]
        assert case.says is None or any(f": {first}: {case.says}" in fault for fault in faults), faults


def test_all_cases_are_read() -> None:
    assert sum(len([*case.variants()]) for case in CASES) > 120


@pytest.mark.parametrize(("count", "faults"), [(63, {}), (64, {"gap": 1})])
def test_more_jobs_than_a_session_holds(count: int, faults: dict[str, int]) -> None:
    """A client that holds 63 jobs may be given one more, and with 64 none."""
    jobs = range(count + 1)
    events = [f"1 {job} {job} offer {job} {job} {job} {job} 1 x" for job in jobs]
    events += [f"2 {100 + job} {100 + job} take {job}" for job in jobs]
    events += [f"2 200 200 offer {count + 1 + job} 300 {job} {job} 2 x" for job in jobs]
    record = [line_of(f"killed {100 + job} {100 + job} TAKE = ITEM {job} {job} 1 x") for job in jobs[:-1]]
    assert judged([history_of(text_of(*events))], record, is_whole=False)[0] == faults
