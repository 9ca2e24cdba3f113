"""dev/test and dev/setup, beside stand-ins for rt and Debian's commands; and the tenths of dev/attack."""
import os
import re
import subprocess
import sys
from pathlib import Path
from typing import Sequence

import pytest

import attacking
from checking import together
from checking.parts import PARTS, packages_of
from checking.testing import PATIENCE
from common.program import TOP

PACKAGES = packages_of(PARTS)
# Stands in for dpkg-query, which knows the packages in the file `there`, and for apt-get, which adds to it all but one.
DPKG_QUERY = 'while read it; do echo "$it install ok installed"; done < "${0%/*}/there"'
APT_GET = 'echo "$@" >> "${0%/*}/log"; for it; do [ "$it" = chromium ] || echo "$it" >> "${0%/*}/there"; done'


def stand_in(folder: Path, name: str, script: str) -> None:
    (folder / name).write_text(f"#!/bin/sh\n{script}\n")
    (folder / name).chmod(0o755)


def run(folder: Path, command: str, *words: str, **settings: str) -> subprocess.CompletedProcess[str]:
    environment = {**os.environ, "PATH": f"{folder}:{os.environ['PATH']}", "TMPDIR": str(folder), **settings}
    words = (sys.executable, "-B", f"{TOP}/dev/{command}", *words)
    return subprocess.run(words, env=environment, capture_output=True, text=True, timeout=PATIENCE, check=False)


def set_up(folder: Path, *absent: str, parts: Sequence[str] = ()) -> subprocess.CompletedProcess[str]:
    (folder / "there").write_text("".join(f"{package}\n" for package in PACKAGES if package not in absent))
    for name, script in (("dpkg-query", DPKG_QUERY), ("apt-get", APT_GET), ("dpkg", "")):
        stand_in(folder, name, script)
    return run(folder, "setup", *parts)


def test_nothing_is_set_up_twice(tmp_path: Path) -> None:
    ran = set_up(tmp_path)
    assert (ran.returncode, ran.stdout) == (0, f"setup: all {len(PACKAGES)} packages are there\n")
    assert not (tmp_path / "log").exists()


def test_what_some_parts_need(tmp_path: Path) -> None:
    ran = set_up(tmp_path, "chromium", parts=["program", "tools"])
    assert (ran.returncode, ran.stdout) == (0, "setup: all 7 packages are there\n")


def test_what_is_missing(tmp_path: Path) -> None:
    ran = set_up(tmp_path, "perl", "man-db")
    if os.geteuid():
        assert (ran.returncode, ran.stdout) == (1, "")
        assert "as root: apt-get install -y --no-install-recommends man-db perl\n" in ran.stderr
        return
    assert (ran.returncode, ran.stdout.splitlines()[0]) == (0, "setup: installing man-db perl"), ran.stderr
    assert re.fullmatch(r"update .*\ninstall -y .* man-db perl\n", (tmp_path / "log").read_text())


def test_what_cannot_be_installed(tmp_path: Path) -> None:
    ran = set_up(tmp_path, "chromium")
    assert ran.returncode == 1 and "chromium" in ran.stderr


def test_nothing_is_tried_behind_a_gate_that_fails(tmp_path: Path) -> None:
    stand_in(tmp_path, "rt", 'echo "$@"; exit 1')
    ran = run(tmp_path, "test", "--without", "setup")
    told = ["gate: rt ci", "ci", "", "minutes", "    0.0  gate: FAILED"]
    assert (ran.returncode, ran.stdout.splitlines()[:-1]) == (1, told), ran.stderr
    assert re.search(r"\n0 passed, 1 failed, in 0\.\d minutes\n\Z", ran.stdout)


def test_what_is_left_out(tmp_path: Path) -> None:
    stand_in(tmp_path, "rt", "exit 1")
    others = [name for name, part in PARTS.items() if not part.is_long and name != "tools"]
    ran = run(tmp_path, "test", "--without", "setup", "refusals", *others, "--program", sys.executable)
    assert (ran.returncode, ran.stderr) == (0, ""), ran.stdout
    assert re.fullmatch(r"(?s)tools: passed, .*\n1 passed, 0 failed, in \d+\.\d minutes\n", ran.stdout)


def test_what_runs_behind_the_parts(tmp_path: Path) -> None:
    """Each tells how it ended, below what it printed."""
    stand_in(tmp_path, "rt", "echo no proof; exit 1")
    parts = [name for name, part in PARTS.items() if not part.is_long]
    ran = run(tmp_path, "test", "--without", "setup", "gate", *parts, XDG_CACHE_HOME=str(tmp_path / "kept"))
    told = ("refuse_allocations: rt try built no program:\nno proof\n.*\nrefusals: FAILED with status 2(?: while .*?)?, ",
            ": it is not proved as it stands:\nno proof\n.*\nattacks: FAILED with status 1(?: while .*?)?, \\d+ s: 0 refused, \\d+ not\n",
            "\n0 passed, 2 failed, in \\d+\\.\\d minutes\n\\Z")
    assert (ran.returncode, ran.stderr) == (1, "") and all(re.search(it, ran.stdout, re.S) for it in told), ran


@pytest.mark.parametrize(("taken", "status", "told"), [
    (0.04, 1, ["docs: FAILED with status 1, 2 s: 1 failed"]),
    (0.06, 0, ["docs: FAILED with status 1 while the host took 6% of the processors, 2 s: 1 failed",
               "docs: passed, 3 s: 48 passed"]),
])
def test_a_part_that_fails_without_some_of_the_processors(taken: float, status: int, told: list[str],
                                                          monkeypatch: pytest.MonkeyPatch,
                                                          capsys: pytest.CaptureFixture[str]) -> None:
    tries = iter([together.Ended("docs", 1, "1 failed", 2, taken), together.Ended("docs", 0, "48 passed", 3, taken)])
    monkeypatch.setattr(together, "try_aside", lambda *_: next(tries))
    assert [ended.status for ended in together.try_parts_again(["docs"], [], [])] == [status]
    assert [line for line in capsys.readouterr().out.splitlines() if line] == told


def test_what_the_host_takes() -> None:
    taken, had = together.ticks()
    assert 0 <= taken < had and had > os.sysconf("SC_CLK_TCK")


@pytest.mark.parametrize("name", PARTS)
def test_the_tests_of_a_part_are_there(name: str) -> None:
    assert all(Path(TOP, test).exists() for test in PARTS[name].tests)


def test_each_attack_is_in_one_tenth() -> None:
    tenths = [attacking.attacks_of_landing(number, ()) for number in range(10)]
    tried = [(crate, edit) for tenth in tenths for crate, edits in tenth.items() for edit in edits]
    assert sorted(tried) == sorted((crate, edit) for crate in attacking.USES for edit in attacking.edits_of(crate))
    sizes = [sum(map(len, tenth.values())) for tenth in tenths]
    assert max(sizes) - min(sizes) <= 1


def test_attacks_that_changed_are_tried() -> None:
    changed = [("rb_broker", edit) for edit in attacking.edits_of("rb_broker")[1:3]]
    tenth, chosen = (attacking.attacks_of_landing(0, them) for them in ((), [*changed, ("rb_broker", "gone.edit")]))
    assert chosen == {**tenth, "rb_broker": [edit for _, edit in changed]}


def test_what_changed_since_the_landing_before(tmp_path: Path, monkeypatch: pytest.MonkeyPatch) -> None:
    """Each commit writes one file, and those of dev/tenth are stamps of landings. The last file is not committed. Where a
    crate changed, all its attacks count."""
    monkeypatch.setattr(attacking, "TOP", str(tmp_path))
    assert attacking.changed_attacks() == set()
    git = ["git", "-C", str(tmp_path), "-c", "user.name=n", "-c", "user.email=e"]
    subprocess.run([*git, "init", "-q"], check=True)
    landings = ["crates/rb_old/attacks/old.edit", "crates/rb_new/attacks/lies.edit", "crates/rb_late/attacks/stays.edit",
                "crates/rb_old/src/lib.rt", "dev/tenth", "crates/rb_late/attacks/lies.edit", "crates/rb_late/README.md",
                "crates/rb_new/proofs/Lib.antt", "dev/tenth", "docs/rb_page/src/page", "crates/rb_now/attacks/cheats.edit"]
    for at, name in enumerate(landings):
        file = tmp_path / name
        file.parent.mkdir(parents=True, exist_ok=True)
        file.write_text(str(at))
        subprocess.run([*git, "add", name], check=True)
        if name != landings[-1]:
            subprocess.run([*git, "commit", "-qm", name], check=True)
    assert attacking.changed_attacks() == {("rb_late", "lies.edit"), ("rb_new", "lies.edit"), ("rb_now", "cheats.edit")}


@pytest.mark.parametrize("crate", [crate for crate in attacking.USES if Path(TOP, "crates", crate, "attacks").is_dir()])
def test_each_attack_reaches_the_prover(crate: str) -> None:
    """What it changes is there, once, and is changed."""
    folder = Path(TOP, "crates", crate)
    for edit in [*folder.glob("attacks/*.edit"), *folder.glob("must-fail/*.edit")]:
        texts = attacking.edited(folder, edit)
        assert texts and all(text != path.read_text("utf-8") for path, text in texts.items()), edit
