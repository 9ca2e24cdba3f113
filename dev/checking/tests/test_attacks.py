"""dev/attack, beside a stand-in for rt; and which function an attack changes."""
import os
import subprocess
import sys
import time
from pathlib import Path
from typing import Callable

import pytest

import attacking
import grouping
import keeping
import stamping
from checking.testing import PATIENCE
from common.program import TOP

CRATE = Path(TOP, "crates/rb_bell")
# A prover that refuses a change of these lines, each in the function that has it, and says why; `None` where it can't
# read the line.
PROVER = f"""
import sys
from pathlib import Path
REFUSED = {{
    "resting.max(1)": ("place::Place::enter", "note: src/place.rt:1:5: it is not proved"),
    "woken.min(self": ("place::Place::leave", "./proofs/place/Place/leave/Proof.antt:1:1: error: `c` has no field"),
    "PLACES: usize = 8;": ("bell_state::BellState::rise", "note: src/bell_state.rt:1:5: it is not proved"),
    "from_secs": ("bell::longest_rest", None),
}}
assert sys.argv[1:3] == ["check", "--jobs"] and int(sys.argv[3]) >= 1
text = "".join(file.read_text() for file in Path("src").glob("*.rt"))
found = [said for line, said in REFUSED.items() if line in text]
for name, why in found:
    print(f"fn rb_bell::{{name}}: not proved" if why else "src/bell.rt:9:9: error: it can't be read")
    print(why or "")
print("fn rb_bell::bell::fresh: proved", "logic=not-proved" if found else "logic=proved", sep="\\n")
sys.exit(bool(found))
"""

Files = Callable[[dict[str, str]], Path]


def attack(folder: Path, prover: str, *words: str, kit: str = "a kit") -> subprocess.CompletedProcess[str]:
    version = f"import sys\nif sys.argv[1:] == ['version']:\n    print({kit!r}), sys.exit()\n"
    (folder / "rt").write_text(f"#!{sys.executable}\n{version}{prover}")
    (folder / "rt").chmod(0o755)
    environment = {**os.environ, "PATH": f"{folder}:{os.environ['PATH']}", "TMPDIR": str(folder),
                   "XDG_CACHE_HOME": str(folder / "kept")}
    command = [sys.executable, "-B", f"{TOP}/dev/attack", "rb_bell", *words]
    return subprocess.run(command, env=environment, capture_output=True, text=True, timeout=PATIENCE, check=False)


def test_what_is_refused_and_what_is_not(tmp_path: Path) -> None:
    ran = attack(tmp_path, PROVER)
    assert (ran.returncode, ran.stderr) == (1, "")
    assert ran.stdout.splitlines() == [
        "rb_bell: 3 refused, 10 not",
        "rb_bell/counts_anew_from_the_200_000th_ring.edit: the crate is still proved with it",
        "rb_bell/forgets_when_the_one_that_is_left_looks.edit: the crate is still proved with it",
        "rb_bell/leaves_one_woken_behind.edit: refused only because a proof names what it takes away",
        "rb_bell/rests_for_two_seconds.edit: the crate is still proved with it",
        "rb_bell/rests_in_seconds.edit: it did not reach the prover: src/bell.rt:9:9: error: it can't be read",
        "rb_bell/rings_for_one_of_a_crowd.edit: the crate is still proved with it",
        "rb_bell/sticks_at_the_greatest_count.edit: the crate is still proved with it",
        "rb_bell/the_last_place_is_never_woken.edit: the crate is still proved with it",
        "rb_bell/the_last_to_leave_says_it_was_not_woken.edit: the crate is still proved with it",
        "rb_bell/wakes_one_of_a_crowd.edit: the crate is still proved with it",
        "rb_bell/wakes_who_looks_in_time.edit: the crate is still proved with it",
        "3 refused, 10 not",
    ]


@pytest.mark.parametrize(("kit", "counts"), [
    ("a kit", "3 refused (3 before), 10 not"), ("another kit", "0 refused, 13 not"),
])
def test_what_was_refused_is_not_tried_again(tmp_path: Path, kit: str, counts: str) -> None:
    """Over the same texts, by the same kit. This prover refuses nothing."""
    attack(tmp_path, PROVER)
    told = attack(tmp_path, "print('logic=proved')", kit=kit).stdout.splitlines()
    assert (told[0], told[-1]) == (f"rb_bell: {counts}", counts)
    assert sum(line.endswith(": the crate is still proved with it") for line in told) == int(counts.split()[-2])


def test_what_is_kept_of_what_was_refused(tmp_path: Path, monkeypatch: pytest.MonkeyPatch) -> None:
    monkeypatch.setenv("XDG_CACHE_HOME", str(tmp_path))
    told = {"rests_in_seconds.edit": "so", "wakes_who_looks_in_time.edit": ""}
    keeping.Refused("rb_bell", ["rb_bell"]).keep(told)
    for needed, kept in ((["rb_bell"], told), (["rb_bell", "rb_lock"], {})):
        refused = keeping.Refused("rb_bell", needed)
        said = {edit: refused.said_of(edit) for edit in attacking.edits_of("rb_bell")}
        assert {edit: text for edit, text in said.items() if text is not None} == kept
    for crate in attacking.USES:
        keeping.Refused("rb_bell", [crate]).keep({})
    assert len([*tmp_path.glob("rb_broker/attacks/rb_bell-*")]) == keeping.MOST


# A kit's module, with crates of a checkout that say their names as their stamps.
KIT = """
import os
class Crate:
    def __init__(self, top, name):
        self.name, self.folder = name, f"{top}/crates/{name}"
    def stamp(self):
        return self.name
def crates_below(top):
    return [Crate(top, name) for name in os.listdir(f"{top}/crates")]
"""


def test_libraries_that_are_stamped(tmp_path: Path, monkeypatch: pytest.MonkeyPatch) -> None:
    """Those that are younger than all sources below them."""
    for name, times in {"low": (5, 6), "left": (3, 7), "right": (3, 4), "bare": (1, 0)}.items():
        source, library = tmp_path / f"crates/{name}/src/lib.rt", tmp_path / f"crates/{name}/out/rlib/{name}.rlib"
        source.parent.mkdir(parents=True)
        source.touch()
        if times[1]:
            library.mkdir(parents=True)
            os.utime(library.parent, (times[1], times[1]))
        os.utime(source, (times[0], times[0]))
    (tmp_path / "rt").touch(0o755)
    (tmp_path / "rtlib.py").write_text(KIT)
    monkeypatch.setenv("PATH", str(tmp_path))
    stamping.stamp_libraries(tmp_path, {"low": [], "left": ["low"], "right": ["low"], "bare": ["low"]})
    stamps = {path.parts[-4]: path.read_text() for path in tmp_path.glob("crates/*/out/rlib/stamp")}
    assert stamps == {"low": "low", "left": "left"}


def test_it_is_told_that_libraries_are_proved_first(files: Files, monkeypatch: pytest.MonkeyPatch,
                                                    capsys: pytest.CaptureFixture[str]) -> None:
    top = files({"crates.txt": "low:\nhigh: low\n", "HANDLES": "", "crates/low/src/lib.rt": "",
                 "crates/high/src/lib.rt": "", "bin/rt": "#!/bin/sh\nexit 1\n"})
    (top / "bin/rt").chmod(0o755)
    monkeypatch.setenv("PATH", f"{top}/bin:{os.environ['PATH']}")
    monkeypatch.setattr(attacking, "TOP", str(top))
    monkeypatch.setattr(attacking, "USES", {"low": [], "high": ["low"]})
    for room, said in (("without", "attack: proving high and what it stands on first\n"), ("with", "")):
        attacking.Copies("high", top / room, time.monotonic() + PATIENCE).proved()
        assert capsys.readouterr().err == said
        (top / "crates/low/out/rlib/low.rlib").mkdir(parents=True, exist_ok=True)


@pytest.mark.parametrize(("words", "edits"), [
    (["rb_bell/rests_in_seconds.edit"], ["rests_in_seconds.edit"]),
    (["rb_bell/rests_in_seconds", "rb_bell/wakes_who_looks_in_time"],
     ["rests_in_seconds.edit", "wakes_who_looks_in_time.edit"]),
    (["rb_bell/rests_in_seconds", "rb_bell"], attacking.edits_of("rb_bell")),
])
def test_attacks_that_are_named(words: list[str], edits: list[str]) -> None:
    assert attacking.attacks_named(words) == {"rb_bell": edits}


@pytest.mark.parametrize(("word", "said"), [
    ("rb_bel", "crates.txt has no crate rb_bel"),
    ("rb_bell/rests.edit", "crates/rb_bell/attacks has no rests.edit"),
])
def test_a_name_that_is_refused(tmp_path: Path, word: str, said: str) -> None:
    ran = attack(tmp_path, "", word)
    assert (ran.returncode, ran.stdout, ran.stderr.splitlines()[-1]) == (2, "", f"dev/attack: error: {said}")


def test_a_crate_that_is_not_proved(tmp_path: Path) -> None:
    ran = attack(tmp_path, "print('logic=not-proved'), exit(1)")
    assert (ran.returncode, ran.stderr) == (1, "")
    assert ran.stdout.startswith("rb_bell: it is not proved as it stands:\nlogic=not-proved\nrb_bell: 0 refused, 13 not\n")
    assert ran.stdout.count(".edit: not tried\n") == 13


def test_attacks_that_were_not_tried(tmp_path: Path) -> None:
    ran = attack(tmp_path, "import time\ntime.sleep(9)", "--minutes", "0.01")
    assert (ran.returncode, ran.stderr) == (1, "")
    assert ran.stdout.splitlines() == ["rb_bell: 0 refused, 0 not, 13 not tried", "0 refused, 0 not, 13 not tried"]


@pytest.mark.parametrize("edit, file, function", [
    ("enters_and_is_not_counted.edit", "src/place.rt", "enter"),
    ("rests_in_seconds.edit", "src/bell.rt", "longest_rest"),
])
def test_the_function_that_is_changed(edit: str, file: str, function: str) -> None:
    after = {str(path.relative_to(CRATE)): text for path, text in attacking.edited(CRATE, CRATE / "attacks" / edit).items()}
    before = {name: (CRATE / name).read_text("utf-8") for name in after}
    change = grouping.change_of(before, after)
    assert change and change[:2] == (file, function)


def test_the_functions_of_a_source() -> None:
    text = "fn one(&self) {}\n\ntrait Two {\n    fn two(&self);\n\n    fn three(\n        &self,\n    )\n        ensures { ⊤ }\n    {\n        f();\n    }\n}"
    assert [*grouping.functions_of(text)] == [("one", 0, 0), ("three", 5, 11)]


@pytest.mark.parametrize("verdict, is_refused", [
    ("proved, may abort", False),
    ("not proved; it calls `rb_a::b::g`, which is not proved", False),  # its own proof was not looked at
    ("not proved; it calls `rb_a::b::g`, which is not proved\n./proofs/b/B/f/Answers.antt:7:9: error: `returns`: no", True),
    ("not proved; it calls `rb_a::b::g`, which is not proved\nnote: src/b.rt:9:1: it is not proved", True),
    ("not proved; it calls `rb_a::b::g`, which is not proved\nnote: src/b.rt:10:1: it is not proved", False),
    ("no proof: expected answers in ./proofs/b/B/f/Answers.antt; `search` did not prove `returns`", True),
    ("no proof: it calls `rb_a::b::g`, which is not proved", False),  # another attack of the group is refused
])
def test_what_a_check_says_of_a_function(verdict: str, is_refused: bool) -> None:
    change = grouping.Change("src/b.rt", "f", range(9), {})
    assert grouping.is_refused(change, f"fn rb_a::b::B::f: {verdict}\nfn rb_a::c::C::f: not proved\n") is is_refused


@pytest.mark.parametrize("message, says_little", [
    ("record `c` (nearest: .d)\n  has no field `e`\n  the fields are `d`", True),
    ("`returns`: as printed, the two types differ", False),
])
def test_a_proof_that_names_what_is_gone(message: str, says_little: bool) -> None:
    change = grouping.Change("src/b.rt", "f", range(9), {})
    said = f"./proofs/b/f/Answers.antt:7:9: error: {message}\nfn rb_a::b::f: not proved\n"
    assert grouping.says_little(change, said) is says_little


def test_an_attack_beside_what_its_function_calls() -> None:
    """It is tried alone, since the check of its group may not have looked at its proof."""
    made: list[object] = []

    def check(texts: object) -> tuple[int, str]:
        made.append(texts)
        return 1, "fn rb_bell::place::Place::enter: not proved; it calls `rb_bell::a`, which is not proved\nlogic=not-proved\n"

    edit = "enters_and_is_not_counted.edit"
    attacks = attacking.Attacks("rb_bell", [edit], check)
    attacks.try_all(1)
    assert (len(made), attacks.verdicts) == (2, {edit: attacking.Verdict(True)})


def test_attacks_of_one_function_are_apart() -> None:
    changes = {str(at): grouping.Change("src/a.rt", "fgf"[at % 3], range(9), {at: ""}) for at in range(6)}
    assert grouping.groups_of(changes) == [["0", "1"], ["2", "4"], ["3"], ["5"]]
