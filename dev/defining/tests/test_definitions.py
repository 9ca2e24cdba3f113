"""What dev/definitions prints of a call, and how it ends."""
import subprocess
import sys
from pathlib import Path
from typing import Callable

import pytest

from common.program import TOP

Files = Callable[[dict[str, str]], Path]

CRATES = {
    "crates/rb_low/specs/Heights.antt": """\
use Rattle.std.specs.Prelude.{ℕ, ◌≤◌}

-- how high it is
abbrev pub height : ℕ → ℕ
height n = n

abbrev pub IsPlanted : ℕ → Type 0
IsPlanted n = height n ≤ 1

module _ (least : ℕ) where
  -- not low
  abbrev pub IsHigh : ℕ → Type 0
  IsHigh n = least ≤ height n
""",
    "crates/rb_low/src/lib.rt": """\
/// How far up.
#[derive(Debug)]
pub struct Level {
    pub of: u64,
}
fn fall() {
}
""",
    "crates/rb_high/src/lib.rt": """\
ghost use Rattle.rb_low.specs.Heights.{IsHigh};
use rb_low::Level;

/// Climbs.
pub fn climb(level: Level) -> u64
    requires { level.of ≡ 1 }
    ensures high { IsHigh 2 result }
{
    IsPlanted
}
fn fall() {
}
""",
}
HIGH, HEIGHTS = "crates/rb_high/src/lib.rt", "crates/rb_low/specs/Heights.antt"
# A program has no public calls.
CRATES["crates/rb_program/src/main.rt"] = CRATES[HIGH].replace("fn fall", "fn stand")
CLIMB = """\
crates/rb_high/src/lib.rt:5
/// Climbs.
pub fn climb(level: Level) -> u64
    requires { level.of ≡ 1 }
    ensures high { IsHigh 2 result }

crates/rb_low/src/lib.rt:3
/// How far up.
pub struct Level {
    pub of: u64,
}

crates/rb_low/specs/Heights.antt:4
-- how high it is
abbrev pub height : ℕ → ℕ
height n = n

crates/rb_low/specs/Heights.antt:12
module _ (least : ℕ) where
  -- not low
  abbrev pub IsHigh : ℕ → Type 0
  IsHigh n = least ≤ height n

3 definitions, 7 lines without comments
ends at std.specs.Prelude: ℕ, ◌≤◌
"""
TWO = """\
definitions: fall may be
    rb_high::fall  crates/rb_high/src/lib.rt
    rb_low::fall  crates/rb_low/src/lib.rt
"""


def definitions(word: str, folder: object = TOP) -> tuple[int, str, str]:
    """The command's status, and what it prints and says on standard error."""
    command = [sys.executable, "-B", f"{TOP}/dev/definitions", "--folder", str(folder), word]
    ran = subprocess.run(command, capture_output=True, text=True, check=False)
    return ran.returncode, ran.stdout, ran.stderr


@pytest.mark.parametrize("word", ["climb", "rb_high::climb"])
def test_a_call_by_its_name_or_the_end_of_its_full_one(files: Files, word: str) -> None:
    assert definitions(word, files(CRATES)) == (0, CLIMB, "")


@pytest.mark.parametrize("word", ["rb_low::fall", "stand", "Level", "IsPlanted", "Heights::IsPlanted"])
def test_a_private_function_a_type_and_definitions(files: Files, word: str) -> None:
    status, printed, said = definitions(word, files(CRATES))
    assert (status, said) == (0, "") and printed


@pytest.mark.parametrize(("word", "import_of", "said"), [
    ("fall", "IsHigh", TWO),
    ("climbs", "IsHigh", "definitions: nothing in src/ and specs/ has the name climbs\n"),
    ("climb", "IsLow", "definitions: Rattle.rb_low.specs.Heights.IsHigh is nowhere in src/ and specs/\n"),
])
def test_a_name_that_two_or_none_have(files: Files, word: str, import_of: str, said: str) -> None:
    crates = {**CRATES, HEIGHTS: CRATES[HEIGHTS].replace("IsHigh", import_of)}
    assert definitions(word, files(crates)) == (2, "", said)


@pytest.mark.parametrize(("word", "there", "absent"), [
    ("Shared::call", "Answered Replied Learns IsLegal Permits IsHead reply_of Event", "IsFiled Locked Content"),
    ("Shared::close", "HasCallsOf AreRecords AreDifferent IsLegal audit_of", "Replied Waits reply_of"),
])
def test_calls_of_this_repository(word: str, there: str, absent: str) -> None:
    printed = definitions(word)[1].split("\n")
    names = {name for line in printed if "pub " in line for name in line.split()}
    assert not {*there.split()} - names and not {*absent.split()} & names


def test_a_reader_that_leaves() -> None:
    command = f"'{TOP}/dev/definitions' serve_door_gathered | true; exit ${{PIPESTATUS[0]}}"
    ran = subprocess.run(["bash", "-c", command], capture_output=True, text=True, check=False)
    assert (ran.returncode, ran.stderr) == (2, "definitions: cannot write output\n")
