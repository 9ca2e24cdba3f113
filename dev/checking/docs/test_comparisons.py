"""What each comparison of the pages finds in folders that are made here."""
from pathlib import Path
from typing import Callable

import pytest

from checking.docs import COMPARED
from checking.docs.quotes import MOST_WORDS
from defining.tree import Unknown

HEADLINE, PROVED, ARCHITECTURE = (f"docs/{name}.md" for name in ("HEADLINE", "PROVED", "ARCHITECTURE"))
FAILURES, FAILS = "crates/rb_desk/proofs/Failures.antt", "crates/rb_desk/specs/Fails.antt"
LIBRARY = "crates/rb_desk/src/lib.rt"

DESK = {
    FAILS: """\
-- What a failure leaves.
use Rattle.std.specs.Prelude.{ℕ}

-- one more
abbrev pub one_more : ℕ → ℕ
one_more n = suc n

pub record FailsTo (n : ℕ) : Type 0 where
  pub known : n ≡ one_more n
""",
    LIBRARY: """\
ghost use Rattle.rb_desk.specs.Fails.{FailsTo};

pub trait Desk {
    fn call(&self) -> u64
        ensures step { result ≡ 1 };

    ghost makes: { result ≡ 1 };
}

#[tactic(auto, using(crate::proofs::Failures::fails_again))]
pub fn fail<D: Desk>(desk: &D) -> u64
    ensures fails { FailsTo result }
{
    desk.call()
}
""",
}

LINKS = {
    **DESK,
    "page.md": """\
# A page

## Two `words`, here

A [whole link](docs/other.md), [one to a part](docs/other.md#the-part), [one within](#two-words-here),
[a folder](docs), and ![a picture](docs/picture.svg). Another [host](https://host.example/nowhere.md) is not asked.

    [code](nowhere.md)

`[more code](nowhere.md)`
""",
    "docs/other.md": """\
# Other

## The part

[Back](../page.md)
""",
    "docs/picture.svg": """\
""",
}

CLAUSES = {
    **DESK,
    PROVED: """\
# What is proved

## rb_desk

| Public call | What its clause says | Clause |
|---|---|---|
| `Desk::call`, law `makes` | It gives 1. | `step`, `makes` |
| `fail` | It gives 1. | `fails` (`FailsTo`) |
| | And it gives no 2. | `fails` |
""",
    "crates/rb_desk/src/tests/calls.rt": """\
fn calls()
    ensures other { }
{}
""",
}

QUOTES = {
    **DESK,
    "crates/rb_low/specs/Heights.antt": """\
use Rattle.std.specs.Prelude.{ℕ, ◌≤◌}

-- how high it is
abbrev pub height : ℕ → ℕ
height n = n

-- not low
pub record IsHigh (n : ℕ) : Type 0 where
  -- by one
  pub low : 1 ≤ height n
""",
    "crates/rb_low/src/lib.rt": """\
ghost use Rattle.rb_low.specs.Heights.{IsHigh, height};

/// Climbs.
pub fn climb(from: u64) -> u64
    requires { from ≡ 1 }
    ensures high { IsHigh result }
    ensures same { height result ≡ 1 }
{
    0
}
""",
    HEADLINE: """\
# Heights
[`height`](../crates/rb_low/specs/Heights.antt) of an `ℕ`, by `≤`.
[lib.rt](../crates/rb_low/src/lib.rt)
```rust
pub fn climb(from: u64) -> u64
    ..
    ensures high { IsHigh result }
    ..
```
[Heights.antt](../crates/rb_low/specs/Heights.antt)
```antt
-- not low
pub record IsHigh (n : ℕ) : Type 0 where
  pub low : 1 ≤ height n
```
""",
}

UNCITED = {
    **DESK,
    FAILURES: """\
-- Failures, one after the other.
use Rattle.rb_desk.specs.Fails.{
  FailsTo}

module _ (n : ℕ) where
  -- by a tactic
  pub fails_again : FailsTo n → FailsTo n
  fails_again it = it
""",
}

WAY = {
    **DESK,
    "crates/rb_session/src/session.rt": """\
impl Session {
    pub(crate) fn serve(&mut self) -> Reply
        ensures { }
    {
        fail_job(self)
    }
}
""",
    "crates/rb_retry/src/fail.rt": """\
fn fail_job(session: &mut Session) -> Reply {
    retry_of(session)
}

pub fn retry_of(session: &mut Session) -> Reply {
    fail_all(session)
}

fn send(reply: Reply) {
    serve(reply)
}
""",
    ARCHITECTURE: """\
# Architecture

## The way of a request

Of its calls all 3 are bold.

| | Where | What happens |
|---|---|---|
| 1 | `rb_session/src/session.rt` | **`serve`** reads the line, by `read_more`. |
| 2 | `rb_retry/src/fail.rt` | **`fail_job`** asks, and **`retry_of`** answers. |

## The layers

| 3 | `rb_lock/src/lock.rt` | **`act`** is none of them. |
""",
}

# For each comparison the files of its folder, and cases: what is changed, how many things are then right, and the
# faults. A change is a file with a text, which is new or stands at the end, or with what is in the place of another; a
# file alone is taken away.
FOLDERS = {"links": LINKS, "clauses": CLAUSES, "quotes": QUOTES, "uncited": UNCITED, "way": WAY}
CASES = [
    ("links", "links that lead somewhere", 6, [], []),
    ("links", "a file that is not there", 6, [("page.md", "[a link](docs/nowhere.md)\n")],
     ["page.md:11: docs/nowhere.md leads nowhere"]),
    ("links", "a part that is not there", 6, [("page.md", "[a link](docs/other.md#a-part)\n")],
     ["page.md:11: docs/other.md#a-part leads nowhere"]),
    ("links", "a link whose target stands elsewhere", 6, [("page.md", "A [link][it].\n\n[it]: nowhere.md\n")],
     ["page.md:13: nowhere.md leads nowhere"]),
    ("links", "no link at all", 0, [("page.md",), ("docs/other.md",)], ["nothing was found"]),
    ("clauses", "names that are there", 9, [], []),
    ("clauses", "a call that is not there", 5, [(PROVED, "| `fail` |", "| `fails_all` |")],
     ["rb_desk: `fails_all`: fails_all is not there", "rb_desk: `fails_all`: fails is not there",
      "rb_desk: `fails_all`: fails_all is not there", "rb_desk: `fails_all`: fails is not there"]),
    ("clauses", "a clause of another call", 8, [(PROVED, "`fails` (", "`step` (")],
     ["rb_desk: `fail`: step is not there"]),
    ("clauses", "a clause of the call that is named by `of`", 10, [(PROVED, "`fails` (", "`step` of `call` (")], []),
    ("clauses", "a clause that only a test has", 8, [(PROVED, "`fails` (", "`other` (")],
     ["rb_desk: `fail`: other is not there"]),
    ("clauses", "a definition that is not there", 8, [(PROVED, "`FailsTo`", "`Fails`")],
     ["rb_desk: `fail`: Fails is not there"]),
    ("clauses", "no rows", 0, [(PROVED, "## rb_desk", "## A desk")], ["nothing was found"]),
    ("clauses", "no page", 0, [(PROVED,)], ["[Errno 2] No such file or directory: '{top}/docs/PROVED.md'"]),
    ("quotes", "quotations, of which one leaves out a comment", 8, [], []),
    ("quotes", "a line that differs", 6, [(HEADLINE, "IsHigh result", "IsHigh 1")],
     ["docs/HEADLINE.md:5: crates/rb_low/src/lib.rt has nothing that is so: pub fn climb(from: u64) -> u64"]),
    ("quotes", "lines before it that are left out without a sign", 6,
     [(HEADLINE, "    ..\n    ensures", "    ensures")],
     ["docs/HEADLINE.md:5: crates/rb_low/src/lib.rt has nothing that is so: pub fn climb(from: u64) -> u64"]),
    ("quotes", "lines behind it that are left out without a sign", 6, [(HEADLINE, "}\n    ..", "}")],
     ["docs/HEADLINE.md:5: crates/rb_low/src/lib.rt has nothing that is so: pub fn climb(from: u64) -> u64"]),
    ("quotes", "a name that is neither quoted nor linked", 6,
     [(HEADLINE, "[`height`](../crates/rb_low/specs/Heights.antt)", "`height`")],
     ["docs/HEADLINE.md:12: height of crates/rb_low/specs/Heights.antt is neither quoted nor linked"]),
    ("quotes", "a name of a library that the page does not say", 7, [(HEADLINE, ", by `≤`", "")],
     ["docs/HEADLINE.md:12: the page does not say what ≤ is"]),
    ("quotes", "a link to a definition that is not there", 8,
     [(HEADLINE, "# Heights", "# [`width`](../crates/rb_low/specs/Heights.antt)")],
     ["docs/HEADLINE.md: crates/rb_low/specs/Heights.antt has no width"]),
    ("quotes", "too many words", 7, [(HEADLINE, MOST_WORDS * "high\n")],
     [f"docs/HEADLINE.md has {MOST_WORDS + 48:,} words, of at most {MOST_WORDS:,}"]),
    ("quotes", "no page", 0, [(HEADLINE,)], ["[Errno 2] No such file or directory: '{top}/docs/HEADLINE.md'"]),
    ("quotes", "an import that leads nowhere", 0, [("crates/rb_low/specs/Heights.antt", "IsHigh", "IsLow")],
     ["Rattle.rb_low.specs.Heights.IsHigh is nowhere in src/ and specs/"]),
    ("uncited", "what is cited, a lemma by a tactic", 3, [], []),
    ("uncited", "a lemma", 3, [(FAILURES, "\n  stays : n ≡ n\n  stays = refl\n")],
     ["crates/rb_desk/proofs/Failures.antt:10: stays is cited nowhere"]),
    ("uncited", "a set of lemmas", 3, [(FAILURES, "\npub ruleset failures = (fails_again)\n")],
     ["crates/rb_desk/proofs/Failures.antt:10: failures is cited nowhere"]),
    ("uncited", "a lemma that names itself", 3,
     [(FAILURES, "\n  falls : ℕ → ℕ\n  falls zero = zero\n  falls (suc n) = falls n\n")],
     ["crates/rb_desk/proofs/Failures.antt:10: falls is cited nowhere"]),
    ("uncited", "what is local to the lemma before", 3, [(FAILURES, "\n    here : n ≡ n\n    here = refl\n")], []),
    ("uncited", "a definition of specs/", 3, [(FAILS, "\nabbrev pub Stays : ℕ → Type 0\nStays n = n ≡ n\n")],
     ["crates/rb_desk/specs/Fails.antt:11: Stays is cited nowhere"]),
    ("uncited", "a definition that is only imported", 3,
     [(FAILS, "\nabbrev pub Stays : ℕ → Type 0\nStays n = n ≡ n\n"),
      (FAILURES, "  FailsTo}", "  FailsTo,\n  Stays}")],
     ["crates/rb_desk/specs/Fails.antt:11: Stays is cited nowhere"]),
    ("uncited", "a definition that is named by its module", 4,
     [(FAILS, "\nabbrev pub Stays : ℕ → Type 0\nStays n = n ≡ n\n"),
      (LIBRARY, "ghost use", "ghost use Rattle.rb_desk.specs.Fails as fails;\nghost use"),
      (LIBRARY, "{\n    desk", "    ensures stays { fails.Stays result }\n{\n    desk")],
     []),
    ("uncited", "a tactic that is taken away", 2, [(LIBRARY, "#[tactic(auto, using(", "//")],
     ["crates/rb_desk/proofs/Failures.antt:7: fails_again is cited nowhere"]),
    ("uncited", "a set of lemmas that a tactic names", 4,
     [(FAILURES, "\npub ruleset failures = (fails_again)\n"), (LIBRARY, "Failures::fails_again", "Failures::failures")],
     []),
    ("uncited", "an answer that the checker looks up", 3,
     [("crates/rb_desk/proofs/fail/Answers.antt", "\npub fail-returns-clause-fails : goal.returns-clause-fails\n"
       "fail-returns-clause-fails = fails_again\n")],
     []),
    ("uncited", "no definitions", 0, [(FAILS,), (FAILURES,)], ["nothing was found"]),
    ("way", "calls of which each makes the next", 4, [], []),
    ("way", "a call that is not there", 2, [(ARCHITECTURE, "**`fail_job`**", "**`fails`**")],
     ["docs/ARCHITECTURE.md: hop 2: rb_retry/src/fail.rt has no fails",
      "docs/ARCHITECTURE.md: hop 2: nothing before it calls retry_of"]),
    ("way", "a call that is left out", 1, [(ARCHITECTURE, "**`fail_job`** asks, and", "It asks, and")],
     ["docs/ARCHITECTURE.md: hop 2: nothing before it calls retry_of",
      "docs/ARCHITECTURE.md shows 2 calls, and says 3"]),
    ("way", "a call that is not bold", 2, [(ARCHITECTURE, "**`retry_of`**", "`retry_of`")],
     ["docs/ARCHITECTURE.md shows 2 calls, and says 3"]),
    ("way", "a call on the way back, which an earlier one makes", 5,
     [(ARCHITECTURE, "all 3", "all 4"),
      (ARCHITECTURE, "\n## The layers",
       "| 3 | `rb_retry/src/fail.rt` | On the way back **`fail_job`** ends. |\n\n## The layers")],
     []),
    ("way", "a call that only a later one makes", 4,
     [(ARCHITECTURE, "all 3", "all 4"),
      (ARCHITECTURE, "\n## The layers",
       "| 3 | `rb_session/src/session.rt` | On the way back **`serve`** ends. |\n\n## The layers")],
     ["docs/ARCHITECTURE.md: hop 3: nothing before it calls serve"]),
    ("way", "a row that is left out", 0, [(ARCHITECTURE, "| 2 |", "| 4 |")],
     ["{top}/docs/ARCHITECTURE.md has no table, numbered from 1, of calls that are counted, below 'The way of a "
       "request'"]),
    ("way", "no page", 0, [(ARCHITECTURE,)], ["[Errno 2] No such file or directory: '{top}/docs/ARCHITECTURE.md'"]),
]


@pytest.mark.parametrize(("part", "name", "right", "changes", "faults"), [
    pytest.param(part, name, right, changes, faults, id=f"{part}, {name}")
    for part, name, right, changes, faults in CASES])
def test_what_is_found(
    files: Callable[[dict[str, str]], Path], part: str, name: str, right: int, changes: list[tuple[str, ...]],
    faults: list[str],
) -> None:
    texts = {**FOLDERS[part]}
    for path, *change in changes:
        if len(change) == 2:
            assert change[0] in texts[path]
            texts[path] = texts[path].replace(*change)
        elif change:
            texts[path] = texts.get(path, "") + change[0]
        else:
            del texts[path]
    top = files(texts)
    try:
        found = [*COMPARED[part].find(top)] or ["nothing was found"]
    except (Unknown, OSError) as fault:
        found = [str(fault)]
    told = [fault for fault in found if fault]
    assert (len(found) - len(told), told) == (right, [fault.format(top=top) for fault in faults])
