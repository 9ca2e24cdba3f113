"""What an item cites: which of its names mean a definition, and which it binds itself."""
from pathlib import Path
from typing import Callable

import pytest

from common.program import TOP
from defining.tree import Tree

SHELF = "crates/rb_a/specs/Shelf.antt"
CRATES = {
    SHELF: """\
use Rattle.std.specs.Prelude.{◌≡◌, ℕ, if◌then◌else◌}
use Rattle.rb_b.specs.Wide.{width, IsWide as IsBroad}
use Rattle.rb_a.specs.Width as widths
use Rattle.rb_a.specs.declared.kind.Kind.TheVariants.{Thin}
use Rattle.rb_a.specs.declared.kind.Kind.TheVariants as kinds
use Rattle.rb_a.specs.declared.kind.TheConstants.{MOST}
use Rattle.rb_a.specs.declared.kind.TheConstants.Kind.{USUAL}

pub data Change : Type 0 where
  puts : (book : Book) → Change
  empties : Change

abbrev pub given : ℕ → ℕ
given n = n

""",
    "crates/rb_a/specs/Width.antt": """\
abbrev pub width : ℕ → ℕ
width n = n

abbrev pub IsWide : ℕ → Type 0
IsWide n = Unit {0}
""",
    "crates/rb_b/specs/Lib.antt": """\
pub use Rattle.rb_a.specs.Width as Wide
""",
    "crates/rb_a/src/kind.rt": """\
pub enum Kind {
    Thin,
    At { place: Place },
}
pub struct Place(u64);
pub const MOST: u64 = 9;
impl Kind {
    pub const USUAL: Kind = Kind::Thin;
}
""",
    "crates/rb_b/src/row.rt": """\
ghost use Rattle.rb_a.specs.Width.{IsWide};

use rb_a::{Kind as Sort, Place};

pub struct Row<T: Timer> {
    unseen: Place,
}
impl<T: Timer> Model for Row<T> {
    ghost Value = { Sort };
}
pub trait Clock {
    ghost gives: { Self → ℕ → Type 0 };
}
impl<T: Timer> Row<T> {
    pub fn put(&mut self, book: u64, other: Place) -> Result<(), Sort>
        requires { IsWide book }
        ensures result { result ≡ self.old }
    {
        put(Clock)
    }
    pub fn wait<C: Clock>(clock: &C, IsWide: u64) -> u64
        ensures { C.gives IsWide }
    {}
}
""",
}

# Items of the code, each with the names that it cites.
ITEMS = [
    ("crates/rb_b/src/row.rt", "Row", "Kind"), ("crates/rb_b/src/row.rt", "Row::put", "IsWide Row Kind"),
      ("crates/rb_b/src/row.rt", "Row::wait", "Clock"), ("crates/rb_b/src/row.rt", "Clock", ""),
      ("crates/rb_a/src/kind.rt", "Kind", "Place"), ("crates/rb_a/src/kind.rt", "Kind::USUAL", "Kind")
]
# Terms, each with the names that `f` cites if the text `f n = TERM` is added to Shelf.antt.
TERMS = [
    ("width (given n)", "width given"), ("IsBroad n", "IsWide"), ("widths.IsWide n", "IsWide"), ("MOST", "MOST"),
      ("USUAL", "Kind::USUAL"), ("empties", "Change"), ("n.width", ""), ("(g n).width", ""),
      ("if n ≡ 1 then n else 0", "if◌then◌else◌"), ("record { width = given n }", "given"), ("n -- width", ""),
      ("λ (width : ℕ). width", ""), ("(width : ℕ) × width n", ""), ("let width = 1 in width", "")
]
# Definitions of `f` that are added there, each with the names that it cites.
DEFINITIONS = [
    ("a pattern with fields", "Change",
     "abbrev pub f : ℕ → ℕ → ℕ\n"
     "f (puts width) given = width + given\n"
     "f empties n = n\n"),
    ("a pattern with variants", "Kind",
     "abbrev pub f : ℕ → ℕ → ℕ\n"
     "f Thin n = 1\n"
     "f kinds.At n = 2\n"),
    ("a pattern with numbers", "width",
     "abbrev pub f : ℕ → ℕ → ℕ\n"
     "f width 0 = width\n"
     "f n m = width\n"),
    ("fields", "",
     "pub record f (given : ℕ) : Type 0 where\n"
     "  pub width : ℕ\n"
     "  pub same : width ≡ given\n"),
    ("a field that its own type names", "width",
     "pub record f (n : ℕ) : Type 0 where\n"
     "  pub width : width n ≡ 1\n"),
    ("a module's parameter", "",
     "module _ (given : ℕ) where\n"
     "  -- width\n"
     "  abbrev pub f : ℕ\n"
     "  f = given\n"),
]

Files = Callable[[dict[str, str]], Path]


def cited(top: Path, place: str, name: str) -> set[str]:
    """The names that an item of a file cites, but for those of the prelude."""
    tree = Tree(top)
    item = tree.files[place].named[name]
    found, outside = tree.cited_by(item, item.section + item.code)
    return {item.name for item in found} | {word.rpartition(".")[2] for word in outside} - {"ℕ", "◌≡◌"}


@pytest.mark.parametrize(("place", "name", "names"), ITEMS)
def test_items(files: Files, place: str, name: str, names: str) -> None:
    assert cited(files(CRATES), place, name) == {*names.split()}


@pytest.mark.parametrize(("term", "names"), TERMS)
def test_terms(files: Files, term: str, names: str) -> None:
    text = f"{CRATES[SHELF]}abbrev pub f : ℕ → ℕ\nf n = {term}\n"
    assert cited(files({**CRATES, SHELF: text}), SHELF, "f") == {*names.split()}


@pytest.mark.parametrize(("_", "names", "text"), DEFINITIONS, ids=[definition[0] for definition in DEFINITIONS])
def test_definitions(files: Files, _: str, names: str, text: str) -> None:
    assert cited(files({**CRATES, SHELF: CRATES[SHELF] + text}), SHELF, "f") == {*names.split()}


def test_the_crates_of_this_repository() -> None:
    tree = Tree(Path(TOP))
    items = [item for file in tree.files.values() for item in file.items]
    assert 1_000 < len([tree.cited_by(item, item.section + item.code) for item in items])
