"""What pages name is there: files, parts of dev/check, options of tools, and names of the clients' packages."""
import os
import re
import subprocess
import sys
from functools import cache
from pathlib import Path

import pytest

from checking.pages.reading import TESTED, blocks, code, page, section, tables
from checking.parts import PARTS
from common.program import TOP

FOLDERS = ("*.md", "docs/*.md", "clients/*/README.md", "redis/README.md")
PAGES = sorted(path.relative_to(TOP).as_posix() for folder in FOLDERS for path in Path(TOP).glob(folder))
NOW = [name for name in PAGES if name not in ("CHANGELOG.md", "docs/DECISIONS.md")]  # which speak of what was, too
PATH = re.compile(r"(?<![\w/~.-])(?:\.\./)*"
                  r"((?:examples|tools|dev|crates|clients|redis|docs|bench|packaging)/[\w./-]*\w)/?([*{\[]?)")
COMMAND = re.compile(r"(?:^|[\s(])((?:tools|dev|bench)/[a-z_]+(?:\.py)?|-m rb_broker_(?:client|redis)(?: [a-z]+)?)"
                     r"((?: [^|;&\n#)]+)?)", re.M)
NAME = re.compile(r"(?<!-)\b(?:[A-Za-z]+_\w+|[a-z]+[A-Z]\w*|(?:[A-Z][a-z]+){2,})\b")  # one that is no plain word
# What a part of a page's command may be made of by whoever follows it.
MADE = {"crates/rb_NAME", "dev/null", "rb_NAME", "rb_NAME_tests", "TYPETimer"}
# Names of the languages' own libraries.
OTHERS = {"DelayQueue", "RuntimeError", "ValueError", "TypeError", "OSError", "SystemExit", "BigInt", "MissingCases",
          "CLOCK_MONOTONIC"}


def spoken(name: str) -> str:
    """What a page has in code: words and blocks."""
    text = page(name)
    fenced = re.findall(r"^```.*?^```", text, re.M | re.S)
    return "\n".join([*code(re.sub(r"^```.*?^```", "", text, flags=re.M | re.S)), *blocks(text), *fenced])


@pytest.mark.parametrize("name", NOW)
def test_each_file_is_there(name: str) -> None:
    """Below the top folder or beside the page. A name before a star or a brace is the beginning of one."""
    for path, mark in {*PATH.findall(spoken(name))}:
        places, rest = (Path(TOP, path), Path(TOP, name).parent / path), "*" if mark else ""
        assert path in MADE or any([*place.parent.glob(place.name + rest)] for place in places), path


@cache
def names_in_sources() -> set[str]:
    """The words of all files that are no pages, nor have what is planted in these, and of their paths."""
    files = subprocess.run(["git", "ls-files"], cwd=TOP, capture_output=True, text=True, check=True).stdout.splitlines()
    texts = (Path(TOP, file).read_text("utf-8", "ignore") for file in files
             if not file.endswith((".md", ".png", "test_planted.py")))
    return {*re.findall(r"\w+", "\n".join([*files, *texts]))}


@pytest.mark.parametrize("name", NOW)
def test_each_name_is_in_the_sources(name: str) -> None:
    absent = {*NAME.findall("\n".join(code(page(name))))} - names_in_sources() - MADE - OTHERS
    assert not absent


# Names that belong to another, as `Rests::new`, but for those that `dev/check docs` looks up.
OWNED = [(name, owner, owned) for name in NOW if name not in ("docs/PROVED.md", "docs/HEADLINE.md")
         for owner, owned in re.findall(r"(\w+)::(\w+)", "\n".join(code(page(name))))]


@pytest.mark.parametrize(("name", "owner", "owned"), OWNED)
def test_each_owned_name_is_declared(name: str, owner: str, owned: str) -> None:
    """In a file that names the owner, or in the owner's crate."""
    files = [file for file in Path(TOP, "crates").glob("*/src/**/*.rt") if owner in file.parts or
             re.search(rf"\b{owner}\b", file.read_text("utf-8"))]
    declared = rf"\b(?:fn|struct|enum|trait|type) {owned}\b|^ +{owned}\b *[,({{]"
    assert any(re.search(declared, file.read_text("utf-8"), re.M) for file in files)


# Words in code that are no names, each with the file of the sources that has it.
TEXTS = [
    ("docs/OPERATING.md", "with an element `(.*?)`", "tools/servicing/opening.py"),
    ("docs/OPERATING.md", "is `rb_broker/PORT` in `(.*?)`", "tools/servicing/settings.py"),
    ("docs/OPERATING.md", "or in `(XDG_.*?)`", "tools/servicing/settings.py"),
    ("docs/OPERATING.md", "are in `RB_BROKER_OPTIONS` of `(.*?)` for all", "packaging/rb_broker@.service"),
    ("docs/OPERATING.md", "and of `(.*?@)7011` for one", "packaging/rb_broker@.service"),
    ("docs/OPERATING.md", r"in the runtime directory \(`(\w+)`, `XDG", "tools/servicing/memory.py"),
    ("docs/OPERATING.md", r"\(`RUNTIME_DIRECTORY`, `(\w+)` or", "tools/servicing/memory.py"),
    ("docs/OPERATING.md", r"\(`RUNTIME_DIRECTORY`, `\w+` or `(.*?)`\)", "tools/servicing/memory.py"),
    ("docs/OPERATING.md", "and `examples/` is in `(.*?)`", "tools/common/words.py"),
]


@pytest.mark.parametrize(("name", "told", "file"), TEXTS)
def test_a_text(name: str, told: str, file: str) -> None:
    assert re.search(told, page(name))[1] in Path(TOP, file).read_text("utf-8")


def test_the_folder_of_the_unit() -> None:
    folder = re.search("can touch nothing but its folder, `/var/lib/(.*?)/7011`", page("docs/OPERATING.md"))[1]
    assert f"\nStateDirectory={folder}/%i\n" in Path(TOP, "packaging/rb_broker@.service").read_text("utf-8")


@cache
def options_of(tool: str) -> set[str]:
    """Those of its --help. A module of Python's is named with its command."""
    words = [sys.executable, "-B", *(tool.split() if tool.startswith("-m ") else [f"{TOP}/{tool}"]), "--help"]
    environment = {**os.environ, "PYTHONPATH": f"{TOP}/redis/src:{TOP}/clients/python/src"}
    told = subprocess.run(words, capture_output=True, text=True, check=True, env=environment).stdout
    return {*re.findall(r"--[a-z]+(?:-[a-z]+)*", told)}


@pytest.mark.parametrize("name", NOW)
def test_each_option_of_a_tool_is_there(name: str) -> None:
    absent = [f"{tool} {option}" for tool, words in COMMAND.findall(spoken(name)) if not tool.endswith(".sh")
              for option in re.findall(r"(?<!\S)--[a-z]+(?:-[a-z]+)*", words) if option not in options_of(tool)]
    assert not absent


def test_the_actions_of_tasks() -> None:
    told = {*re.findall(r"\btasks (\w+) reminders:app", spoken("clients/python/README.md"))}
    words = [sys.executable, "-B", "-m", "rb_broker_client", "tasks", "--help"]
    environment = {**os.environ, "PYTHONPATH": f"{TOP}/clients/python/src"}
    said = subprocess.run(words, capture_output=True, text=True, check=True, env=environment).stdout
    assert told == {*re.search(r"\{(.*?)\}", said)[1].split(",")}


@pytest.mark.parametrize("name", NOW)
def test_each_part_is_there(name: str) -> None:
    found = re.findall(r"dev/check((?: [a-z][a-z-]*)+)", spoken(name))
    assert {word for words in found for word in words.split()} <= {*PARTS}


def test_the_parts_in_the_table() -> None:
    """It has each part that is left out where something is missing."""
    told = {part for row in tables(section("docs/TESTING.md", "The gate and the checks"))[-1] for part in code(row[0])}
    assert {name for name, part in PARTS.items() if part.needs} <= told <= {*PARTS}


@pytest.mark.parametrize(("folder", "kind"), [("clients/python", "py"), ("clients/java", "java")])
def test_each_name_of_a_client_is_there(folder: str, kind: str) -> None:
    """Classes, such as `NotOfferedError`, and calls, such as `done()`, are in the package or its examples."""
    files = [file for part in ("src", "examples") for file in Path(TOP, folder, part).rglob(f"*.{kind}")]
    text, spoken_of = "\n".join(file.read_text("utf-8") for file in files), "\n".join(code(page(f"{folder}/README.md")))
    words = {*re.findall(r"\b(?:[A-Z][a-z]+){2,}\b", spoken_of)} | {*re.findall(r"(?<![\w.])(\w+)\(\)", spoken_of)}
    assert not {word for word in words - OTHERS if not re.search(rf"\b{word}\b", text)}


def test_pages_are_those_of_the_folder_that_is_tested() -> None:
    """So what is planted can be tried."""
    assert page("README.md") == Path(os.environ.get(TESTED) or TOP, "README.md").read_text("utf-8")


def test_the_tests_that_are_chosen() -> None:
    """Each word is in the name of one that goes through a table."""
    texts = [file.read_text("utf-8") for file in Path(TOP, "dev/checking/program").glob("test_*.py")]
    tests = re.findall(r"\.parametrize\(.*\)\ndef (test_\w+)", "\n".join(texts))
    words = re.search("dev/check program --unproved --only (.*)", page("docs/EXTENDING.md"))[1].split()
    assert words and all(any(word in test for test in tests) for word in words)
