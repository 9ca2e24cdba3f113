"""tools/package: what it refuses, and the package that it makes, installs and removes."""
import filecmp
import os
import re
import shutil
import time
from pathlib import Path

import pytest

from bundling.debian import copy_to
from bundling.tests.conftest import dpkg, installed, made
from bundling.tests.running import DONE, run
from common.program import TOP


# What tools can't work with, each with what they say.
@pytest.mark.parametrize(("why", "line"), [
    ("is no file", "package --program none"),
    ("is no ELF program", "package --program {top}/README.md"),
    ("is no folder", "package --program {program} --output none"),
    # The times of a service need a unit, and its numbers have ranges.
    ("30 has no unit", "service --delay 30"),
    ("not allowed with", "service --delay 1s --rate 1s"),
    ("0 is not from 1 to 65535", "service --port 0"),
    ("17 is not from 1 to 16", "service --workers 17"),
    ("2h is not from 1s to 1h", "service --stop-within 2h"),
    ("2d is not from 1s to 1d", "service --silent 2d"),
    ("0s is not from 1s to 30d", "service --every 0s"),
    ("unrecognized arguments: --history", "service --history x"),
])
def test_refusals(why: str, line: str, program: str, tmp_path: Path) -> None:
    """One clear line is said, and nothing is left in the empty folder."""
    tool, *words = line.format(program=program, top=TOP).split()
    told = run(f"{TOP}/tools/{tool}", *words, folder=str(tmp_path))
    assert told.status == 2 and not told.said and why in told.errors and told.errors.count("\n") == 1, told
    assert not os.listdir(tmp_path)


def test_same_files_make_the_same_package(package: Path, tmp_path: Path) -> None:
    assert filecmp.cmp(package, made(tmp_path), shallow=False)


def test_a_later_build_is_what_the_pages_install(tmp_path: Path, monkeypatch: pytest.MonkeyPatch) -> None:
    """No earlier one is left in the folder that fits their command."""
    made(tmp_path)
    later = version_9_made(tmp_path, monkeypatch)
    commands = [re.findall(r"^    apt install (\./\S+)$", Path(TOP, page).read_text("utf-8"), re.M)
                for page in ("README.md", "docs/OPERATING.md")]
    assert [[*tmp_path.glob(form)] for (form,) in commands] == [[later], [later]]
    assert run("dpkg-deb", "-f", str(later), "Version").said.startswith("9+")


def version_9_made(folder: Path, monkeypatch: pytest.MonkeyPatch) -> Path:
    """The package of the same files in a repository of that version."""
    repository = folder / "repository"
    repository.mkdir()
    for words in ("init -q .", "commit -q --allow-empty -m a", "tag -a -m a v9"):
        told = run("git", "-c", "user.name=a", "-c", "user.email=a@example", *words.split(), folder=str(repository))
        assert told.status == 0, told
    monkeypatch.setenv("GIT_DIR", f"{repository}/.git")
    return made(folder)


def test_no_time_of_the_checkout_is_packed(program: str, tmp_path: Path) -> None:
    """A folder's is the older one if a commit was pulled into a clone, until byte code is written into it."""
    began = time.time()
    copy_to(tmp_path / "tree", Path(program))
    assert not [path for path in (tmp_path / "tree").rglob("*") if path.stat().st_mtime < began - 1]


@pytest.mark.skipif(not shutil.which("lintian"), reason="lintian is not installed")
def test_lintian(package: Path) -> None:
    """Debian's checker of packages finds nothing that is not explained in rb-broker.lintian-overrides."""
    told = run("lintian", "--allow-root", "--pedantic", "--fail-on", "error,warning,info,pedantic", str(package))
    assert told.status == 0, told


def test_installation(root: Path) -> None:
    told = run("dpkg-query", f"--admindir={root}/var/lib/dpkg", "-W", "-f", "${Status};${Conffiles}", "rb-broker")
    assert told.said.startswith("install ok installed;") and "/etc/default/rb_broker " in told.said, told
    assert dpkg(root, "--verify", "rb-broker") == DONE


def test_tools_run_by_the_python_whose_packages_they_import(root: Path) -> None:
    tools = [path for path in Path(root, "usr/share/rb_broker/tools").iterdir() if path.is_file()]
    assert {path.read_text("utf-8").partition("\n")[0] for path in tools} == {"#!/usr/bin/python3"}


def test_what_pages_link_to_is_packed(root: Path) -> None:
    """Except sources."""
    pages = [*Path(root, "usr/share/doc/rb-broker").rglob("*.md")]
    links = [(page, link) for page in pages for link in re.findall(r"\]\(([^)#:]+\.(?:md|png|yaml|acl))", page.read_text("utf-8"))]
    assert len(links) > 100 and not [(page, link) for page, link in links if not (page.parent / link).exists()]


def test_removal_leaves_no_file(package: Path, tmp_path: Path) -> None:
    told = dpkg(installed(package, tmp_path), "--purge", "rb-broker")
    assert told.status == 0, told
    paths = [f"{folder}/{name}" for folder, _, names in os.walk(tmp_path) for name in names]
    assert not [path for path in paths if "rb_broker" in path.removeprefix(str(tmp_path)) or "rb-broker" in path]
