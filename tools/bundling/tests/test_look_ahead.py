"""What keeps a package from being made, whatever the program: tools/package says so before it builds one."""
import os
import shutil
import sys
from pathlib import Path
from typing import Callable

import pytest

from bundling import command
from common.program import TOP

OTHER_OWNER = {"GIT_TEST_ASSUME_DIFFERENT_OWNER": "1", "GIT_CONFIG_GLOBAL": os.devnull, "GIT_CONFIG_NOSYSTEM": "1"}

Refused = Callable[..., str]


@pytest.fixture
def refused(monkeypatch: pytest.MonkeyPatch, capsys: pytest.CaptureFixture[str]) -> Refused:
    """Runs the tool with these words, and gives the line that it says before it builds anything."""

    def built_program(_given: object) -> str:
        raise AssertionError("it builds the program first")

    def said_of(*words: str) -> str:
        monkeypatch.setattr(sys, "argv", ["package", *words])
        assert command.main() == 2
        said = capsys.readouterr()
        assert not said.out and said.err.count("\n") == 1
        return said.err.strip()

    monkeypatch.setattr(command, "built_program", built_program)
    return said_of


@pytest.mark.parametrize(("missing", "package"), [("/usr/bin/make", "make"), ("dh", "debhelper"), ("git", "git")])
def test_a_command(refused: Refused, missing: str, package: str, monkeypatch: pytest.MonkeyPatch) -> None:
    monkeypatch.setattr(shutil, "which", lambda name: None if name == missing else name)
    assert refused() == f"package: there is no {missing}: apt install {package}"


def test_the_folder(refused: Refused, tmp_path: Path) -> None:
    assert refused("--output", f"{tmp_path}/none") == f"package: {tmp_path}/none is no folder"


def test_a_checkout_of_another_user(refused: Refused, monkeypatch: pytest.MonkeyPatch) -> None:
    """git says why, and the cure."""
    for name, value in OTHER_OWNER.items():
        monkeypatch.setenv(name, value)
    monkeypatch.setattr(shutil, "which", str)
    told = refused()
    begins = "package: git knows no commit of this folder, which names the package's version: fatal: "
    assert told.startswith(begins) and told.endswith(f" git config --global --add safe.directory {TOP}")
