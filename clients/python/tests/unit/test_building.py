"""The package as pip installs it with the setuptools that is there, without a network; its names, types and version."""
import os
import re
import shutil
import subprocess
import sys
import tarfile
from pathlib import Path

import pytest

import rb_broker_client

TOP = Path(__file__).resolve().parents[2]
VERSION = rb_broker_client.__version__

SAYS = """
import importlib.metadata, os, rb_broker_client
print(os.path.dirname(rb_broker_client.__file__))
print(rb_broker_client.__version__, importlib.metadata.version("rb-broker-client"))
print(importlib.metadata.metadata("rb-broker-client")["Requires-Python"])
print(importlib.metadata.metadata("rb-broker-client")["Author-email"])
"""
PACKS = "import sys, setuptools.build_meta as build; print(build.build_sdist(sys.argv[1]))"

typed = pytest.mark.skipif(shutil.which("mypy") is None, reason="there is no mypy")
MYPY = ("mypy", "--strict", "--python-version", "3.11", "--cache-dir", os.devnull)


def run(cwd, *words, status=0, **setting):
    """Runs a program to its end, which must have this status. What it wrote."""
    kept = {name: value for name, value in os.environ.items() if not name.startswith(("PYTHON", "PIP_"))}
    ran = subprocess.run(words, stdout=subprocess.PIPE, stderr=subprocess.STDOUT, encoding="utf-8", cwd=cwd,
                         env={**kept, "PYTHONDONTWRITEBYTECODE": "1", **setting})
    assert ran.returncode == status, (words, ran.stdout)
    return ran.stdout


def can_build(python):
    """Whether this python has what builds the package."""
    words = [python, "-c", "import venv, ensurepip, wheel, setuptools; assert int(setuptools.__version__[:2]) >= 61"]
    return os.path.exists(python) and subprocess.run(words, stderr=subprocess.DEVNULL).returncode == 0


def test_it_is_installed_and_removed(tmp_path):
    """In an environment that has pip, setuptools and wheel, from a copy, as building leaves files that git ignores."""
    builder = next(filter(can_build, (sys.executable, "/usr/bin/python3")), None)
    if builder is None:
        pytest.skip("no python has setuptools 61, wheel and venv")
    sources, place = tmp_path / "sources", tmp_path / "environment"
    shutil.copytree(TOP, sources, ignore=shutil.ignore_patterns("__pycache__", "build", "*.egg-info"))
    shutil.copy(TOP.parents[1] / ".gitignore", sources)
    run(sources, "git", "init", "--quiet")
    run(sources, "git", "add", ".")
    run(tmp_path, builder, "-m", "venv", "--system-site-packages", place)
    python, script = place / "bin/python", place / "bin/rb-broker"
    pip = [python, "-m", "pip", "--no-cache-dir", "--disable-pip-version-check"]
    run(tmp_path, *pip, "install", "--no-index", "--no-build-isolation", sources)
    changed = run(sources, "git", "status", "--porcelain", "--untracked-files").splitlines()
    assert changed == [f"A  {it}" for it in run(sources, "git", "ls-files").splitlines()]
    folder, versions, needs, author = run(tmp_path, python, "-c", SAYS).splitlines()
    assert (versions, needs) == (f"{VERSION} {VERSION}", ">=3.11")
    assert re.search("^Nixerba maintainers <.+@.+>$", author) and Path(folder).is_relative_to(place)
    installed, own = ({it.name for it in Path(folder).iterdir() if it.suffix in (".py", ".typed")}
                      for folder in (folder, TOP / "src/rb_broker_client"))
    assert installed == own
    assert "usage: python3 -m rb_broker_client" in run(tmp_path, python, "-m", "rb_broker_client", "--help")
    assert f"rb_broker_client {VERSION}" in run(tmp_path, script, "--version")
    assert "usage: rb-broker" in run(tmp_path, script, "--help")
    with tarfile.open(tmp_path / run(sources, python, "-c", PACKS, tmp_path).splitlines()[-1]) as packed:
        names = {it.partition("/")[2] for it in packed.getnames()}
    assert {*run(sources, "git", "ls-files", "tests", "examples", "src").splitlines()} <= names
    run(tmp_path, *pip, "uninstall", "--yes", "rb-broker-client")
    assert "ModuleNotFoundError" in run(tmp_path, python, "-c", "import rb_broker_client", status=1)


@typed
def test_each_type_is_right():
    run(TOP, *MYPY, "src")


@typed
@pytest.mark.parametrize("before, after, says", [
    ("", "", "Success"),
    ("await (await broker.take()).done()", "(await broker.take()).done()", "missing an await"),
    ("await producer.offer(", "producer.offer(", "missing an await"),
    ("Worker(deliver,", "Worker(deliver_async,", '"Worker" has incompatible type'),
    ("Worker(deliver, 7011, on_dead=deliver)", "Worker(deliver, 7011, on_dead=deliver_async)",
     '"on_dead" to "Worker" has incompatible type'),
    ("AsyncWorker(deliver_async, 7011, on_dead=deliver)", "AsyncWorker(deliver, 7011, on_dead=deliver)",
     '"AsyncWorker" has incompatible type'),
])
def test_a_forgotten_await_or_a_handler_of_the_other_kind_has_a_wrong_type(tmp_path, before, after, says):
    """The program is right as it stands, and each of these changes makes it wrong."""
    right = (TOP / "tests/unit/typed_program.py").read_text("ascii")
    assert before in right
    (tmp_path / "program.py").write_text(right.replace(before, after, 1), "ascii")
    told = run(tmp_path, *MYPY, "program.py", status=1 if before else 0, MYPYPATH=str(TOP / "src"))
    assert says in told


@pytest.mark.parametrize("name", ["Broker", "Producer", "Worker"])
def test_both_kinds_of_a_client_have_the_same_methods(name):
    kinds = [getattr(rb_broker_client, it) for it in (name, f"Async{name}")]
    methods, others = ({it for it in dir(kind) if not it.startswith("_")} for kind in kinds)
    assert methods == others
    assert all(getattr(kind, it).__doc__ for kind in kinds for it in methods)


@pytest.mark.parametrize("path, told", [
    ("pyproject.toml", '^version = "(.*)"$'), ("../java/pom.xml", "^  <version>(.*)</version>$"),
    ("../java/README.md", "^A client of .* version ([0-9.]+[0-9])"),
    ("../../CHANGELOG.md", r"\bPython package,? version ([0-9.]+[0-9])"),
    ("../../CHANGELOG.md", r"\bJava package,? version ([0-9.]+[0-9])"),
])
def test_both_packages_and_what_is_said_of_them_have_one_version(path, told):
    assert re.search(told, (TOP / path).read_text("utf-8"), re.MULTILINE)[1] == VERSION
