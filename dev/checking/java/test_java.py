"""javac compiles the package and its tests with all warnings, none of which it may give, and javadoc writes the pages of
all public items. Then JUnit runs the tests, mvn builds the package by its pom.xml, the README's first part is followed,
and there is the hostile day of clients/python. A JDK of version 17 or later is needed, and JUnit 4 with hamcrest where
Debian's package junit4 puts them; without mvn and its plugins, what needs these is skipped by name.
"""
import os
import re
import shlex
import shutil
import subprocess
from pathlib import Path
from typing import Any

import pytest

from checking.pages.reading import blocks, section, tables
from checking.parts import python_with_pytest
from common.program import TOP
from serving.server import Server

CLIENT, PYTHON = Path(TOP, "clients/java"), f"{TOP}/clients/python"
JARS = ("/usr/share/java/junit4.jar", "/usr/share/java/hamcrest.jar")
RELEASE, VERSION = "17", "2.0.0"
TESTS = [
    # jobs by themselves, and servers that are lost, full, silent or wrong as scripts of the protocol
    "JobTest", "ScriptedTest", "LostRunTest", "AddressesTest",
    # one suite of what the JDK's pages say, over its own DelayQueue and over a queue at a server
    "DelayQueueTest", "SharedQueueTest",
    # what a queue at a server has beyond that
    "ServedTest", "TlsTest",
]
INHERITED = "java.util.AbstractQueue java.util.AbstractCollection java.util.Collection java.lang.Iterable".split()
METHOD = re.compile(r"\b(\w+)\(([^()]*)\)")
REPOSITORY = "/usr/share/maven-repo"
PLUGINS = [f"{REPOSITORY}/org/apache/maven/plugins/maven-{name}-plugin"
           for name in ("resources", "compiler", "surefire", "jar", "source", "javadoc")]
MAY_BUILD = shutil.which("mvn") is not None and all(map(os.path.isdir, PLUGINS))


def run(*words: str, **options: Any) -> str:
    """Runs a command, which must end with status 0, and gives what it prints."""
    ran = subprocess.run(words, stdout=subprocess.PIPE, stderr=subprocess.STDOUT, encoding="utf-8", errors="replace",
                         check=False, **options)
    assert ran.returncode == 0, ran.stdout
    return ran.stdout.strip()


def sources(folder: str) -> list[str]:
    """The files of a folder that javac compiles, in the order of their names."""
    return sorted(map(str, (CLIENT / folder).rglob("*.java")))


@pytest.fixture(scope="module")
def classes(tmp_path_factory: pytest.TempPathFactory) -> str:
    """The class path of the package and its tests, which are compiled without a warning."""
    room = tmp_path_factory.mktemp("java")
    seen = [str(room)]  # where there are no classes
    for folder, jars in (("src", ()), ("tests", JARS)):
        seen += jars
        words = ("-Xlint:all", "-Werror", "-d", f"{room}/{folder}", "-cp", os.pathsep.join(seen), *sources(folder))
        assert run("javac", "--release", RELEASE, *words) == ""
        seen.append(f"{room}/{folder}")
    return os.pathsep.join(seen)


def test_the_day() -> None:
    """The hostile day of the Python package with clients of this one."""
    modules = os.pathsep.join(f"{PYTHON}/{folder}" for folder in ("src", "tests/unit", "tests/served", "tests/day"))
    settings = {"RB_BROKER_JOBS": os.environ.get("RB_BROKER_JOBS", "2000"), "PYTHONPATH": modules}
    run(python_with_pytest(), "-B", "-m", "pytest", f"{CLIENT}/tests/day", cwd=TOP, env={**os.environ, **settings})


@pytest.mark.parametrize("name", TESTS)
def test_by_junit(classes: str, name: str, program: str) -> None:
    quiet = f"-Djava.util.logging.config.file={os.devnull}"  # of jobs that may be given again, which tests bring about
    told = run("java", "-ea", quiet, f"-Drbbroker.program={program}", "-cp", classes, "org.junit.runner.JUnitCore",
               f"rbbroker.client.{name}", cwd=CLIENT)
    assert re.search(r"^OK \([1-9]\d* tests?\)$", told, re.M), told


def test_javadoc(tmp_path: Path) -> None:
    assert run("javadoc", "-quiet", "-Xdoclint:all", "-Werror", "-d", str(tmp_path), *sources("src")) == ""


def test_the_page(tmp_path: Path) -> None:
    """Does what the README's first part says, in an empty folder, beside a server with its options."""
    text = section("clients/java/README.md", "A worker in five minutes")
    serve, source, commands = blocks(text)
    first, attempt = re.search(r"it prints `(.*?)` .* `(attempt \d)`\.", text).groups()
    delivered = [first, re.sub(r"attempt \d", attempt, first)]
    compiling, running = commands.replace("~/rb_broker", shlex.quote(TOP)).splitlines()
    with Server(shlex.split(serve)[4:]) as server:
        (tmp_path / "Worker.java").write_text(source.replace("7011", str(server.port)), "utf-8")
        run("sh", "-c", compiling, cwd=tmp_path)
        with subprocess.Popen(shlex.split(running), cwd=tmp_path, stdout=subprocess.PIPE, text=True) as worker:
            told = [worker.stdout.readline().strip() for _ in delivered]
            worker.kill()
    assert told == delivered == [f"deliver letter-17, attempt {number}" for number in (1, 2)]


def methods(text: str) -> set[tuple[str, int]]:
    """The methods in a text, each with the number of its parameters."""
    return {(name, len(words.split(",")) if words else 0) for name, words in METHOD.findall(text)}


def test_the_methods_of_a_delay_queue() -> None:
    """Each is in a table of the page that compares them, but for those of every object."""
    told = re.sub(r"<[^<>]*>", "", run("javap", "-public", "java.util.concurrent.DelayQueue", *INHERITED))
    headings = "The class's own methods", "Inherited methods, except those of every object"
    rows = [row for heading in headings for row in tables(section("docs/DELAYQUEUE.md", heading))[0]]
    there = methods(told.replace("java.util.concurrent.DelayQueue", "DelayQueue"))
    assert methods("".join(row[0] for row in rows)) == there - {("equals", 1), ("hashCode", 0)}


@pytest.mark.skipif(not MAY_BUILD, reason="there is no mvn, or not all of its plugins")
def test_maven(tmp_path: Path) -> None:
    """Builds the package by its pom.xml, with nothing but what the system has."""
    shutil.copytree(CLIENT, tmp_path / "maven")
    shutil.copytree(REPOSITORY, tmp_path / "repository", copy_function=os.symlink)  # mvn may write into it
    words = ("mvn", "-o", "-B", "-q", f"-Dmaven.repo.local={tmp_path}/repository", "package")
    run(*words, cwd=tmp_path / "maven")
    jar = tmp_path / f"maven/target/rbbroker-client-{VERSION}.jar"
    assert all(jar.with_name(f"{jar.stem}-{kind}.jar").is_file() for kind in ("sources", "javadoc"))
    assert run("jar", "--describe-module", "--file", str(jar)).startswith(f"rbbroker.client@{VERSION} ")
