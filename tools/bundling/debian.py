"""The Debian package, made by debhelper of copies of this checkout's files."""
import email.utils
import os
import re
import shutil
import subprocess
import tempfile
from pathlib import Path

from bundling import Fault
from bundling.manuals import write_manuals
from common.program import TOP

FOLDERS = ("clients/java", "clients/python", "docs", "examples", "packaging", "redis", "tools")
PAGES = ("CHANGELOG.md", "CONTRIBUTING.md", "README.md")
NAME = "rb-broker.deb"  # whatever its version is, so that one file alone fits the command that the pages have
NOT_PACKED = shutil.ignore_patterns("tests", "__pycache__", "*.py[co]")
NEEDED = {"/usr/bin/make": "make", "dh": "debhelper", "git": "git"}  # commands, each with Debian's package of it

# What changed is told by CHANGELOG.md, which lies beside it as changelog.gz.
CHANGELOG = """rb-broker ({}) unstable; urgency=medium

  * changelog.gz has what changed.

 -- Nixerba maintainers <maintainers@users.noreply.nixerba.example>  {}
"""


def look_ahead(folder: Path) -> None:
    """Raises a `Fault` if no package can be made in a folder, whatever the program: its build takes long."""
    if not folder.is_dir():
        raise Fault(f"{folder} is no folder")
    for command, package in NEEDED.items():
        if not shutil.which(command):
            raise Fault(f"there is no {command}: apt install {package}")
    version_of_repository()


def make_package(program: Path, folder: Path) -> Path:
    """Makes the package of a program in a folder, in place of one made before, and returns its path. The same files
    make the same package."""
    if not program.is_file() or program.read_bytes()[:4] != b"\x7fELF":
        raise Fault(f"{program} is no {'ELF program' if program.is_file() else 'file'}")
    version, moment = version_of_repository()
    with tempfile.TemporaryDirectory(prefix="rb-package-") as room:
        tree = Path(room, "tree")
        copy_to(tree, program)
        write_manuals(tree, moment)
        (tree / "debian/changelog").write_text(CHANGELOG.format(version, email.utils.formatdate(moment)), "utf-8")
        build(tree)
        (package,) = Path(room).glob("*.deb")
        return Path(shutil.copy(package, folder / NAME))


def copy_to(tree: Path, program: Path) -> None:
    """Copies what debhelper packs. Each file and folder gets the time of now, which is later than any that the package
    tells."""
    for name in FOLDERS:
        shutil.copytree(Path(TOP, name), tree / name, ignore=NOT_PACKED, copy_function=shutil.copy)
    for folder, _, _ in os.walk(tree):  # whose times are copied, and are those of the last change of a checkout
        os.utime(folder)
    (tree / "packaging/debian").rename(tree / "debian")
    for name in PAGES:
        shutil.copy(Path(TOP, name), tree)
    shutil.copy(program, tree / "rb_broker")
    (tree / "rb_broker").chmod(0o755)


def build(tree: Path) -> None:
    """Makes the package beside a tree. The times in it are at most that of its changelog."""
    made = subprocess.run(["debian/rules", "binary"], cwd=tree, env={**os.environ, "LC_ALL": "C"}, encoding="utf-8",
                          stdin=subprocess.DEVNULL, capture_output=True, check=False)
    if made.returncode:
        raise Fault(f"debhelper makes no package: {' '.join(made.stderr.split())}")


def version_of_repository() -> tuple[str, int]:
    """The version that the last tag and the last commit make, and the commit's moment, which all files get.

    The tag v1.2 is version 1.2, and three commits later 1.2+3.COMMIT. With no tag it is 0~TIME.COMMIT, which is below
    all others. If the checkout has changes that are not committed, `+changed` follows.
    """
    dated = "--date=format-local:%Y%m%d%H%M%S"
    last, why = git("log", "-1", "--abbrev=8", dated, "--format=%ct 0~%cd.%h")
    if not last:
        raise Fault(f"git knows no commit of this folder, which names the package's version: {why}")
    moment, _, text = last.partition(" ")
    described, _ = git("describe", "--abbrev=8", "--match=v[0-9]*")
    changed, _ = git("status", "--porcelain")
    tagged = re.sub(r"-(\d+)-g([0-9a-f]+)$", r"+\1.\2", described)[1:]
    return (tagged or text) + ("+changed" if changed else ""), int(moment)


def git(*words: str) -> tuple[str, str]:
    """What git says about the repository, or nothing and why it fails, in one line. It tells dates in UTC."""
    words, environment = ("git", "-C", TOP, *words), {**os.environ, "TZ": "UTC"}
    ran = subprocess.run(words, capture_output=True, encoding="utf-8", env=environment, check=False)
    return ("", " ".join(ran.stderr.split())) if ran.returncode else (ran.stdout.strip(), "")
