"""The manual pages of the tools, made of what their --help says."""
import os
import re
import subprocess
import sys
import time
from pathlib import Path

from bundling import Fault

COMMANDS = ("service", "report", "verify", "load")  # tools that become commands rb_broker_NAME
COLUMNS = "78"  # as wide as a page is set at a terminal

PAGE = """.\\" Made by tools/package of what the command says by \\-\\-help.
.TH {} 1 {} rb_broker "User Commands"
.SH NAME
{} \\- {}
.SH DESCRIPTION
.EX
{}.EE
.SH SEE ALSO
.BR rb_broker (1)
"""


def write_manuals(tree: Path, moment: int) -> None:
    """Writes the page of each tool below a tree that has them, with the date of a moment."""
    date = time.strftime("%Y-%m-%d", time.gmtime(moment))
    folder = tree / "manuals"
    folder.mkdir()
    for tool in COMMANDS:
        command = folder / f"rb_broker_{tool}"  # by which name it tells of itself as it does where it is installed
        command.symlink_to(f"../tools/{tool}")
        (folder / f"{command.name}.1").write_text(page_of(command.name, _help_of(command), date), "utf-8")


def page_of(name: str, says: str, date: str) -> str:
    """The page of a command by its help, in which what it does stands before its name."""
    does = re.search(rf"\n\n(\w)([^:\n]*): {name} ", says)
    if does is None:
        raise Fault(f"the --help of {name} does not begin with what it does")
    return PAGE.format(name.upper(), date, _escaped(name), _escaped(does[1].lower() + does[2]), _escaped(says))


def _help_of(command: Path) -> str:
    ran = subprocess.run([sys.executable, "-B", command, "--help"], capture_output=True, encoding="utf-8", check=False,
                         env={**os.environ, "COLUMNS": COLUMNS, "LC_ALL": "C.UTF-8"})
    if ran.returncode:
        raise Fault(f"{command.name} --help fails: {' '.join(ran.stderr.split())}")
    return ran.stdout


def _escaped(text: str) -> str:
    """A text as roff takes it: nothing in it is a command, and a hyphen can be copied."""
    return re.sub(r"^(?=[.'])", r"\\&", text.replace("\\", r"\e").replace("-", r"\-"), flags=re.M)
