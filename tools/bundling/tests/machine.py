"""A systemd of its own, in namespaces over this machine's files, to run the units of a package."""
import os
import re
import shutil
import subprocess
import time
from pathlib import Path
from typing import Self

from bundling.tests.running import Told, run
from common.program import TOP

SYSTEMD = "/lib/systemd/systemd"
UNITS = (
    "sysinit.target", "basic.target", "shutdown.target", "multi-user.target", "sockets.target", "timers.target",
    "systemd-journald.service", "systemd-journald.socket", "systemd-journald-dev-log.socket",
)
# Triggers of other packages, such as an index of all manual pages, would take most of the time.
DPKG = ("dpkg", "--force-depends", "--force-unsafe-io", "--no-triggers")
NAMESPACES = ("--mount", "--pid", "--uts", "--ipc", "--cgroup")
PATIENCE = 60  # seconds in which it is up, and in which it is gone


def own_cgroup() -> str:
    """The folder of this process's cgroup, of the second version, or nothing."""
    folders = re.findall(r"^\S+ (\S+) cgroup2 ", Path("/proc/mounts").read_text(), re.M)
    places = re.findall(r"^0::(.*)$", Path("/proc/self/cgroup").read_text(), re.M)
    return f"{folders[0]}{places[0]}".rstrip("/") if folders and places else ""


def reason_not_to_boot() -> str:
    """Why no systemd can be started here, or nothing."""
    if os.geteuid() != 0:
        return "this user is not root"
    missing = [command for command in (SYSTEMD, "unshare", "nsenter", "setpriv") if not shutil.which(command)]
    if missing:
        return f"there is no {missing[0]}"
    return "" if own_cgroup() else "there are no cgroups of the second version"


def is_removed(cgroup: str) -> bool:
    """Removes a cgroup with those in it, unless a process is left there. Gives whether it did."""
    try:
        for folder in [path for path, _, _ in os.walk(cgroup, topdown=False)]:
            os.rmdir(folder)
        return True
    except OSError:
        return False


class Machine:
    """The system. It shares this machine's network, and what it writes stays in a folder. It is gone at the end."""

    def __init__(self, folder: str) -> None:
        os.makedirs(f"{folder}/upper")
        self.folder, self.cgroup = folder, f"{own_cgroup()}/rb_check_{os.getpid()}"
        os.mkdir(self.cgroup)
        # Each of the three ends when the one before has ended, whatever becomes of this one.
        words = ["setpriv", "--pdeathsig", "KILL", "unshare", *NAMESPACES, "--fork", "--kill-child"]
        words += [f"{TOP}/tools/bundling/tests/boot_systemd", folder, *UNITS]
        enter = f'echo $$ > "{self.cgroup}/cgroup.procs"; exec "$@"'
        with open(f"{folder}/console", "w", encoding="utf-8") as console:
            self.process = subprocess.Popen(
                ["bash", "-c", enter, "bash", *words], stdin=subprocess.DEVNULL, stdout=console, stderr=console
            )

    def __enter__(self) -> Self:
        return self

    def __exit__(self, *_: object) -> None:
        self.process.kill()
        self.process.wait()
        until = time.monotonic() + PATIENCE
        while not is_removed(self.cgroup) and time.monotonic() < until:
            time.sleep(0.1)

    def is_up(self) -> bool:
        """Waits until systemd answers. Gives whether it does."""
        until = time.monotonic() + PATIENCE
        while time.monotonic() < until and self.process.poll() is None:
            if self.run("systemctl", "is-active", "basic.target").said == "active\n":
                return True
            time.sleep(0.2)
        return False

    def console(self) -> str:
        """What was said before systemd had its journal."""
        return Path(self.folder, "console").read_text(encoding="utf-8", errors="replace").strip()

    def run(self, *words: str) -> Told:
        """Runs a command in it."""
        children = Path(f"/proc/{self.process.pid}/task/{self.process.pid}/children").read_text().split()
        if not children:
            return Told(-1, "", "nothing runs in it\n")
        enter = ["nsenter", "--target", children[0], "--mount", "--pid", "--uts", "--ipc", "--cgroup", "--root", "--wd"]
        return run(*enter, "env", "-i", "PATH=/usr/sbin:/usr/bin", "LC_ALL=C.UTF-8", *words)

    def write(self, path: str, text: str) -> None:
        """Writes a file of it."""
        told = self.run("sh", "-c", 'printf "%s" "$2" > "$1"', "sh", path, text)
        assert told.status == 0, told
