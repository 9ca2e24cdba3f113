"""The package of the program that is tested, and a root below which it is installed; each is made once."""
import os
import shutil
from pathlib import Path
from typing import Iterator

import pytest

from bundling.tests.machine import DPKG, Machine, reason_not_to_boot
from bundling.tests.running import Told, run
from common.program import TOP, tested_program


def made(folder: Path) -> Path:
    """The package that tools/package makes in a folder."""
    told = run(f"{TOP}/tools/package", "--program", tested_program(), "--output", str(folder))
    assert told.status == 0, told
    return Path(told.said.strip())


def dpkg(root: Path, *words: str) -> Told:
    """What dpkg does below a root that has nothing but what it puts there, as if it were run by root."""
    force = ["--force-depends", "--force-script-chrootless"]
    as_root = [] if os.geteuid() == 0 else ["fakeroot"]
    if as_root and not shutil.which("fakeroot"):
        pytest.fail("dpkg has to be run by root, or by fakeroot, which is not on the path")
    return run(*as_root, "dpkg", f"--root={root}", f"--log={root}/log", *force, *words)


def installed(package: Path, root: Path) -> Path:
    """The root below which the package was installed."""
    for name in ("info", "updates", "triggers"):
        os.makedirs(f"{root}/var/lib/dpkg/{name}")
    Path(root, "var/lib/dpkg/status").touch()
    told = dpkg(root, "--install", str(package))
    assert told.status == 0, told
    return root


@pytest.fixture(scope="session")
def package(tmp_path_factory: pytest.TempPathFactory) -> Path:
    return made(tmp_path_factory.mktemp("package"))


@pytest.fixture(scope="session")
def root(package: Path, tmp_path_factory: pytest.TempPathFactory) -> Path:
    return installed(package, tmp_path_factory.mktemp("root"))


@pytest.fixture(scope="module")
def machine(package: Path, tmp_path_factory: pytest.TempPathFactory) -> Iterator[Machine]:
    """A machine in which the package was installed."""
    if reason := reason_not_to_boot():
        pytest.skip(reason)
    folder = tmp_path_factory.mktemp("machine")
    with Machine(str(folder)) as machine:
        if not machine.is_up():
            pytest.skip(f"it does not start: {machine.console()[-200:]}")
        shutil.copy(package, f"{folder}/upper/rb-broker.deb")
        told = machine.run(*DPKG, "--install", "/rb-broker.deb")
        assert told.status == 0, told
        machine.run("sh", "-c", "cp /usr/lib/systemd/system/rb_broker* /run/units")
        machine.run("systemctl", "daemon-reload")
        yield machine
