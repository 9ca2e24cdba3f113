"""The unit and its file of options: what they name is as the service says, and systemd can read the unit."""
import re
import shutil
from pathlib import Path

import pytest

from bundling.tests.running import run
from bundling.tests.test_options import options_in
from common.program import TOP

UNIT, DEFAULTS = Path(TOP, "packaging/rb_broker@.service"), Path(TOP, "packaging/default/rb_broker")
# What systemd does by itself: it takes the service as started when that says so, stops or kills the service alone and
# not its server, for which it keeps descriptors, and starts it again.
WORDS = {
    "ExecStart": "/usr/bin/rb_broker_service --port %i --folder %S/rb_broker/%i $RB_BROKER_OPTIONS",
    "Type": "notify", "KillMode": "process", "Restart": "always", "FileDescriptorStoreMax": "8",
    "Requires": "rb_broker@%i.socket", "RuntimeDirectoryPreserve": "yes",
}


def test_words_of_the_unit() -> None:
    unit = UNIT.read_text("utf-8")
    told = {name: re.findall(rf"^{name}=(.*)$", unit, re.M) for name in WORDS}
    assert told == {name: [word] for name, word in WORDS.items()}


def test_options_in_unit_and_file() -> None:
    """The unit and its file name options of the service, with their defaults, and set none."""
    defaults = DEFAULTS.read_text("utf-8")
    told = re.findall(r'^(?:Environment=)?RB_BROKER_OPTIONS="?([^"\n]*)', UNIT.read_text("utf-8") + defaults, re.M)
    assert told == ["", ""]
    says = " ".join(run(f"{TOP}/tools/service", "--help").said.split())
    joined = re.sub(r"\n#    +", " ", defaults)  # in which what is told of an option is in one line
    for name, default in re.findall(r"^#   (--\S+) [A-Z].*?(?:default (\w+)|$)", joined, re.M):
        entry = re.search(rf"{name} [A-Z].*?(?= --[a-z])", says)
        assert entry and (not default or f"(default: {default})" in entry[0]), name
    assert not options_in(defaults) - options_in(says)


@pytest.mark.parametrize("name", ["rb_broker", "rb_broker_redis", "rb_broker_archive"])
def test_systemd_reads_the_units(name: str, root: Path, tmp_path: Path) -> None:
    """A copy of each that is installed below a root, whose commands are there too; those of Redis run Python, which is
    this machine's."""
    if not shutil.which("systemd-analyze"):
        pytest.skip("systemd-analyze is not installed")
    copies = []
    for path in Path(root, "usr/lib/systemd/system").glob(f"{name}@.*"):
        copies.append(tmp_path / path.name.replace("@", "@7011"))
        text = re.sub(r"^(Exec\w+=)/(?!usr/bin/python3)", rf"\1{root}/", path.read_text("utf-8"), flags=re.M)
        copies[-1].write_text(text, "utf-8")
    assert copies
    told = run("systemd-analyze", "verify", "--man=no", *map(str, copies))
    # What it says of other units, those of this machine, is passed over.
    assert told.status == 0 and "rb_broker" not in told.errors, told
