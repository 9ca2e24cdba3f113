"""The units of gateways and archives under systemd itself, with a Redis that begins after them."""
import shutil
import subprocess
import time
from collections.abc import Callable

import pytest

from bundling.tests.machine import Machine
from bundling.tests.running import DONE, run
from serving.server import free_port
from serving.session import Session

PATIENCE = 60.0  # seconds
NEEDS = "redis-server", "redis-cli"
AT = 'RB_BROKER_REDIS="redis://127.0.0.1:{}"\n'


@pytest.fixture
def redis_port() -> int:
    """A port at which a Redis can be started."""
    missing = [command for command in NEEDS if not shutil.which(command)]
    if missing or run("/usr/bin/python3", "-c", "import redis").status:
        pytest.skip(f"there is no {' and no '.join(missing) or 'python3-redis'}")
    return free_port()


def test_gateway_and_archive(redis_port: int, machine: Machine) -> None:
    """A gateway that is started before its Redis serves once that is there, and an archive writes its history. Both
    end in good order."""
    port = free_port()
    gateway, archive = f"rb_broker_redis@{port}", "rb_broker_archive@jobs"
    machine.write(f"/etc/default/{gateway}", AT.format(redis_port) + 'RB_BROKER_REDIS_OPTIONS="--queue jobs"\n')
    machine.write(f"/etc/default/{archive}", AT.format(redis_port) + 'RB_BROKER_ARCHIVE_OPTIONS="--every 100ms"\n')
    told = [machine.run("systemctl", "start", unit) for unit in (gateway, archive)]
    words = ["redis-server", "--port", str(redis_port), "--save", ""]
    with subprocess.Popen(words, stdout=subprocess.DEVNULL) as redis:
        try:
            reply = until(lambda: offered(port))
            text = until(lambda: machine.run("cat", f"/var/lib/rb_broker_archive/jobs/jobs-{0:012}.txt").said)
            told += [machine.run("systemctl", "stop", unit) for unit in (gateway, archive)]
        finally:
            redis.terminate()
    journal = machine.run("journalctl", "--output=cat", "-u", gateway, "-u", archive).said
    assert reply.startswith("OFFERED 0 ") and told == [DONE] * 4, (reply, told, journal)
    assert "sessions 1 lost 0\n" in journal
    assert " offer 0 " in text and text.endswith("end 1\n"), (text, journal)


def until(make: Callable[[], str]) -> str:
    """What is made, once that is something."""
    end = time.monotonic() + PATIENCE
    while not (made := make()) and time.monotonic() < end:
        time.sleep(0.1)
    return made


def offered(port: int) -> str:
    """The reply to an offer, or nothing if nobody listens."""
    try:
        with Session(port) as session:
            reply = session.ask("OFFER 0 a")
            session.quit()
            return reply
    except OSError:
        return ""
