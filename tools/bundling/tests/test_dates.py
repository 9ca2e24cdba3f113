"""The date is set while a job waits at an installed service."""
import shutil
import time
from datetime import datetime, timezone
from pathlib import Path

import pytest

from bundling.tests.running import run
from bundling.tests.serving_below import FEW, serving, talk
from servicing.tests.process import Client, Service

DUE = 12  # seconds after which a job is due while the date is set


@pytest.fixture
def offset(tmp_path: Path) -> Path:
    """A file that says by how many seconds the date is set, and beside it the library that does so."""
    if not shutil.which("cc"):
        pytest.skip("there is no C compiler")
    path = tmp_path / "offset"
    words = ["-shared", "-fPIC", f'-DDATE_OFFSET="{path}"', "-o", str(path.with_suffix(".so"))]
    told = run("cc", *words, str(Path(__file__).with_name("set_date.c")))
    assert told.status == 0, told
    return path


@pytest.mark.parametrize("hours", [5, -3])
def test_a_job_is_due_after_real_time(hours: int, offset: Path, root: Path, tmp_path: Path) -> None:
    """So it is over a restart of the service, and no run ends for the date."""
    folder, library = tmp_path / "state", offset.with_suffix(".so")
    with serving(root, folder, *FEW, library=library) as first:
        offered = time.monotonic()
        talk(first.port, f"OFFER {DUE}000000000 reminder", "QUIT")
        offset.write_text(str(hours * 3600), "ascii")
        time.sleep(2)  # in which it would be seen that the run is old
        assert first.stop() == 0
    with serving(root, folder, *FEW, library=library) as service:
        served = time.monotonic() - offered  # which a busy machine may not be in time
        early, reply, passed = taken_reminder(service, offered)
    said = "\n".join([*first.lines, *service.lines])
    last = [line.partition("Z ")[0].removeprefix("time=") for line in said.splitlines() if line.startswith("time=")][-1]
    date = datetime.fromisoformat(last).replace(tzinfo=timezone.utc)
    assert abs(date.timestamp() - time.time() - hours * 3600) < 60
    assert not early.endswith(" reminder") and reply.endswith(" reminder")
    assert DUE <= passed < max(DUE, served) + 5
    assert " why=time" not in said and " event=lost-run " not in said


def taken_reminder(service: Service, offered: float) -> tuple[str, str, float]:
    """What a poll gives before the reminder is due, what the last take gave, and how long after the offer."""
    with Client(service.port) as client:
        client.greeted()
        early, reply = client.ask("POLL") if time.monotonic() < offered + DUE - 1 else "NONE", ""
        while not reply.endswith(" reminder") and time.monotonic() < offered + 5 * DUE:
            reply = client.ask("TAKE")
        passed = time.monotonic() - offered
        if reply.startswith("ITEM "):
            client.ask(f"DONE {reply.split(' ')[1]}")
        client.ask("QUIT")
    return early, reply, passed
