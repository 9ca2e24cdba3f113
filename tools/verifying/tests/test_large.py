"""The time and the memory that a large run takes."""
import os
import subprocess
from pathlib import Path

from checking.testing import tool

EVENTS = int(os.environ.get("RB_BROKER_EVENTS", 200_000))
SEATS = 16
MICROSECONDS, KILOBYTES = 60, 0.2  # of processor time and of memory, for each event
LEAST_KILOBYTES = 60_000  # of memory, whatever the run


def write_run(folder: Path, events: int) -> None:
    """Rounds of an offer at one seat, a take at another, and a done. A call lasts for the time of ten others."""
    with (folder / "run.txt").open("w") as history, (folder / "record.jsonl").open("w") as record:
        history.write("history 3\nopen 0 0 0\n")
        for id in range(events // 2):
            at, giver, taker = 10 * id, id % SEATS, (id + 7) % SEATS
            history.write(f"{giver} {at} {at} offer {id} {at} {id} {at} 1 letter-{id}\n")
            history.write(f"{taker} {at + 5} {at + 5} take {id}\n")
            for session, moment, request, reply in [
                (giver, at, f"OFFER 0 letter-{id}", f"OFFERED {id} {at}"),
                (taker, at + 5, "TAKE", f"ITEM {id} {at} 1 letter-{id}"),
                (taker, at + 5, f"DONE {id}", f"DONE {id}"),
            ]:
                times = f'"sent":{moment + 950},"received":{moment + 1050}'
                record.write(f'{{"session":{session},{times},"request":"{request}","reply":["{reply}"]}}\n')
        history.write(f"end {events}\n")


def test_a_large_run(tmp_path: Path) -> None:
    write_run(tmp_path, EVENTS)
    words = [*tool("verify"), f"{tmp_path}/run.txt", f"{tmp_path}/record.jsonl", "--all"]
    with (tmp_path / "out").open("w") as out:
        process = subprocess.Popen(words, stdout=out)
        _, status, usage = os.wait4(process.pid, 0)
        process.returncode = os.waitstatus_to_exitcode(status)
    told = (tmp_path / "out").read_text()
    assert process.returncode == 0, told
    assert told.startswith(f"{EVENTS:,} events at {SEATS} seats; ")
    seconds = usage.ru_utime + usage.ru_stime
    assert seconds < EVENTS * MICROSECONDS / 1e6
    assert usage.ru_maxrss < LEAST_KILOBYTES + EVENTS * KILOBYTES
    print(f"{EVENTS:,} events in {seconds:.1f} s of processor time and {usage.ru_maxrss // 1024} MB")
