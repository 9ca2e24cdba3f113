"""What the tests of tools/service share, all made by hand: clocks, records and openings, and states of a service with a
run behind it, of one that begins, and of one in trouble."""
import dataclasses
import io
from typing import Any

from servicing.clock import Reading
from servicing.opening import Left, Opening, left_in
from servicing.connections import Connection
from servicing.state import DISK, Alert, End, Mark, Phase, Queue, Reason, Run, State, Traffic

SECOND = 1_000_000_000


def reading(up: float = 0, date: float = 1_700_000_000, boot: str = "boot-1") -> Reading:
    """Clocks, in seconds."""
    return Reading(boot, int(up * SECOND), int(date * SECOND))


def record(number: int = 1, end: End | None = None, **told: Any) -> Run:
    usual = Run(number, reading(), 0, 0, 0, 0, 1000, ("--delay", "1", "--attempts", "3"), end=end)
    return dataclasses.replace(usual, **told)


def left_of(text: str) -> Left:
    return left_in(io.BytesIO(text.encode()))


def text_of(opening: Opening) -> str:
    return b"".join(opening.text).decode()


def connection(port: int = 1, **told: Any) -> Connection:
    """A client that is served, and that sent something just now."""
    usual = Connection(port, port, False, True, 0, 0, 0, 0)
    return dataclasses.replace(usual, **told)


AT = 1_795_680_000.5  # 2026-11-26 08:00:00 UTC

CLIENTS = (
    connection(41001, heard=725_000),
    connection(41004, heard=30_000, told=2_000, send_queue=163_298, receive_queue=7),
    connection(41003, heard=2_000, is_served=False, receive_queue=7),
    connection(41000, heard=100, has_hung_up=True),
)

FULL_DISK = Alert(DISK, "/var/lib/rb_broker/7011/run-11.txt can't be written: No space left on device; 57,000,000 "
                  "bytes are kept in memory", AT - 4000)


# Of a minute ago.
PAST = Mark(AT - 60, Traffic(600_000 - 74_070, 590_000 - 15, 16_345), None)

PRESENT = record(12, began=reading(date=AT - 4000), moment=10**15, next_id=44_000, opening=1200, aside=7,
                 calls=1_000_000)

ENDED = record(11, End(AT - 4000.3, Reason.TIME, 250_000, 104_000, 4_000, 103_700, 1200, 0, 0.31),
               began=reading(date=AT - 7600), opening=900)
LOST = record(10, End(AT - 7600, Reason.KILLED, closed=1.25), began=reading(date=AT - 9000), opening=900)
HELD = record(9, End(
    AT - 9000, Reason.CALLS, 1_000_000, 412_345, 12_345, 411_445, 900, 3, 61.5, 57, 1),
    began=reading(date=AT - 90_000))


def state(**changes: Any) -> State:
    """A service with four clients, and with a run behind it that was lost."""
    usual = State(
        at=AT, port=7011, phase=Phase.SERVING, since=AT - 3999, run=PRESENT, queue=Queue(AT - 1, 1204, 3.25), workers=8,
        clients=CLIENTS, calls=400_000, id="abc", traffic=Traffic(600_000, 590_000, 16_345), hour=(PAST,),
        runs=(ENDED, LOST, HELD), lost_runs=1)
    return dataclasses.replace(usual, **changes)


def first_state() -> State:
    """A service that has just begun: nothing has been seen, and no run is behind it."""
    return State(AT, 7011, Phase.STARTING, AT - 1)


def troubled_state() -> State:
    """A service with all that may be wrong, at the end of a run that sixteen clients hold up, with long names."""
    clients = tuple(connection(42_000 + it, heard=7_000 * it, receive_queue=12 * it) for it in range(16))
    return state(
        phase=Phase.ENDING, why=Reason.CALLS, since=AT - 42, clients=CLIENTS[:2] + clients,
        waits_for=tuple(it.name for it in clients[:3]), queue=Queue(AT - 30, 987_654, 86_400.5),
        calls=999_990, unwritten=57_000_000, alerts=(
            Alert("many-elements", "The queue has 987,654 elements; a run can begin with 1,000,000.", AT - 3600),
            Alert("lost-run", "Run 10 was lost after 23 min: its opening had 900 elements.", AT - 7600), FULL_DISK))
