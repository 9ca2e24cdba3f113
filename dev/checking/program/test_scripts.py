"""Scripts and replays: options, histories, and what each timer is told by."""
from pathlib import Path

import pytest

from checking.program import audit, lines
from checking.program.conftest import Run

ELEMENTS = "OFFER 0 a; OFFER 0 b; OFFER 0 c; OFFER 0 d; REMOVE 0; OFFER 0 e; POLL; POLL; POLL; POLL"
OFFERED = "OFFERED 0 0; OFFERED 1 0; OFFERED 2 0; OFFERED 3 0; REMOVED yes; OFFERED 4 0"
TWICE = "OFFER 0 a; POLL; FAIL 0; AT 2000; POLL; FAIL 1"  # a job that fails twice
FULL = "AT 100; OFFER 50 a; OFFER 50 b; OFFER 50 c; SIZE; POLL; PEEK; AT 150; POLL; POLL; SIZE; QUIT; SIZE"

SCRIPTS = [
    ("", "SIZE", "SIZE 0"),
    ("", "SIZE; QUIT; SIZE", "SIZE 0; BYE"),
    ("", "", ""),
    ("", "poll; SIZE", "ERR 1 syntax; SIZE 0"),
    ("--calls 1", "SIZE; SIZE", "SIZE 0; ERR 6 full"),
    ("--calls=2", "SIZE; SIZE; SIZE", "SIZE 0; SIZE 0; ERR 6 full"),
    ("--calls 1000000", "SIZE", "SIZE 0"),
    ("--calls 7 --timer list", ELEMENTS, f"{OFFERED}; ITEM 4 0 1 e; ERR 6 full; ERR 6 full; ERR 6 full"),
    ("--timer list --calls 8", FULL, "NOW 100; OFFERED 0 150; OFFERED 1 150; OFFERED 2 150; SIZE 3; NONE; "
     "HEAD 0 150 1 a; NOW 150; ITEM 0 150 1 a; ITEM 1 150 1 b; ERR 6 full; BYE"),
    ("", TWICE, "OFFERED 0 0; ITEM 0 0 1 a; AGAIN 1 1000; NOW 2000; ITEM 1 1000 2 a; AGAIN 2 3000"),
    ("--delay 5", TWICE, "OFFERED 0 0; ITEM 0 0 1 a; AGAIN 1 5; NOW 2000; ITEM 1 5 2 a; AGAIN 2 2005"),
    ("--rate 700", TWICE, "OFFERED 0 0; ITEM 0 0 1 a; AGAIN 1 700; NOW 2000; ITEM 1 700 2 a; AGAIN 2 1400"),
    ("--attempts 2", TWICE, "OFFERED 0 0; ITEM 0 0 1 a; AGAIN 1 1000; NOW 2000; ITEM 1 1000 2 a; DEAD 1"),
]

# The order of four elements of equal expiry shows the timer: the last of them has the slot of one that was removed, so
# no two timers give them in the same order. They have all expired, so the moment of a server changes nothing.
EQUALS = ELEMENTS.replace("OFFER", "OFFERAT") + "; QUIT"
ORDERS = {
    "list": "ITEM 4 0 1 e; ITEM 1 0 1 b; ITEM 2 0 1 c; ITEM 3 0 1 d",
    "heap": "ITEM 3 0 1 d; ITEM 4 0 1 e; ITEM 2 0 1 c; ITEM 1 0 1 b",
    "pairing": "ITEM 1 0 1 b; ITEM 2 0 1 c; ITEM 3 0 1 d; ITEM 4 0 1 e",
    "wheel": "ITEM 4 0 1 e; ITEM 3 0 1 d; ITEM 2 0 1 c; ITEM 1 0 1 b",
}


@pytest.mark.parametrize(("options", "given", "told"), SCRIPTS)
def test_a_script(run: Run, options: str, given: str, told: str) -> None:
    assert run(f"rb_broker script {options}", lines(given)) == (0, lines(told), "")


def test_a_truncated_line(run: Run) -> None:
    assert run("rb_broker script", "SIZE") == (0, "ERR 8 line\n", "")


def test_the_calls_that_a_run_has_by_default(run: Run) -> None:
    assert run("rb_broker script", 10_001 * "SIZE\n") == (0, 10_000 * "SIZE 0\n" + "ERR 6 full\n", "")


@pytest.mark.parametrize(("options", "timer"), [("", "heap"), *((f"--timer {order}", order) for order in ORDERS)])
def test_a_timer(run: Run, options: str, timer: str) -> None:
    assert run(f"rb_broker script {options}", lines(EQUALS)) == (0, lines(f"{OFFERED}; {ORDERS[timer]}; BYE"), "")


@pytest.mark.parametrize("timer", ORDERS)
def test_a_timer_of_a_great_run(run: Run, timer: str) -> None:
    test_a_timer(run, f"--timer {timer} --calls 1000000", timer)


def test_a_run_that_begins_with_many_elements(run: Run) -> None:
    wrote = run("rb_broker script --calls 200000 --history f | tail -n 1", 200_000 * "OFFER 5 a\n")
    assert wrote == (0, "OFFERED 199999 5\n", "")
    told = run("rb_broker script --from f", lines("SIZE; AT 5; REMOVE 199999; SIZE"))
    assert told == (0, lines("SIZE 200000; NOW 5; REMOVED yes; SIZE 199999"), "")


def test_histories(run: Run) -> None:
    """A run, its replays, and one that continues it in the same file."""
    history = "history 3; open 0 0 0; 0 0 0 offer 0 0 0 0 1 a; 0 0 0 poll 0; 0 0 0 offer 1 1000 0 0 2 a; end 3"
    wrote = run("rb_broker script --history history && cat history", lines("OFFER 0 a; POLL"))
    assert wrote == (0, lines(f"OFFERED 0 0; ITEM 0 0 1 a; {history}"), "")
    told = lines(audit(calls=3, given=1, left=1, offered=2))
    assert run("rb_broker replay history") == (0, told, "")
    assert run("rb_broker replay history --chains") == (0, told, "")
    assert run("rb_broker replay --chains --delay 999 history") == (1, "unchained 2 expiry\n", "")
    for closed in ("> /dev/full", ">&-"):
        status, _, errors = run(f"rb_broker replay history {closed}")
        assert (status, errors) == (3, "rb_broker: cannot write output\n")
    told = run("rb_broker script --from history --history history", lines("SIZE; AT 1000; POLL; DONE 1"))
    assert told == (0, lines("SIZE 1; NOW 1000; ITEM 1 1000 2 a; DONE 1"), "")
    assert run("rb_broker replay history") == (0, lines(audit(calls=2, given=1, opening=1)), "")


@pytest.mark.parametrize(("history", "told"), [
    ("history 3; open 0 0 0; 0 0 0 offer 0 0 0 0 1 a; 0 0 0 poll 1; 0 0 0 offer 1 1000 0 0 2 a; end 3",
     "refused 1 not in queue"),
    ("history 3; open 0 0 0; 0 0 0 offer 0 0 0 0 1 a; 0 0 0 poll 0; 0 0 0 offer 1 1000 0 0 2 a", "unreadable 6 end"),
    ("", "unreadable 1 header"),
])
def test_a_history_that_no_run_continues(run: Run, tmp_path: Path, history: str, told: str) -> None:
    (tmp_path / "f").write_text(lines(history), "ascii")
    assert run("rb_broker replay f") == (1, f"{told}\n", "")
    if history:
        assert run("rb_broker script --from f") == (1, "", "rb_broker: bad opening\n")


# A client that sends byte by byte, and waits for each reply.
PATIENT = """bash -c '
    coproc rb_broker script
    program=$COPROC_PID
    while read -r request; do
        for ((at = 0; at < ${#request}; at++)); do printf %s "${request:at:1}" >&"${COPROC[1]}"; done
        echo >&"${COPROC[1]}" && read -r reply <&"${COPROC[0]}" && echo "$reply"
    done
    wait "$program"' rb_broker"""


def test_a_client_that_waits_for_each_reply(run: Run) -> None:
    told = run(PATIENT, lines("OFFER 5 a; poll; AT 5; POLL; DONE 0; QUIT"))
    assert told == (0, lines("OFFERED 0 5; ERR 1 syntax; NOW 5; ITEM 0 5 1 a; DONE 0; BYE"), "")
