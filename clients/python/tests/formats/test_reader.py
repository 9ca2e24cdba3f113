"""Which texts are read, compressed or not, what the columns hold, and which line is named if a text is damaged."""
import gzip
from pathlib import Path

import pytest
from hypothesis import given, settings
from hypothesis import strategies as st

from checking.testing import call_tool
from rb_broker_formats import acts
from rb_broker_formats.element import NONE
from rb_broker_formats.faults import Damaged
from rb_broker_formats.files import open_history
from history_texts import RUN, offer, read, text_of

GREATEST = 2**64 - 1
WHOLE = gzip.compress(RUN.encode())
OTHER_SUM = WHOLE[:-8] + bytes([WHOLE[-8] ^ 255]) + WHOLE[-7:]

FIRST = "history 1\n0 0 0 offer 0 0 0 1 a\n0 0 0 poll 0\n0 0 0 offer 1 1000 0 2 a\nend 3\n"
THIRD = "history 3\nopen 0 0 0\n0 0 0 offer 0 0 0 0 1 a\n0 0 0 poll 0\n0 0 0 offer 1 1000 0 0 2 a\nend 3\n"

# Rows `LINE | WHAT | TEXT` of damaged.txt.
DAMAGED = [[piece.strip() for piece in row.split("|")] for row in
           Path(__file__).with_name("damaged.txt").read_text("utf-8").splitlines() if not row.startswith("#")]


@pytest.mark.parametrize(("line", "what", "text"), DAMAGED)
def test_a_damaged_text_is_named_by_its_first_wrong_line(line: str, what: str, text: str) -> None:
    with pytest.raises(Damaged) as caught:
        read(text.replace("\\n", "\n").replace("\\r", "\r"))
    assert caught.value.line == int(line) and what in caught.value.what


@settings(max_examples=400, derandomize=True, deadline=None)
@given(at=st.integers(0, len(RUN) - 1), taken=st.integers(0, 12), put=st.text("0 1a\n-z", max_size=8))
def test_a_text_that_is_changed_anywhere_is_read_or_named(at: int, taken: int, put: str) -> None:
    """It is never taken for another one: what is read has as many events as its last line says."""
    text = RUN[:at] + put + RUN[at + taken:]
    try:
        history = read(text)
    except Damaged as fault:
        assert 1 <= fault.line <= text.count("\n") + 1 and fault.what
    else:
        assert text.endswith(f"end {len(history.events)}\n")


def test_more_events_than_a_text_may_have() -> None:
    lines = "0 0 0 size 0\n" * 1_000_001
    with pytest.raises(Damaged) as caught:
        read(f"history 1\n{lines}end 1000001\n")
    assert caught.value.line == 1_000_002


def test_columns() -> None:
    history = read(RUN)
    elements, events = history.elements, history.events
    run = history.runs[0]
    assert (run.version, history.next_id, run.opened_at, history.kept) == (3, 3, 100, 2)
    assert [*elements.ids] == [0, 2, 3, 4]
    assert [*elements.expiries] == [90, 150, 100, 300]
    assert [*elements.origins] == [0, 1, 3, 3]
    assert [*elements.firsts] == [90, 120, 100, 100]
    assert [*elements.attempts] == [1, 2, 1, 2]
    assert [elements.payload(row) for row in range(4)] == ["a", "b", "c", "c"]
    assert [*elements.roots] == [0, 1, 2, 2]
    assert [*elements.offered_in] == [NONE, NONE, 0, 4]
    assert [*elements.left_in] == [1, 5, 2, 9]
    assert [*events.seats] == [1, 2, 2, 1, 1, 2, 2, 1, 1, 1, 1]
    assert [*events.moments] == [100, 120, 120, 160, 160, 170, 170, 200, 200, 310, 310]
    assert [*events.acts] == [
        acts.OFFER, acts.POLL, acts.TAKE, acts.SIZE, acts.OFFER, acts.POLLFOR, acts.POLL_NONE, acts.PEEK,
        acts.REMOVE_NONE, acts.DRAIN, acts.CLEAR]


def test_first_expiries_that_are_not_told() -> None:
    assert [*read(FIRST).elements.firsts] == [0, 0]
    assert read(FIRST).elements == read(THIRD).elements
    assert read(FIRST).events == read(THIRD).events
    events = "0 1000 1000 poll 1\n0 1000 1000 offer 2 9 0 3 a\nend 2\n"
    behind = read(f"history 2\nopen 2 0 1\nkeep 1 1000 0 2 a\n{events}")
    assert [*behind.elements.firsts] == [1000, 1000]
    assert [*behind.elements.roots] == [0, 0]


def test_a_job_whose_first_element_comes_last() -> None:
    lines = ["0 0 0 offer 0 7 2 2 x", "0 0 0 offer 1 9 2 3 x", "0 0 0 offer 2 5 2 1 x"]
    history = read("history 1\n" + "".join(f"{line}\n" for line in lines) + "end 3\n")
    assert [*history.elements.firsts] == [7, 7, 7]
    assert [*history.elements.roots] == [0, 0, 0]
    assert (history.root_of(2), history.root_of(0)) == (0, None)


def test_greatest_numbers() -> None:
    history = read(text_of(offer(0, GREATEST), f"{GREATEST} {GREATEST} {GREATEST} drain {GREATEST} 0"))
    assert (history.end, [*history.elements.left_in]) == (GREATEST, [1])


@pytest.mark.parametrize(("act", "ids"), [
    ("poll 3", [3]), ("poll none", []), ("take 4", [4]), ("pollfor 160 10 2", [2]), ("pollfor 160 10 none", []),
    ("drain 5 4 7", [4, 7]), ("drain 5", []), ("peek 4", []), ("remove 9 yes", []), ("clear", []),
    ("size 1", []), ("offer 4 300 3 100 2 c", []),
])
def test_what_an_act_gave(act: str, ids: list[int]) -> None:
    assert acts.given_ids(act.split(" ")) == ids


@pytest.mark.parametrize("text", ["history 1\nend 0\n", "history 2\nopen 1 11 0\nend 0\n", "history 3\nopen 0 0 0\nend 0\n"])
def test_texts_of_nothing(text: str) -> None:
    assert len(read(text).events) == 0


def test_a_compressed_history_is_read_as_its_text_is(tmp_path: Path) -> None:
    plain, compressed = tmp_path / "run.txt", tmp_path / "run.txt.gz"
    plain.write_bytes(RUN.encode())
    compressed.write_bytes(WHOLE)
    for path in (plain, compressed):
        with open_history(str(path)) as file:
            assert file.read() == RUN.encode()
    status, told, errors = call_tool("report", str(compressed))
    assert (status, errors) == (0, "")
    assert told == call_tool("report", str(plain))[1].replace(str(plain).encode(), str(compressed).encode())


@pytest.mark.parametrize("text", [WHOLE[:-20], WHOLE[:-1], OTHER_SUM, RUN.encode()])
def test_a_compressed_history_that_is_damaged(tmp_path: Path, text: bytes) -> None:
    path = tmp_path / "run.txt.gz"
    path.write_bytes(text)
    assert call_tool("report", str(path)) == (2, b"", f"report: {path}: damaged as a compressed file\n")


def test_an_empty_file_has_an_empty_text(tmp_path: Path) -> None:
    path = tmp_path / "run.txt.gz"
    path.touch()
    status, told, _ = call_tool("report", str(path))
    assert (status, told) == (1, b"")
