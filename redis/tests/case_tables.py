"""The tables of crates/rb_cases/data, which say what the protocol and the queue answer."""
from __future__ import annotations

from typing import NamedTuple

from checking.rows import CRATE, tables_of
from conforming.cases import text_of

CASES = CRATE / "data"


class Row(NamedTuple):
    """What is asked, and what is answered."""

    asked: str
    answer: str


def tables_of_kind(file: str, kind: str) -> list[list[Row]]:
    """The rows of each table of a kind in a file."""
    tables = (table for table in tables_of(CASES / file) if table[0].split(" ")[1] == kind)
    return [[Row(*row.rpartition(" = ")[::2]) for row in rows] for _, *rows in tables]


def bytes_of(text: str) -> bytes:
    """The bytes that a row's text describes."""
    return text_of(text, 0)
