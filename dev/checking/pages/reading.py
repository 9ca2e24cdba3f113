"""A page as tests read it: its sections, blocks of code, tables, and words in code."""
import os
import re
import textwrap
from pathlib import Path

from common.program import TOP

TESTED = "RB_BROKER_PAGES"  # the setting that names another folder with the pages
BLOCK = re.compile(r"(?:^(?:    .*)?\n)*^    .*\n", re.M)
CODE = re.compile(r"(?<!`)`([^`\n]+)`(?!`)")


def page(name: str) -> str:
    """The text of a page of the checkout, or of the folder that is tested in its place."""
    return Path(os.environ.get(TESTED) or TOP, name).read_text("utf-8")


def section(name: str, heading: str) -> str:
    """The part of a page below a heading, to the next one that is not below it."""
    found = re.search(rf"^(#+) {re.escape(heading)}\n((?:(?!^#).*\n|^\1#+ .*\n)*)", page(name), re.M)
    assert found, f"{name} has no heading {heading}"
    return found[2]


def blocks(text: str) -> list[str]:
    """The indented blocks of code, in their order."""
    return [textwrap.dedent(block[0]).strip("\n") + "\n" for block in BLOCK.finditer(text) if block[0].strip()]


def tables(text: str) -> list[list[list[str]]]:
    """The tables, each with its rows of cells, without their heads."""
    found = re.findall(r"(?:^\|.*\n)+", text, re.M)
    return [[cells_of(row) for row in table.splitlines()[2:]] for table in found]


def cells_of(row: str) -> list[str]:
    return [cell.strip() for cell in re.split(r" \|(?= )", row[1:-1])]


def code(text: str) -> list[str]:
    """The words in code."""
    return CODE.findall(text)


def plain(number: str) -> str:
    """A number as programs print it: `1,000,000` and `2^64 - 1` without marks."""
    return str(2**64 - 1) if number == "2^64 - 1" else number.replace(",", "")
