"""The grammar of the protocol, by the requests and replies of the case files."""
import re
from functools import cache
from pathlib import Path

import pytest

from checking.pages.reading import blocks, page, section
from common.program import TOP
from conforming.cases import Case, read_cases

TOKEN = re.compile(r'%s"(?P<text>[^"]*)"|"(?P<plain>[^"]*)"|%x(?P<range>\w\w-\w\w)|(?P<count>\d*\*\d*)'
                   r"|(?P<mark>[()\[\]/])|(?P<name>[\w-]+)")
CORE = {"SP": " ", "LF": r"\n", "CR": r"\r", "DIGIT": r"\d"}
MARKS = {"(": "(?:", ")": ")", "[": "(?:", "]": ")?", "/": "|"}
REFUSED = tuple(f"ERR {number}" for number in (1, 2, 4, 8))  # by the form of a line alone


@cache
def rules() -> dict[str, str]:
    """The text of each rule, without comments."""
    text = "".join(blocks(section("docs/PROTOCOL.md", "Grammar")))
    return dict(re.findall(r"^([\w-]+) += ((?:.*\n)(?: .*\n)*)", re.sub(" *;.*", "", text), re.M))


@cache
def pattern(rule: str) -> str:
    """A rule as a regular expression. What is repeated is a name, a range or a group."""
    found, counts, begun = "", [], ""
    for token in TOKEN.finditer(rules()[rule]):
        match token.lastgroup:
            case "count":
                least, most = token["count"].split("*")
                begun = f"{{{least or 0},{most}}}"
                continue
            case "text" | "plain":
                piece = re.escape(token[token.lastgroup])
            case "range":
                piece = "[\\x{}-\\x{}]".format(*token["range"].split("-"))
            case "name":
                piece = CORE.get(token["name"]) or f"(?:{pattern(token['name'])})"
            case _:
                piece = MARKS[token["mark"]]
                if token["mark"] in "([":
                    counts.append(begun)
                    found, begun = found + piece, ""
                    continue
                begun = counts.pop() if token["mark"] in ")]" else ""
        found, begun = found + piece + begun, ""
    return found


CASES = [case for path in sorted(Path(TOP, "crates/rb_cases/data").glob("*.case")) for case in read_cases(str(path))
         if case.is_script and not case.fault and len(case.text(">")) < 10_000]


@pytest.mark.parametrize("case", CASES, ids=lambda case: f"{case.file}, {case.name}")
def test_a_case(case: Case) -> None:
    replies = case.text("<").decode("utf-8")
    assert re.fullmatch(pattern("replies"), replies)
    requests = case.text(">").decode("utf-8", "replace").splitlines(keepends=True)
    if len(requests) == replies.count("\n") and "DRAINED" not in replies:
        for request, reply in zip(requests, replies.splitlines()):
            is_request = re.fullmatch(f"(?:{pattern('request')}){pattern('line-end')}", request)
            assert bool(is_request) is not reply.startswith(REFUSED), (request, reply)


def test_each_reply_and_request_is_in_a_case() -> None:
    told = "".join(case.text("<").decode("utf-8") + case.text(">").decode("utf-8", "replace") for case in CASES)
    words = {*re.findall(r'%s"([A-Z]+)"', page("docs/PROTOCOL.md"))}
    assert words - {*re.findall(r"[A-Z]+", told)} == set()
