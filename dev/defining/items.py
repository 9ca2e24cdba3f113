"""The definitions and calls of a file of src/, specs/ or proofs/, each with its text."""
import re
from itertools import takewhile
from typing import Iterator, NamedTuple

SPEC_HEAD = re.compile(r"\s*((?:abbrev |unfoldable |pub |record |data |ruleset )*)([^\s:(){}=]+)")
RUST_HEAD = re.compile(r"\s*(?:pub(?:\([a-z]+\))? )?(?:unsafe )?(fn|struct|enum|trait|type|const) (\w+)")
IMPL = re.compile(r"impl(?:<[^{]*?>)? (?:([\w:]+)(?:<[^{]*>)? for )?(\w+)")
MODEL = re.compile(r"^impl(?:<[^{]*>)? Model for (\w+)(?:(?!\n\}).)*?\n *(ghost Value = [^\n]*)", re.M | re.S)
IMPORT = re.compile(r"(pub )?(use|mod) ")


class Item(NamedTuple):
    """A definition of specs/ or proofs/, or a type, a trait, a constant or a function of src/ with its clauses."""

    path: str  # from the top folder
    name: str  # of a function of a type as `Shared::call`
    kind: str  # `more` for a paragraph that goes on with a definition
    line: int
    section: list[str]  # the heads of the `module _` blocks around it
    comment: list[str]
    code: list[str]  # from the margin on, without attributes; of a function without its body


def spec_items(path: str, text: str) -> Iterator[Item]:
    """The items of a file of specs/ or proofs/: each paragraph that is no import, perhaps behind heads of blocks."""
    sections: list[list[str]] = []
    owner = ""
    for paragraph in re.finditer(r"(?:.+\n)+", f"{text}\n"):
        lines, line = paragraph[0].splitlines(), text.count("\n", 0, paragraph.start()) + 1
        while sections and indent_of(lines[0]) <= indent_of(sections[-1][0]):
            sections.pop()
        while blocks := [at for at, line in enumerate(lines) if line.lstrip().startswith("module _")]:
            end = next(at for at, line in enumerate(lines) if at >= blocks[0] and line.endswith("where")) + 1
            sections.append(lines[blocks[0]:end])
            lines, line = lines[end:], line + end
        head = len(list(takewhile(is_comment, lines)))
        found = SPEC_HEAD.match(lines[head]) if head < len(lines) and not IMPORT.match(lines[head]) else None
        if found:
            kind = next((kind for kind in ("record", "data", "ruleset") if kind in found[1].split()), "value")
            is_whole = kind != "value" or lines[head].startswith(" :", found.end())
            if not is_whole or indent_of(lines[head]) != 2 * len(sections):
                kind = "more"
            owner = owner if kind == "more" else found[2]
            section, lines = [opening for block in sections for opening in block], dedented(lines)
            yield Item(path, owner, kind, line + head, section, lines[:head], lines[head:])


def rust_items(path: str, text: str) -> Iterator[Item]:
    """The items of a file of src/. A type with a model is the value that contracts see."""
    owner, implements, values = "", False, dict(MODEL.findall(text))
    lines = text.split("\n")
    for at, line in enumerate(lines):
        block, found = IMPL.match(line), RUST_HEAD.match(line)
        owner, implements = (block[2], bool(block[1])) if block else ("", False) if line == "}" else (owner, implements)
        if not found or indent_of(line) not in ((0, 4) if owner else (0,)):
            continue
        kind, name = found.groups()
        code, full = text_at(lines, at, kind), f"{owner}::{name}" if indent_of(line) else name
        if implements and kind != "const" and not any(" ensures " in clause for clause in code):
            continue
        if name in values and not owner:
            code = [code[0].removesuffix(" {").removesuffix(";") + " { .. }", values[name]]
        above = takewhile(lambda line: line.lstrip().startswith(("//", "#[")), reversed(lines[:at]))
        comment = dedented([line for line in above if is_comment(line)][::-1])
        yield Item(path, full, kind, at + 1, [], comment, code)
        owner = name if kind == "trait" else owner


def text_at(lines: list[str], start: int, kind: str) -> list[str]:
    """The text of the item that begins at a line; of a function without its body."""
    margin, depth, clauses = " " * indent_of(lines[start]), 0, False
    for end, line in enumerate(lines[start:], start):
        if kind == "fn" and line in (f"{margin}{{", f"{margin}{{}}"):
            return dedented(lines[start:end])
        depth += line.count("{") - line.count("}")
        clauses = clauses or line.lstrip().startswith(("requires", "ensures"))
        if line.endswith(" {") and kind == "fn" and not clauses:
            return [*dedented(lines[start:end]), line.strip().removesuffix(" {")]
        if depth == 0 and line.endswith((";",) if kind == "fn" else (";", "}")):
            return dedented(lines[start:end + 1])
    return dedented(lines[start:])


def is_comment(line: str) -> bool:
    return line.lstrip().startswith(("--", "//"))


def indent_of(line: str) -> int:
    return len(line) - len(line.lstrip())


def dedented(lines: list[str]) -> list[str]:
    """The lines without the margin of the first."""
    margin = " " * indent_of(lines[0]) if lines else ""
    return [line.removeprefix(margin) for line in lines]
