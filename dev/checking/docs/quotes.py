"""What docs/HEADLINE.md quotes of src/ and specs/, compared with these.

Above each block of code the page links the file. Each paragraph of the block must be a whole definition of that file,
or a function's head with its clauses, line by line. `..` stands for lines that are left out; comments may be left out
without a sign. Each definition of these crates that the quoted lines name must be quoted too, or the page must link its
name to its file. A name of a library must stand in code between the blocks. The page has at most 4,800 words.
"""
import re
from pathlib import Path
from typing import Iterator

from defining.items import Item, dedented
from defining.tree import SourceFile, Tree

PAGE = "docs/HEADLINE.md"
MOST_WORDS = 4_800
FILE = re.compile(r"\]\(\.\./(crates/[\w/]+\.(?:rt|antt))\)")
LINK = re.compile(r"\[`([\w:]+)`" + FILE.pattern)
CODE = re.compile(r"`([^`\n]+)`")
COMMENTS = r"(?: *(?:--|//).*\n)*"


def find(top: Path) -> Iterator[str | None]:
    """Compares the page below a folder. The fault of a quotation is `docs/HEADLINE.md:LINE: REASON`."""
    text, tree = (top / PAGE).read_text("utf-8"), Tree(top)
    count = len(text.split())
    yield None if count <= MOST_WORDS else f"{PAGE} has {count:,} words, of at most {MOST_WORDS:,}"
    prose, quotes = parted(text)
    links = {(path, name) for name, path in LINK.findall(prose)}
    for path, name in sorted(links):
        file = tree.files.get(path)
        yield None if file and name in file.named else f"{PAGE}: {path} has no {name}"
    items = [quoted(tree.files.get(path), lines) for _, path, lines in quotes]
    reached = links | {(item.path, item.name) for item in items if item}
    said = {word for code in CODE.findall(prose) for word in re.split(r"[\s().]+", code)}
    for (place, path, lines), item in zip(quotes, items):
        yield None if item else f"{place}: {path} has nothing that is so: {lines[0]}"
        cited, outside = tree.cited_by(item, lines) if item else ([], [])
        for definition in cited:
            is_reached = (definition.path, definition.name) in reached
            fault = f"{place}: {definition.name} of {definition.path} is neither quoted nor linked"
            yield None if is_reached else fault
        for name in (word.rpartition(".")[2].replace("◌", " ").split()[0] for word in outside):
            yield None if name in said else f"{place}: the page does not say what {name} is"


def parted(text: str) -> tuple[str, list[tuple[str, str, list[str]]]]:
    """The page without its blocks of code, and their paragraphs, each with its place and the file that is linked."""
    quotes: list[tuple[str, str, list[str]]] = []
    pieces = re.split(r"^```.*$", text, flags=re.M)
    path, line = "", 1
    for prose, block in zip(pieces[::2], pieces[1::2]):
        path = (FILE.findall(prose) or [path])[-1]
        line += prose.count("\n")
        for paragraph in re.finditer(r"(?:.+\n)+", block):
            place = f"{PAGE}:{line + block.count(chr(10), 0, paragraph.start())}"
            quotes.append((place, path, dedented(paragraph[0].splitlines())))
        line += block.count("\n")
    return "".join(pieces[::2]), quotes


def quoted(file: SourceFile | None, lines: list[str]) -> Item | None:
    """The item of a file that these lines quote, if there is one."""
    parts = ("(?:.*\n)+" if line.strip() == ".." else COMMENTS + re.escape(f"{line}\n") for line in lines)
    whole = re.compile("".join(parts) + COMMENTS)
    items = file.items if file else []
    texts = ((item, "".join(f"{line}\n" for line in item.comment + item.code)) for item in items)
    return next((item for item, text in texts if whole.fullmatch(text)), None)
