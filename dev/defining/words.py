"""The names in the text of an item, without those that it binds itself.

A name that an item binds anywhere counts as bound in all of it, except for what patterns and fields bind.
"""
import re
from typing import Callable, Iterator

from defining.items import Item, is_comment

NAME = r"[^\s()\[\]{};,:.@\"«»|<>&]+"
WORD = re.compile(rf"(?<![\w)]\.)(?:{NAME}(?:\.{NAME})*|[<>])")  # with dots it is a path; `.0` of a bracket is no name
BINDER = re.compile(r"[({]((?:[\w']+ )+):")
FUNCTION = re.compile(r"λ ([^.]+)\.|\blet ([\w']+)")
LABEL = re.compile(r"(?<=[{;])\s*\w+ = ")
FIELD = re.compile(r"^ +(?:pub )?(\w+) :", re.M)
CLAUSE = re.compile(r"\b(?:requires|ensures)\*?(?: \w+)? \{")
PARAMETER = re.compile(r"(\w+): ")
VARIANT = re.compile(r"^    (\w+)", re.M)
TYPE_PARAMETERS = re.compile(r"\A([^<=]*)<[^(=]*?>(?= \{|;|\()")


def words_of(item: Item, code: list[str], is_constructor: Callable[[str], bool]) -> Iterator[str]:
    """The free names of these lines of an item. In a pattern a constructor's name is free, and any other is bound."""
    text = re.sub(r"\"[^\"\n]*\"", "", "\n".join(line.split(" -- ")[0] for line in code if not is_comment(line)))
    functions = " ".join(function[1] or function[2] for function in FUNCTION.finditer(text))
    bound = {*re.findall(r"[\w']+", re.sub(r" : [^)]*", "", functions))}
    if item.path.endswith(".rt"):
        bound |= {*PARAMETER.findall(text), *(VARIANT.findall(text) if item.kind == "enum" else ())}
        yield from free(stated(item, text) if item.kind == "fn" else TYPE_PARAMETERS.sub(r"\1", text), bound)
        return
    binders = BINDER.findall("\n".join([*item.section, text]))
    bound |= {name for binder in binders for name in binder.split()} | {item.name}
    if item.kind in ("record", "data"):
        head, *fields = FIELD.split(text)
        yield from free(head, bound)
        for name, term in zip(fields[::2], fields[1::2]):
            yield from free(term, bound)
            bound |= {name} if item.kind == "record" else set()
        return
    for statement in re.split(rf"^(?={re.escape(item.name)} )", text, flags=re.M):
        is_signature = f"{item.name} :" in statement
        *pattern, body = [statement] if is_signature else re.split(r" =\s", statement, maxsplit=1)
        names = [*free("".join(pattern), bound)]
        known = [word for word in names if "." in word or not word[0].isalpha() or is_constructor(word)]
        yield from known
        yield from free(body, bound | {*names} - {*known})


def stated(item: Item, text: str) -> str:
    """The clauses of a function, and the types of what these name: parameters, type parameters and the result."""
    head, *clauses = CLAUSE.split(text)
    words = [word.partition(".") for clause in clauses for word in WORD.findall(clause)]
    said = {name for name, dot, _ in words if dot or not name[0].isupper()}
    typed = PARAMETER.split(head.replace("->", "result: "))
    types = [kind for name, kind in zip(typed[1::2], typed[2::2]) if name in said]
    own = " ".join([*(["Self"] if "self" in said else []), *types, *clauses])
    return re.sub(r"\bSelf\b", item.name.rpartition("::")[0], own)


def free(text: str, bound: set[str]) -> Iterator[str]:
    """The words of a text whose first name is not among these."""
    yield from (word for word in WORD.findall(LABEL.sub(" ", text)) if word.partition(".")[0] not in bound)
