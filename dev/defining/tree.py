"""The crates of a repository: the definition that a name in a file means."""
import re
from pathlib import Path

from defining.items import Item, rust_items, spec_items
from defining.words import words_of

USE = re.compile(r"^ *(?:pub )?use (\w+)::([^;]+);", re.M)
USED = re.compile(r"(\w+)(?: as (\w+))?(?=\s*(?:[,}]|$))")
COMMENT = {".rt": re.compile("//.*"), ".antt": re.compile("--.*")}
GHOST_USE = re.compile(r"^\s*(?:pub )?(?:ghost )?use ([^\s;{]+?)(?:\.\{([^}]*)\}| as (\S+?))?;?[ \t]*$", re.M)
SMALL_CONSTRUCTORS = {"true", "false", "zero", "suc", "pos"}
TYPES = ("struct", "enum", "trait", "const", "type")


class Unknown(Exception):
    """A name leads nowhere, or to several things, or a page is not there: in lines for the user."""


class SourceFile:
    """A file of src/, specs/ or proofs/: its items, and what it imports."""

    def __init__(self, top: Path, path: str) -> None:
        text, place = (top / path).read_text("utf-8"), Path(path)
        self.path, self.crate = path, place.parts[1]
        self.modules: dict[str, str] = {}  # those that it imports whole, by the names that they have here
        self.imported: dict[str, tuple[str, str]] = {}  # the module of a name that it imports, and its name there
        self.bare = GHOST_USE.sub(self._without_import, COMMENT[place.suffix].sub("", text))
        operators = [name for name in self.imported if "◌" in name]
        self.operators = {part: name for name in operators for part in name.split("◌") if part}
        # What the code sees: each name with the crate that it is from, and its name there.
        uses = ((root, *used) for root, names in USE.findall(text) for used in USED.findall(names))
        self.uses = {alias or name: (root, name) for root, name, alias in uses}
        self.paragraphs = [*(rust_items if place.suffix == ".rt" else spec_items)(path, text)]
        self.items = [paragraph for paragraph in self.paragraphs if paragraph.kind != "more"]
        self.named = {item.name: item for item in self.items}
        kinds = [item for item in self.items if item.kind == "data"]
        self.variants = {line.split()[0]: kind for kind in kinds for line in kind.code[1:] if " : " in line}

    def _without_import(self, found: re.Match[str]) -> str:
        """Takes the names of an import, and leaves nothing in its lines."""
        path, names, alias = found.groups()
        if names is None:
            self.modules[alias or path.rsplit(".", 1)[-1]] = path
        for name in (names or "").split(","):
            name, _, local = name.strip().partition(" as ")
            if name:
                self.imported[local or name] = (path, name)
        return "\n" * found[0].count("\n")

    @property
    def module(self) -> str:
        """The name under which others import a file of specs/ or proofs/."""
        return ".".join(["Rattle", *Path(self.path).with_suffix("").parts[1:]])

    def place_of(self, word: str) -> tuple[str, str] | None:
        """The module and the name there of what a word means, if that is imported here."""
        head, _, rest = word.partition(".")
        local = self.operators.get(head, head)
        if local in self.imported:
            return self.imported[local]
        return (self.modules[head], rest.partition(".")[0]) if rest and head in self.modules else None


class Tree:
    """The files of src/ and specs/ of all crates below a folder, by their paths from there, without tests."""

    def __init__(self, top: Path) -> None:
        found = [path for part in ("src/**/*.rt", "specs/**/*.antt") for path in top.glob(f"crates/*/{part}")]
        paths = sorted(path.relative_to(top).as_posix() for path in found)
        self.files = {path: SourceFile(top, path) for path in paths if not re.search(r"/tests[/.]", path)}
        self.crates = {file.crate for file in self.files.values()}

    def cited_by(self, item: Item, code: list[str]) -> tuple[list[Item], list[str]]:
        """The definitions that these lines of an item name, and the names of libraries with their modules."""
        file = self.files[item.path]
        words = words_of(item, code, lambda name: self.is_constructor(file, name))
        meant = [meaning for meaning in map(lambda word: self.meaning(file, word), words) if meaning]
        found = {(meaning.path, meaning.name): meaning for meaning in meant if isinstance(meaning, Item)}
        found.pop((item.path, item.name), None)
        return list(found.values()), list(dict.fromkeys(meaning for meaning in meant if isinstance(meaning, str)))

    def is_constructor(self, file: SourceFile, name: str) -> bool:
        """Whether a name in a pattern is that of a constructor."""
        known = name in SMALL_CONSTRUCTORS or name[0].isupper()
        return known or isinstance(meant := self.meaning(file, name), Item) and meant.kind in ("data", "enum")

    def meaning(self, file: SourceFile, word: str) -> Item | str | None:
        """What a word means in a file: a definition, the name of a library with its module, or nothing of these."""
        if place := file.place_of(word):
            return self._imported(*place)
        head = word.partition(".")[0]
        if head in file.uses:
            root, name = file.uses[head]
            return self._used(file.crate if root in ("crate", "super") else root, name)
        return file.variants.get(head) or file.named.get(head)

    def _imported(self, module: str, name: str) -> Item | str:
        root, crate, part, *path = [*module.split("."), "", ""]
        if root != "Rattle" or crate not in self.crates or part != "specs":
            return f"{module.removeprefix('Rattle.')}.{name}"
        declared = path[0] in ("declared", "contracts")
        found = (self._declared if declared else self._specified)(crate, path[declared:-2], name)
        if not found:
            raise Unknown(f"{module}.{name} is nowhere in src/ and specs/")
        return found

    def _declared(self, crate: str, path: list[str], name: str) -> Item | None:
        """The type or constant of src/ for which a generated module stands."""
        at = next((at for at, part in enumerate(path) if part.startswith("The")), len(path))
        is_constant = path[at:at + 1] == ["TheConstants"]  # followed by the type, if it is one of a type's
        modules, names = (path[:at], [*path[at + 1:], name]) if is_constant else (path[:at - 1], path[at - 1:at])
        paths = [f"crates/{crate}/src/{stem}.rt" for stem in (["/".join(modules)] if modules else ["lib", "main"])]
        found = (self.files[source].named.get("::".join(names)) for source in paths if source in self.files)
        return next(filter(None, found), None)

    def _specified(self, crate: str, path: list[str], name: str) -> Item | None:
        """The definition of specs/, there or where that file or the crate's Lib.antt has it from."""
        file, lib = (self.files.get(f"crates/{crate}/specs/{stem}.antt") for stem in ("/".join(path), "Lib"))
        if file and (name in file.named or name in file.variants):
            return file.named.get(name) or file.variants[name]
        module, further = file.imported.get(name, ("", name)) if file else (lib.modules[path[0]] if lib else "", name)
        meant = self._imported(module, further)
        return meant if isinstance(meant, Item) else None

    def _used(self, crate: str, name: str) -> Item | None:
        """The type or constant of this name in a crate, or in one from which that hands it on."""
        items = [item for file in self.files.values() for item in file.items]
        found = [item for item in items if item.name == name and item.kind in TYPES]
        found.sort(key=lambda item: not item.path.startswith(f"crates/{crate}/"))
        return found[0] if found and crate in self.crates else None
