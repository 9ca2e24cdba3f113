"""The options: the manual page has each with its range and default, the program takes what the page says, and --help
says the same."""
import re
import shutil
from pathlib import Path
from typing import Iterator, NamedTuple

import pytest

from bundling.tests.running import run
from common.program import TOP

# The options of each command, in the order of --help.
COMMANDS = {name: options.split() for name, options in {
    "script": "--calls --timer --history --from --delay --rate --attempts",
    "replay": "--chains --delay --rate --attempts",
    "serve": "--port --calls --timer --workers --sessions --turns --socket --until-input-ends --greeting --attentive"
    " --silent --since --history --from --delay --rate --attempts",
}.items()}
NAMES = {name for names in COMMANDS.values() for name in names}
ROW = re.compile(r"^ +(?:-h, )?(--[a-z-]+)(?: <([A-Z]+)>)? +(.*)$", re.M)
OF_HELP = {"-h", "--help"}
NOWHERE = "/nowhere/rb_broker"  # a missing file: if the words are accepted, it can't be read


class Option(NamedTuple):
    """What is told of an option, and what the page alone tells: its range, and whether it has to be given."""

    name: str
    value: str  # what its value is called, or nothing for a flag
    default: str
    choices: list[str]
    ends: tuple[int, ...] = ()
    is_required: bool = False
    excludes: str = ""

    @property
    def right(self) -> list[str]:
        """Values that must be accepted: the choices, or those at both ends of the range."""
        return self.choices or [str(end) for end in self.ends]

    @property
    def wrong(self) -> list[str]:
        """Values that must be refused."""
        beyond = [str(self.ends[0] - 1), str(self.ends[1] + 1)] if self.ends else []
        return [*beyond, "", "x"] if self.right else []


def options_in(text: str) -> set[str]:
    """The options that a text names, except those of help."""
    return set(re.findall(r"--[a-z]+(?:-[a-z]+)*", text)) - OF_HELP


def text_of_page() -> str:
    """The page without the escapes of roff, and without the commas in numbers."""
    page = Path(TOP, "packaging/rb_broker.1").read_text(encoding="utf-8")
    return re.sub(r"(?<=\d),(?=\d)", "", re.sub(r"\\f[BRI]|\\c", "", page).replace("\\-", "-"))


def options_of(page: str) -> list[Option]:
    """The options that have an entry: a head, which is `.B` or `.BI` after `.TP`, and the text below it."""
    found = []
    for part in page.split("\n.TP\n")[1:]:
        head, _, body = part.partition("\n")
        text = " ".join(re.split(r"^\.(?:PP|SH|SS)", body, flags=re.M)[0].split())
        named = re.fullmatch(r'\.BI? (--[a-z]+(?:-[a-z]+)*)(?: " ([A-Z]+)")?', head)
        if named:
            choices = re.search(r"\.BR ([^.]*?) , default", text)
            default = "" if named[2] == "FILE" else " ".join(re.findall(r"default (?:\.BR )?([a-z0-9]+)", text))
            ends = re.search(r"\b(\d+) to (\d+)\b", text)
            found.append(Option(
                named[1], named[2] or "", default, re.split(' "(?:, | or )" ', choices[1]) if choices else [],
                tuple(map(int, ends.groups())) if ends else (), "has to be given" in text,
                "".join(re.findall(r"Instead of \.BR (--[a-z]+)", text))))
    return found


PAGE = text_of_page()
OPTIONS = {option.name: option for option in options_of(PAGE)}


def test_synopsis() -> None:
    """The page has each option of each command in its synopsis."""
    synopsis = PAGE.partition(".SH SYNOPSIS")[2].partition("\n.SH")[0]
    uses = [use for use in synopsis.split(".SY rb_broker\n") if options_in(use)]
    told = {use.split("\n")[0].split()[-1]: options_in(use) for use in uses}
    assert told == {name: {*options} for name, options in COMMANDS.items()}


def test_entries() -> None:
    """The page has one entry for each option, with its range if it is a number, and names no other."""
    entries = options_of(PAGE)
    assert sorted(entry.name for entry in entries) == sorted(NAMES)
    assert not [entry for entry in entries if bool(entry.ends) != (entry.value in ("N", "P"))]
    assert options_in(PAGE) - {"--option"} == NAMES


def test_commands(program: str) -> None:
    told = run(program, "--help").said.partition("Commands:")[2].partition("Options:")[0]
    assert {*re.findall(r"^  ([a-z]+) +.", told, re.M)} == {*COMMANDS, "help"}


@pytest.mark.parametrize("command", COMMANDS)
def test_help(command: str, program: str) -> None:
    """Its options are those of --help, with the page's values and defaults, and so is its usage."""
    told = run(program, command, "--help").said
    options = [OPTIONS[name] for name in COMMANDS[command]]
    rows = [option_told(*row) for row in ROW.findall(told) if row[0] not in OF_HELP]
    assert rows == [option[:4] for option in options]
    needed = [f"{option.name} <{option.value}>" for option in options if option.is_required] + file_of(command)
    assert f" {' '.join([command, '[OPTIONS]', *needed])}\n" in told


def option_told(name: str, value: str, text: str) -> tuple[object, ...]:
    """What a line of help says of an option, as the page tells it."""
    default = re.search(r" \[default: (.+?)\]", text)
    choices = re.search(r" \[possible values: (.+?)\]", text)
    return name, value, default[1] if default else "", choices[1].split(", ") if choices else []


def file_of(command: str) -> list[str]:
    """The word without an option that a command takes."""
    return ["<FILE>"] if command == "replay" else []


def accepts(program: str, command: str, *words: str) -> bool | None:
    """Whether the program accepts these words, with those that the command can't do without.

    It is told to begin with a missing file, so that it ends at once. Returns nothing if it ends neither because of that
    file nor because of a refused word.
    """
    told = run(program, command, *words, NOWHERE if file_of(command) else f"--from={NOWHERE}")
    if told.status == 3 and told.errors == "rb_broker: cannot read history\n":
        return True
    return False if told.status == 2 else None


@pytest.mark.parametrize(("command", "name"), [(command, name) for command in COMMANDS for name in COMMANDS[command]])
def test_range(command: str, name: str, program: str) -> None:
    """The program accepts exactly what the page says, tested at both ends of each range."""
    needed = [OPTIONS[other] for other in COMMANDS[command] if OPTIONS[other].is_required and other != name]
    others = [f"{option.name}={option.ends[0]}" for option in needed]
    for words, is_accepted in uses_of(OPTIONS[name]):
        assert accepts(program, command, *words, *others) is is_accepted, words


def uses_of(option: Option) -> Iterator[tuple[list[str], bool]]:
    """Words with the option or without it, and whether they must be accepted."""
    yield from (([f"{option.name}={value}"], True) for value in option.right)
    yield from (([f"{option.name}={value}"], False) for value in option.wrong)
    if option.excludes:
        both = [f"{option.name}=1", f"{option.excludes}=1"]
        yield both, False
        yield both[::-1], False
    if option.is_required:
        yield [], False


# What each page has to have: the program's, and those of the tools.
SECTIONS = {
    "rb_broker": ("NAME", "SCRIPT", "REPLAY", "SERVE", "EXIT STATUS", "FILES"),
    "rb_broker_service": ("keeps a server running", "usage: rb_broker_service ", "--accept-loss N", "Exit status: "),
    "rb_broker_report": ("reports on histories", "usage: rb_broker_report ", "--html", "Exit status: "),
    "rb_broker_verify": ("compares a history with what its clients", "usage: rb_broker_verify ", "Exit status: "),
    "rb_broker_load": ("puts a running server under load", "usage: rb_broker_load ", "--record", "Exit status: "),
}


@pytest.mark.parametrize("name", SECTIONS)
def test_layout(name: str, root: Path) -> None:
    """The page is set without a warning."""
    path = f"{root}/usr/share/man/man1/{name}.1.gz"
    told = run("man", "--warnings", "-E", "UTF-8", "-l", path)
    assert not told.errors and told.status == 0, told
    assert not [part for part in SECTIONS[name] if part not in told.said]
    if not shutil.which("mandoc"):
        pytest.skip("mandoc is not installed")
    told = run("mandoc", "-T", "lint", path)
    assert not told.said + told.errors
