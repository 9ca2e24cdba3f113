"""The words of a tool's command line, its exit status, and its end where nobody takes its output."""
import argparse
import os
import re
import subprocess
import sys
from typing import Any, Callable, Final

from common.program import TOP
from rb_broker_formats.durations import read_duration

Number = int | float
PACKAGE: Final = "rb-broker"


def parser_of(name: str, doc: str | None, usage: str | None = None) -> argparse.ArgumentParser:
    """The parser of a tool of this name, whose --help is the text of its file as it stands. An installed tool says
    rb_broker_NAME for tools/NAME, and where its documents are."""
    name, doc = (as_called(text) for text in (name, doc or ""))
    about, _, rest = doc.partition("\n\n")
    form = argparse.RawDescriptionHelpFormatter
    parser = argparse.ArgumentParser(name, usage, about, rest, formatter_class=form, allow_abbrev=False)
    parser.add_argument("--version", action=_Version, nargs=0, help="prints the version, and does nothing else")
    return parser


class _Version(argparse.Action):
    """Prints the version. Only then is git asked for it."""

    def __call__(self, parser: argparse.ArgumentParser, *_: Any) -> None:
        print(f"{parser.prog} {version()}")
        parser.exit()


def version() -> str:
    """The checkout's version as git describes it, or that of the installed package."""
    is_checkout = os.path.exists(f"{TOP}/.git")
    of_git = ["git", "-C", TOP, "describe", "--always", "--dirty"]
    of_package = ["dpkg-query", "--show", "--showformat", "${Version}", PACKAGE]
    try:
        ran = subprocess.run(of_git if is_checkout else of_package, capture_output=True, text=True, check=False)
    except FileNotFoundError as fault:
        return f"unknown: there is no {fault.filename}"
    return ran.stdout.strip() or f"unknown: {ran.stderr.strip()}"


def as_called(text: str) -> str:
    """A text for whoever called this tool: from a checkout, or as a command of the package."""
    if not os.path.basename(sys.argv[0]).startswith("rb_broker_"):
        return text
    return re.sub(r"\bdocs/(?=\w+\.md)", "/usr/share/doc/rb-broker/docs/", re.sub(r"\btools/", "rb_broker_", text))


def number(kind: Callable[[str], Number], least: Number, most: Number) -> Callable[[str], Number]:
    """Reads a number from `least` to `most`."""

    def read(word: str) -> Number:
        try:
            value = kind(word)
        except ValueError:
            raise argparse.ArgumentTypeError(f"{word!r} is no number from {least} to {most}") from None
        if not least <= value <= most:
            raise argparse.ArgumentTypeError(f"{word} is not from {least} to {most}")
        return value

    return read


def span(word: str) -> int:
    """Reads the nanoseconds of a time such as 30s."""
    try:
        return read_duration(word)
    except ValueError as fault:
        raise argparse.ArgumentTypeError(str(fault)) from None


def exit_status(name: str, work: Callable[[], int]) -> int:
    """The exit status of a tool by its work, or 2 behind a line that says why it can't be done."""
    for stream in (sys.stdout, sys.stderr):
        stream.reconfigure(errors="backslashreplace")  # type: ignore[attr-defined]
    try:
        return work()
    except BrokenPipeError:
        give_up_output()  # whoever read it has seen enough
        says = "cannot write output"
    except OSError as fault:
        says = f"{fault.filename or 'output'}: {fault.strerror}"
    except MemoryError:
        says = "out of memory"
    except KeyboardInterrupt:
        return 130
    print(f"{name}: {says}", file=sys.stderr)
    return 2


def give_up_output() -> None:
    """Nobody takes standard output any more, and its last flush must not find that once again."""
    os.dup2(os.open(os.devnull, os.O_WRONLY), sys.stdout.fileno())
