"""The program that the tools run: the one of this checkout, which is built if it has to be, or one that is named."""
import argparse
import os
import shutil
import signal
import subprocess
import sys

TOP = os.path.dirname(os.path.dirname(os.path.dirname(os.path.realpath(__file__))))
PROGRAM = os.path.join(TOP, "crates", "rb_broker", "out", "rb_broker")

# The program of an installed package, of which the tools are a part.
INSTALLED = os.path.join(TOP, "..", "..", "lib", "rb_broker", "rb_broker")

# The setting that names the program that tests run, if it is not this checkout's.
TESTED = "RB_BROKER_PROGRAM"


def built_program(given: str | None = None) -> str:
    """The path of the program to run: the given one, or this checkout's, which ./broker first builds if it has to, or
    that of the package.

    If that fails, ./broker has said why, and this process exits with status 2, or 130 after Ctrl-C. If this process has
    killed ./broker, it goes on with its own interrupt.
    """
    if given:
        return given
    if not os.path.exists(os.path.join(TOP, "broker")) and os.path.exists(INSTALLED):
        return os.path.abspath(INSTALLED)
    building = subprocess.Popen([os.path.join(TOP, "broker"), "--help"], stdout=subprocess.DEVNULL)
    try:
        status = building.wait()
    except KeyboardInterrupt:
        if building.wait() != -signal.SIGINT:
            raise
        sys.exit(130)  # Ctrl-C has stopped it too, which it says in its last line
    if status:
        sys.exit(2)
    return PROGRAM


def program_named(word: str) -> str:
    """The full path of the program that a word of the command line names: a path, or a command of the PATH."""
    found = shutil.which(word)
    if not found:
        raise argparse.ArgumentTypeError(f"{word} is no command")
    return os.path.abspath(found)


def add_program_option(parser: argparse.ArgumentParser, use: str = "the program to test") -> None:
    """The option `--program PATH`; what it names is checked, and `built_program` takes it or its absence."""
    parser.add_argument("--program", metavar="PATH", type=program_named, help=f"{use} (default: that of ./broker)")


def let_tests_run(given: str | None) -> str:
    """Lets tests run the given program, or this checkout's, which is built if it has to be. Returns its path."""
    os.environ[TESTED] = built_program(given)
    return os.environ[TESTED]


def tested_program() -> str:
    """The program that tests run: what `let_tests_run` chose, also in a process that began this one, or this checkout's."""
    return os.environ.get(TESTED) or PROGRAM
