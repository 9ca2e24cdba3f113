"""The settings of tools/service: one table of its options, and what follows from them for servers."""
import argparse
import ipaddress
import math
import os
from dataclasses import dataclass, field, fields
from typing import Any, Callable, NamedTuple

from common.program import program_named
from common.words import number, parser_of, span
from servicing.state import Run

TURN = 20_000_000  # nanoseconds that a turn of a wait lasts while nothing happens


class Keep(NamedTuple):
    """Which old runs are kept: so many, or those of so many nanoseconds."""

    runs: int | None
    age: int | None


def _span(least: str, most: str) -> Callable[[str], int]:
    def read(word: str) -> int:
        if not span(least) <= span(word) <= span(most):
            raise argparse.ArgumentTypeError(f"{word} is not from {least} to {most}")
        return span(word)

    read.__name__ = f"{least} to {most}"  # which help tells
    return read


def _keep(word: str) -> Keep:
    if word.isascii() and word.isdigit():
        return Keep(int(number(int, 1, 1_000_000)(word)), None)
    return Keep(None, span(word))


def _address(word: str) -> tuple[str, int]:
    """Reads HOST:PORT or PORT, of this machine. With port 0 the system chooses one."""
    host, _, port = word.rpartition(":")
    host = "127.0.0.1" if host in ("", "localhost") else host.strip("[]")
    try:
        ipaddress.ip_address(host)
        return host, int(number(int, 0, 65_535)(port))
    except (ValueError, argparse.ArgumentTypeError):
        raise argparse.ArgumentTypeError(f"{word!r} is no address such as 127.0.0.1:7080") from None


def _path(word: str) -> str:
    if not word:
        raise argparse.ArgumentTypeError("'' is no path")
    return word


def _option(
    help: str, read: Callable[[str], Any], default: Any = None, metavar: str | None = "TIME", **more: Any
) -> Any:
    """An option, named as its field is unless it has a `flag`. Its default is told behind its help."""
    told = f"{help} (default: {default})" if default is not None else help
    return field(metadata={"help": told, "type": read, "default": default, "metavar": metavar, **more})


@dataclass(frozen=True)
class Settings:
    """How the service is to run. Spans are nanoseconds."""

    port: int = _option("the port on 127.0.0.1", number(int, 1, 65_535), 7011, "P")
    folder: str = _option("the folder of the runs (default: ~/.local/state/rb_broker/PORT)", _path, None, "DIR")
    program: str = _option("the program that serves (default: that of ./broker)", program_named, None, "PATH")
    begin_with: str | None = _option(
        "begins an empty folder with what this history left", _path, None, "HISTORY", flag="--from", dest="begin_with")
    accept_loss: int | None = _option(
        "continues without run N, whose history or record is missing or changed", number(int, 1, 999_999_999), None,
        "N")
    workers: int = _option("clients served at once, 1 to 16", number(int, 1, 16), 16, "N")
    sessions: int = _option("sessions in a run, 1 to 10000", number(int, 1, 10_000), 10_000, "N")
    calls: int = _option("calls in a run, 1 to 1000000", number(int, 1, 1_000_000), 1_000_000, "N")
    wait: int = _option("the longest that a TAKE or POLLFOR waits, %(type)s", _span("0s", "20000s"), "1s")
    delay: int = _option("a failed job comes back this long after it failed", _span("0s", "213503d"), "30s")
    rate: int | None = _option(
        "instead of --delay: the time from one attempt's expiry to the next", _span("0s", "213503d"))
    attempts: int = _option("attempts that a job has, 1 to 1000", number(int, 1, 1000), 20, "N")
    timer: str = _option(
        "the structure that finds the next element", str, "heap", None, choices=["list", "heap", "pairing", "wheel"])
    every: int = _option(
        "how long a run goes on before its end begins, %(type)s; a killed server loses its run", _span("1s", "30d"),
        "5m")
    stop_within: int = _option(
        "how long a run's end waits for clients that hold jobs before it ends their sessions, %(type)s",
        _span("1s", "1h"), "60s")
    turn_within: int = _option(
        "how long a client waits for a worker before the run ends early to free one, %(type)s",
        _span("1s", "1d"), "15s")
    silent: int = _option(
        "ends a session over which nothing came or went for this long, so no job may run longer, %(type)s",
        _span("1s", "1d"), "10m")
    away: int = _option(
        "the longest that the machine may have been off; while its date says more, no run begins, %(type)s",
        _span("1s", "36500d"), "30d")
    keep: Keep = _option("how many old runs are kept, or for how long", _keep, "7d", "N|TIME")
    http: tuple[str, int] | None = _option(
        "serves a page, /metrics and /health at this address (default: nowhere)", _address, None, "HOST:PORT")
    allow_changes: bool = field(default=False, metadata={
        "help": "lets anyone who sees the page end the run there", "action": "store_true"})

    @property
    def policy(self) -> tuple[str, ...]:
        """The words of the retries of a run."""
        retry = ("--delay", self.delay) if self.rate is None else ("--rate", self.rate)
        return *map(str, retry), "--attempts", str(self.attempts)

    def serve_words(self, run: Run, door: int) -> list[str]:
        """The command that serves a run at a listening socket; `server.start` names its opening and its history."""
        said = {it: getattr(self, it) for it in ("port", "workers", "sessions", "calls", "timer", "silent")}
        said |= {"turns": math.ceil(self.wait / TURN), "socket": door, "greeting": run.greeting, "since": run.began.up}
        words = [it for name, value in said.items() for it in (f"--{name}", str(value))]
        return [self.program, "serve", *words, *self.policy, "--until-input-ends", "--attentive"]


def parser(doc: str | None) -> argparse.ArgumentParser:
    made = parser_of("tools/service", doc, "%(prog)s [--port P] [--folder DIR] [OPTION ..]")
    made.error = lambda message: made.exit(2, f"service: {message}\n")  # type: ignore[assignment,misc]
    retry = made.add_mutually_exclusive_group()
    for it in fields(Settings):
        told = {**it.metadata}
        add = retry.add_argument if it.name in ("delay", "rate") else made.add_argument
        add(told.pop("flag", f"--{it.name.replace('_', '-')}"), **told)
    made.add_argument("--status", action="store_true", help="prints the status of the folder's service")
    made.add_argument("--acknowledge", action="store_true",
                      help="ends the alerts of the folder's service about lost runs and lost jobs")
    return made


def folder_of(given: str | None, port: int) -> str:
    """Where the runs are kept: as said, where systemd keeps the state of its units, or where users keep theirs."""
    state = os.environ.get("XDG_STATE_HOME") or os.path.expanduser("~/.local/state")
    return os.path.abspath(given) if given else os.environ.get("STATE_DIRECTORY") or f"{state}/rb_broker/{port}"


def settings_of(words: argparse.Namespace, program: str) -> Settings:
    said: dict[str, Any] = {**vars(words), "program": program, "folder": folder_of(words.folder, words.port)}
    return Settings(**{it.name: said[it.name] for it in fields(Settings)})
