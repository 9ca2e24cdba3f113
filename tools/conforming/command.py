"""Runs case files against a program that speaks the protocol: tools/conform [OPTION ..] [FILE ..] [PROGRAM ..]

Each FILE is a case file, whose name ends in .case; without one, the tool runs all of crates/rb_cases/data. PROGRAM ..
is a command, to which the tool appends the words of docs/PROTOCOL.md: `PROGRAM script ..`, `PROGRAM replay ..`. All
words behind the first one of PROGRAM are its own. Without PROGRAM the tool tests this repository's program with its
four timers, and first builds it if it has to; no case has to be compiled.

A case gives the words, the input, the replies, the history and the end of a run. The end is the exit status and, after
a fault, the line on standard error, which may begin with any name. The tool runs a script three times with each timer:
it sends the input whole, byte by byte, and seven bytes at a time; an input of more than 64 KiB it sends whole, and
4,095 bytes at a time. A case passes if all its runs do. The gate runs the same cases in memory, and
crates/rb_cases/src/case.rt describes how to write one.

The tool skips the few cases that need what no command can be given, such as a flush that fails. Unless --timers is
given, it also skips a case for a single timer, since another program may give elements of equal expiry in any order.

It prints a line for each case that fails, with the first difference; a line for each case that it skips, with the
reason; and finally `N passed, M failed, K skipped`.

Exit status: 0 if M is 0, 1 if it is not, 2 if an argument is wrong, no case is chosen, the program can't be run, or a
file is malformed; one line then says why, with the line of the file.
"""
import argparse
import collections
import os
import shutil
import sys
from concurrent.futures import ThreadPoolExecutor
from itertools import takewhile
from pathlib import Path

from common.program import TOP, built_program
from common.words import exit_status, parser_of
from conforming.cases import TIMERS, Case, Malformed, read_cases
from conforming.comparing import difference, reason_to_skip
from conforming.program import Program

CASES = Path(TOP, "crates/rb_cases/data")


def judge(program: Program, case: Case, timers: list[str]) -> tuple[str, str | None]:
    """What to count for the case, and what to print about it, if anything."""
    if reason := reason_to_skip(case, timers):
        return "skipped", f"skipped: {reason}"
    differs = difference(program, case, timers)
    return "failed" if differs else "passed", differs


def conform(program: Program, cases: list[Case], timers: list[str]) -> int:
    """Runs the cases, and prints the results. Returns the exit status."""
    counts: collections.Counter[str] = collections.Counter()
    with ThreadPoolExecutor(os.cpu_count()) as pool:
        runs = [pool.submit(judge, program, case, timers) for case in cases]
        try:
            for case, run in zip(cases, runs):
                kind, told = run.result()
                counts[kind] += 1
                if told:
                    print(f"{case.file}:{case.line}: {case.name}: {told}", flush=True)
        finally:
            pool.shutdown(cancel_futures=True)
    print(", ".join(f"{counts[kind]} {kind}" for kind in ("passed", "failed", "skipped")))
    return 1 if counts["failed"] else 0


def main() -> int:
    parser = parser_of("tools/conform", __doc__, "%(prog)s [OPTION ..] [FILE ..] [PROGRAM ..]")
    parser.add_argument("words", nargs=argparse.REMAINDER, metavar="FILE .. PROGRAM ..",
                        help="case files, then a command")
    parser.add_argument("--timers", action="store_true", help="runs each script with each of `--timer` "
                        f"{', '.join(TIMERS)} (default: only this repository's program)")
    parser.add_argument("--only", default="", metavar="WORD", help="only cases that have this word in their name, or "
                        "in their file's name")
    given = parser.parse_args()
    files = [*takewhile(lambda word: word.endswith(".case"), given.words)]
    command = given.words[len(files):]
    if command and not shutil.which(command[0]):
        is_table = command[0].endswith(".rows")
        parser.error(f"{command[0]}: tables are run by dev/cases" if is_table else f"there is no program {command[0]}")
    try:
        cases = [case for path in files or sorted(CASES.glob("*.case")) for case in read_cases(str(path))
                 if given.only in case.name or given.only in case.file]
    except (Malformed, OSError) as fault:
        says = f"{fault.filename}: {fault.strerror}" if isinstance(fault, OSError) else fault
        print(f"conform: {says}", file=sys.stderr)
        return 2
    if not cases:
        parser.error(f"no case has {given.only!r} in its name")
    program = Program(command or [built_program()])
    timers = [] if command and not given.timers else [*TIMERS]
    return exit_status("conform", lambda: conform(program, cases, timers))
