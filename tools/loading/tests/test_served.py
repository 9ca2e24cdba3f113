"""The program as a server under load."""
import collections
import json
import re
import time
from collections.abc import Callable

from checking.testing import run_tool
from serving.server import Server
from serving.testing import ServingTest
from verifying.record import read_record

# The options of a server and of a load, the load's status, a part of what it prints, and what its counts are.
LOADS: tuple[tuple[str, str, int, str, Callable[[dict[str, int]], bool]], ...] = (
    ("--workers 4 --sessions 4 --calls 100000",
     "--clients 4 --rate 200 --delay 1ms --fail 0.3 --seconds 2", 0, r"\nerrors 0\Z",
     lambda counts: 0 < counts["offered"] <= counts["of"] == 400 and 0.15 < counts["failed"] / counts["taken"] < 0.45),
    ("--workers 2 --sessions 2", "--clients 2 --rate 50 --seconds 2", 0, r"\Aoffered \d+ of 100 ",
     lambda counts: 0 <= counts["median"] <= counts["percentile"] <= counts["greatest"]),
    # Clients that wait for a worker offer less.
    ("--workers 1 --sessions 3", "--clients 3 --rate 60 --seconds 1", 0, r"\Aoffered \d+ of 60 ",
     lambda counts: counts["offered"] <= 20),
    # Elements that do not expire are left.
    ("--workers 1 --sessions 1", "--clients 1 --rate 50 --delay 1h --seconds 1", 0,
     "\nlateness in microseconds: none\n", lambda counts: counts["taken"] == 0 < counts["offered"]),
    # Nothing waits at this server.
    ("--workers 1 --sessions 1 --turns 0", "--clients 1 --rate 20 --delay 1us --seconds 1", 0, r"\nerrors 0\Z",
     lambda counts: counts["taken"] > 0),
    # A full run ends the load.
    ("--workers 2 --sessions 2 --calls 20", "--clients 2 --rate 100 --seconds 50", 1,
     r"\nerrors 2: 2 of ERR 6 full\Z", lambda counts: counts["calls"] == 20),
    ("--workers 1 --sessions 1", f"--clients 1 --rate 20 --delay {2**64 - 1}ns --seconds 1", 1,
     r"\nerrors (\d+): \1 of ERR 3 range\Z", lambda counts: counts["offered"] == 0),
)


def counts_in(lines: list[str]) -> dict[str, int]:
    """The counts of the summary, by their words."""
    summary = "\n".join(lines[-6:])
    return {word: int(count) for word, count in re.findall(r"\b([a-z]+) (\d+)\b(?!\.)", summary)}


class ServedTest(ServingTest):
    def loaded(self, options: str, words: str, status: int = 0) -> tuple[Server, list[str], dict[str, int]]:
        """A server with these options, what a load with these words printed, and its counts."""
        server = self.serve(*options.split())
        ran = run_tool("load", "--port", server.port, *words.split())
        self.assertEqual((ran.returncode, ran.stderr), (status, ""), ran.stdout)
        lines = ran.stdout.splitlines()
        return server, lines, counts_in(lines)

    def expect_audit(self, server: Server, counts: dict[str, int], sessions: int) -> None:
        """Checks that the server's last lines agree with the tool's counts."""
        status, lines, errors = server.end()
        self.assertEqual((status, errors, lines[0]), (0, "", f"sessions {sessions} faults 0 lost 0"))
        offered = counts["offered"] + counts["again"]
        wanted = {"calls": counts["calls"], "cleared": 0, "given": counts["taken"], "offered": offered, "opening": 0}
        self.assertEqual(json.loads(lines[1]), {**wanted, "left": offered - counts["taken"], "removed": 0})

    def test_what_a_load_counts(self) -> None:
        for options, words, status, says, holds in LOADS:
            with self.subTest(words):
                server, lines, counts = self.loaded(options, words, status)
                self.assertRegex("\n".join(lines), says)
                self.assertTrue(holds(counts), counts)
                if not status:
                    rate = counts["offered"] / float(words.split()[-1])
                    offered = f"offered {counts['offered']} of {counts['of']} that were due"
                    self.assertEqual(lines[0], f"{offered}, {rate:.1f} a second")
                self.assertEqual(counts["taken"], counts["done"] + counts["failed"])
                self.assertEqual(counts["failed"], counts["again"] + counts["dead"])
                self.expect_audit(server, counts, int(options.split()[3]))

    def test_a_record_has_every_request(self) -> None:
        path = self.path("load.jsonl")
        before = time.monotonic_ns()
        server, _, counts = self.loaded("--workers 2 --sessions 2",
                                        f"--clients 2 --rate 50 --fail 0.3 --seconds 1 --record {path}")
        after = time.monotonic_ns()
        with open(path, "rb") as file:
            exchanges = list(read_record(file))
        self.expect_audit(server, counts, 2)
        replies = collections.Counter(exchange.reply[0].split(" ")[0] for exchange in exchanges)
        told = (replies["OFFERED"], replies["ITEM"], replies["DONE"], replies["AGAIN"], replies["DEAD"], replies["BYE"])
        self.assertEqual(told, (*(counts[name] for name in ("offered", "taken", "done", "again", "dead")), 2))
        self.assertEqual(replies["OFFERED"] + replies["ITEM"] + replies["NONE"] + replies["AGAIN"], counts["calls"])
        self.assertEqual(len({exchange.session for exchange in exchanges}), 2)
        self.assertTrue(all(before < exchange.sent < (exchange.received or 0) < after for exchange in exchanges))
