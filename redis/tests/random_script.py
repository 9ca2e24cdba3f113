"""Random scripts in which no two elements expire at the same moment, since any of them might then come first."""
from __future__ import annotations

import random

GREATEST = 2**64 - 1

RESIDUES = 10_000
"""Moments and expiries that differ in this remainder never become equal by delays and rates, which are multiples."""

PAYLOADS = ("a", "job-17", "!~", "x" * 64, "POLL", "0")
REFUSED = ("poll", "", " POLL", "POLL ", "OFFER 5", "OFFER 05 a", "OFFER x a", "OFFER 5 a b", "DONE", "DONE -1",
           "AT 01", "FAIL 18446744073709551616", "OFFER 1 " + "y" * 65, "OFFER 1 \x01", "z" * 257, "TAKE 1", "NOPE 1")


class RandomScript:
    """The words of a run, and its input: whole, and in pieces."""

    def __init__(self, chance: random.Random) -> None:
        self._chance = chance
        self._residue = 0
        self._moment = 0
        self._ids = 0
        self._failed_now = False
        self.words = self._some_words()
        lines = [self._line() for _ in range(chance.choice((5, 30, 120)))]
        lines += chance.choice(([], ["QUIT"], ["QUIT", "SIZE", "OFFER 0 a"]))
        self.text = "".join(line + chance.choice(("\n", "\n", "\r\n")) for line in lines).encode("latin-1")
        self.text += chance.choice((b"", b"", b"POLL", b"\r"))
        self.pieces = self._pieces()

    def _some_words(self) -> list[str]:
        chance = self._chance
        words = ["--calls", str(chance.choice((1, 20, 10_000, 10_000, 10_000, 10_000)))]
        pace = chance.choice(("", "--delay", "--rate"))
        if pace:
            words += [pace, str(RESIDUES * chance.choice((1, 3, 10**6)))]
        else:
            words += ["--delay", str(RESIDUES)]
        return words + chance.choice(([], ["--attempts", str(chance.choice((1, 2, 5, 1_000)))]))

    def _pieces(self) -> list[bytes]:
        size = self._chance.choice((len(self.text) + 1, 1, 7, 100))
        return [self.text[start:start + size] for start in range(0, len(self.text), size)]

    def _fresh(self) -> int:
        """A remainder that nothing has yet."""
        self._residue += 1
        return self._residue

    def _line(self) -> str:
        chance = self._chance
        make = chance.choices(
            (self._at, self._offer, self._offer_at, self._fetch, self._finish, self._other, self._refused),
            (20, 20, 10, 35, 35, 10, 4))[0]
        return make()

    def _at(self) -> str:
        steps = self._chance.choice((0, 1, 1, 2, 3, 10, 10**7))
        moment = (self._moment // RESIDUES + steps) * RESIDUES + self._fresh()
        if self._chance.random() < 0.1:
            moment = self._chance.randrange(self._moment + 1)
        if moment > self._moment:
            self._failed_now = False
        self._moment = max(self._moment, moment)
        return f"AT {moment}"

    def _offer(self) -> str:
        if self._chance.random() < 0.03:
            return f"OFFER {GREATEST - self._chance.randrange(3)} far"
        expiry = (self._moment // RESIDUES + 1 + self._chance.choice((0, 0, 1, 5))) * RESIDUES + self._fresh()
        return self._offered(f"OFFER {expiry - self._moment}")

    def _offer_at(self) -> str:
        steps = self._chance.choice((-5, -1, 0, 1, 10**6))
        return self._offered(f"OFFERAT {max(self._moment // RESIDUES + steps, 0) * RESIDUES + self._fresh()}")

    def _offered(self, front: str) -> str:
        self._ids += 1
        return f"{front} {self._chance.choice(PAYLOADS)}"

    def _fetch(self) -> str:
        number = self._chance.choice((0, 1, RESIDUES, 10**9, GREATEST))
        return self._chance.choice(("POLL", "POLL", "TAKE", "TAKE", f"POLLFOR {number}", f"DRAIN {number}", "DRAIN 2"))

    def _finish(self) -> str:
        if self._chance.random() < 0.5:
            return f"DONE {self._recent_id()}"
        if self._failed_now:  # two jobs that fail at one moment may expire at one moment
            return self._at()
        self._failed_now = True
        return f"FAIL {self._recent_id()}"

    def _recent_id(self) -> int:
        """An id that may be held."""
        return max(self._ids + self._chance.randrange(-6, 2), 0)

    def _other(self) -> str:
        id = self._chance.choice((self._recent_id(), self._chance.randrange(self._ids + 2), GREATEST))
        return self._chance.choice(("PEEK", "SIZE", "SIZE", f"REMOVE {id}", f"REMOVE {id}", "CLEAR"))

    def _refused(self) -> str:
        return self._chance.choice(REFUSED)
