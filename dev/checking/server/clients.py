"""Clients of a server, good and bad, which keep what they sent and what they were answered."""
import random
import socket
import time
from typing import Any, Iterable, Iterator

from serving.recorded import RecordedSession

# A client's first request removes the element of this id and its own number. There is none, so nothing changes,
# but the history tells by that event where the client's own begin.
FIRST_MARK = 2**63
# What clients do after their mark, step by step: a step is a method of Client or of its session, perhaps with requests,
# which may be meant several times. Each ends its session in its own way.
SCRIPTS = {
    "gives": "5-19 times ask any; quit",
    "gives_in_batches": "4 times ask any*1-32; end_input",
    "works": "5-29 times work; quit",
    "works_in_batches": "5 times work_off; end_input",
    "holds_too_many": "ask offer*70, DRAIN 1000, DRAIN 1, POLL, TAKE, POLLFOR 5; end_input",
    "looks": "10 times ask look; ask remove; quit",
    "clears": "ask CLEAR; quit",
    "says_nothing": "nap 0.2; hang_up",
    "dribbles": "dribble any, POLL, any, SIZE; quit",
    "hangs_up": "ask offer*5, TAKE, POLL, DRAIN 3; hang_up",  # it holds jobs, and has read all its replies
    "hangs_up_on_its_replies": "send offer*5, TAKE, TAKE, SIZE*50; 0-7 times hear; hang_up",
    "leaves_while_it_waits": "send TAKE; nap 0.02; hang_up",
    "resets": "ask offer, TAKE, DRAIN 4; reset",
    "resets_while_it_waits": "send offer, TAKE, offer 5000000, TAKE; hear; reset",
    "sends_half_a_line": "ask offer, TAKE; send_half; end_input",
    "sends_noise": "send_noise; end_input",
    "reads_no_more": "send offer, TAKE; fill; reset",
}
MORE = ("works", "gives", "works", "works")  # of these there are more than of others
LOOKS = ("SIZE", "PEEK", "POLLFOR 0", "AT 5", "DONE 7", "FAIL 7", "poll", "")


class Client:
    """One client's session: what it sent, and what it was answered."""

    session: RecordedSession

    def __init__(self, number: int, seed: str) -> None:
        kinds = [*SCRIPTS, *MORE]
        self.number, self.does, self.rng = number, kinds[number % len(kinds)], random.Random(f"{seed} {number}")
        self.record: list[str] = []  # its lines, as tools/verify reads them
        self.waiting: list[tuple[int, str]] = []  # the requests that have no reply yet, and when they were sent
        self.offered = 0  # how many elements
        self.is_heard = True  # whether it read all that it was answered
        self.is_reset = False  # whether its session surely ended by a fault

    def run(self, port: int) -> str:
        """Runs it to its end. Gives what went wrong; nothing if all went well."""
        try:
            self.session = RecordedSession(port, str(self.number), self.record.append)
            if self.does != "says_nothing":
                self.ask(f"REMOVE {FIRST_MARK + self.number}")
            for step in SCRIPTS[self.does].split("; "):
                times, _, done = step.rpartition(" times ")
                word, _, told = done.partition(" ")
                does = getattr(self, word, None) or getattr(self.session, word)
                for _ in range(self.some(times)):
                    does(*self.requests(told))
            return ""
        except Exception as fault:  # whatever it is, it is told
            self.is_heard = False
            return f"{type(fault).__name__}: {fault}"
        finally:
            for sent, request in self.waiting:
                self.session.note(sent, None, request)

    def some(self, told: str) -> int:
        """A number from the first to the last of these; 1 if none is told."""
        first, _, last = (told or "1").partition("-")
        return self.rng.randint(int(first), int(last or first))

    def requests(self, told: str) -> Iterator[str]:
        """The requests of a step."""
        for piece in told.split(", ") if told else ():
            request, _, times = piece.partition("*")
            yield from (self.request(request) for _ in range(self.some(times)))

    def request(self, told: str) -> str:
        """A request: as it is told, or an offer whose payload nobody else offers, or one that is chosen here."""
        word, _, delay = told.partition(" ")
        match word:
            case "look":
                return self.rng.choice(LOOKS)
            case "remove":
                return f"REMOVE {self.rng.randrange(500)}"
            case "offer" | "any":
                self.offered += 1
                asked = f"OFFER {delay or 0}"
                if word == "any" and self.rng.random() < 0.1:
                    asked = f"OFFERAT {self.rng.randrange(10**10)}"
                elif word == "any":
                    asked = f"OFFER {self.rng.choice([0, 10**6, 10**7, 10**8]) * self.rng.randrange(1, 5)}"
                return f"{asked} {self.number}-{self.offered}"
        return told

    def await_replies(self, *requests: str) -> None:
        """Notes requests that are sent next."""
        self.waiting += [(time.monotonic_ns(), request) for request in requests]

    def hear(self) -> list[str]:
        """Reads the reply to the first request that has none yet. Returns its lines."""
        sent, request = self.waiting[0]
        try:
            reply = self.session.reply()
        except EOFError:
            raise EOFError(f"the connection ended where the reply to {request!r} was due") from None
        self.session.note(sent, time.monotonic_ns(), request, *reply)
        self.waiting.pop(0)
        return reply

    def hear_all(self) -> list[list[str]]:
        """Reads the replies that are left."""
        return [self.hear() for _ in [*self.waiting]]

    def ask(self, *requests: str) -> list[list[str]]:
        """Sends requests in one piece, and reads all replies."""
        self.await_replies(*requests)
        self.session.send(*requests)
        return self.hear_all()

    def send(self, *requests: str) -> None:
        """Sends requests in one piece, whose replies it will not all read."""
        self.is_heard = False
        self.await_replies(*requests)
        self.session.send(*requests)

    def dribble(self, *requests: str) -> None:
        """Asks one request after the other, byte by byte."""
        for request in requests:
            self.await_replies(request)
            for byte in f"{request}\n".encode():
                self.session.socket.sendall(bytes([byte]))
            self.hear()

    def work(self) -> None:
        """Asks for a job in some way, and ends it; or offers one, if there is none."""
        [reply] = self.ask(self.rng.choice(["TAKE", "TAKE", "POLL", "POLLFOR 20000000", "DRAIN 1"]))
        kind, *words = reply[-1].split(" ")
        end = "DONE" if self.rng.random() < 0.7 else "FAIL"
        self.ask(f"{end} {words[0]}" if kind == "ITEM" else self.request("any"))

    def work_off(self) -> None:
        """Offers jobs, fetches what is due, and ends all of it, each in one piece."""
        *_, drained, _, _ = self.ask(*self.requests("offer*8, SIZE, DRAIN 40, PEEK, DRAIN 0"))
        held = [job.split(" ")[1] for job in drained[1:]]
        self.ask(*[f"DONE {job}" for job in held[::2]], *[f"FAIL {job}" for job in held[1::2]])

    def send_half(self) -> None:
        self.await_replies("DONE (half)")
        self.session.socket.sendall(b"DONE")

    def send_noise(self) -> None:
        noise = self.rng.randbytes(self.rng.randrange(1, 100_000)) + b"\n" + b"x" * 100_000 + b"\nOFFER 1 \xff"
        self.await_replies(*noise.decode("latin-1").split("\n"))
        self.session.socket.sendall(noise)

    def nap(self, most: str) -> None:
        time.sleep(self.rng.random() * float(most))

    def quit(self) -> None:
        self.ask("QUIT")
        self.expect_end()

    def end_input(self) -> None:
        """Closes its side, and reads to the end of the other's."""
        self.session.socket.shutdown(socket.SHUT_WR)
        self.hear_all()
        self.expect_end()

    def expect_end(self) -> None:
        if rest := self.session.rest():
            raise AssertionError(f"bytes behind the last reply: {rest[:100]!r}")
        self.session.hang_up()

    def reset(self) -> None:
        """Hangs up so that the server's next read or write fails."""
        self.is_reset = True
        self.session.reset()


def early(asked: Iterable[dict[str, Any]]) -> Iterator[str]:
    """Which payloads came before their delay had passed, by the machine's clock, as the lines of records tell. Only
    first attempts count."""
    offers = [(exchange["sent"], *exchange["request"].split(" ")) for exchange in asked if exchange["request"].startswith("OFFER ")]
    due = {payload: (sent, int(delay)) for sent, _, delay, payload in offers}
    got = [(exchange["received"], line.split(" ")) for exchange in asked for line in exchange["reply"]
           if line.startswith("ITEM ")]
    for received, (_, _, _, attempt, payload) in got:
        sent, delay = due.get(payload, (0, 0))
        if attempt == "1" and received - sent < delay:
            yield f"{payload} was got {received - sent} ns after it was offered with a delay of {delay}"
