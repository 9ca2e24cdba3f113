"""A client that is silent or lies, in one session after the other."""
import contextlib
import random
import threading
import time

from serving import PATIENCE
from serving.session import Session

NOISE = ("", "done 0", "OFFER 05 a", "OFFER 0", f"OFFER 0 {'x' * 65}", "OFFER 0 a b", "DONE -1", "POLL 1", "\0\1\2",
         "x" * 300, "AT 7", "GET / HTTP/1.1", "TAKE TAKE", "FAIL 99999999999999999999", "DRAIN -1",
         "OFFER 18446744073709551615 a", "DONE 29999", "FAIL 29999")


class Nuisance(threading.Thread):
    """What it claims must be refused. `is_silent` says which of the two it is."""

    def __init__(self, port, is_silent):
        super().__init__(daemon=True)
        self._port, self._is_silent = port, is_silent
        self._is_over = threading.Event()
        self.sessions, self.wrong = 0, []
        self.start()

    def finish(self):
        """Ends it. Gives how many sessions it had, and what was not refused."""
        self._is_over.set()
        self.join(PATIENCE)
        return self.sessions, self.wrong

    def run(self):
        while not self._is_over.wait(random.uniform(0.2, 1)):
            # A server that ends the session ends, or another follows it.
            with contextlib.suppress(OSError, EOFError), Session(self._port) as session:
                if session.own_port != self._port:  # nobody listens, and it found itself
                    self.sessions += 1
                    (self._be_silent if self._is_silent else self._lie)(session)

    def _be_silent(self, session):
        time.sleep(random.uniform(0, 0.8))
        session.socket.sendall(b"OFF"[:random.randrange(4)])
        time.sleep(random.uniform(0, 0.2))

    def _lie(self, session):
        """Says what means nothing or is not so, and leaves with a job if there is one, in good order or not."""
        for said in random.sample(NOISE, 8):
            session.send(said)
            reply = session.line()
            if reply.startswith("RUN "):  # a service greets first
                reply = session.line()
            if not reply.startswith("ERR "):
                self.wrong.append((said, reply))
        session.send("POLLFOR 1000000")
        session.line()
        if random.random() < 0.5:
            session.reset()
