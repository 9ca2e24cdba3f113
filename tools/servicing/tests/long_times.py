"""Jobs that are due after real time, through many rollovers and over a minute without a server. They take some minutes,
so `dev/check service --long` alone runs them."""
import contextlib
import time

from servicing.clock import read_clock
from servicing.tests.process import Client, ServiceTest
from servicing.tests.support import SECOND

ROLLOVERS = 30
LATEST = 5.0  # seconds by which a job may come late, on a machine that does much else


class RolloversTest(ServiceTest):
    DELAY = 60

    def test_a_client_that_only_takes(self) -> None:
        """It makes no call but the TAKE that gives the job, so no event of a client's tells the time."""
        with self.serving("--every", "1s", "--wait", "500ms") as service:
            due = self.first_zero() + int(self.ask(f"OFFER {self.DELAY * SECOND} later")[0].split(" ")[2])
            late, reply = 0.0, ""
            while not reply.startswith("ITEM "):
                self.assertLess(late, LATEST, service.lines)
                with contextlib.suppress(OSError, EOFError), Client(self.port) as it:
                    reply = it.greeted().ask("TAKE")
                late = (read_clock().up - due) / SECOND
            self.assertRegex(reply, "^ITEM [0-9]+ [0-9]+ 1 later$")
            self.assertTrue(0 <= late < LATEST, late)
            runs = len(service.all("serving"))
            self.assertGreater(runs, ROLLOVERS)
            print(f"\ngiven {late * 1e3:.2f} ms late behind {runs - 1} rollovers")


class MomentsTest(ServiceTest):
    """What the machine's clock read at moment 0, by every run."""

    ASKED = 20  # times, in each run

    def test_a_rollover_loses_no_time(self) -> None:
        """One reading fits all."""
        with self.serving("--every", "1s") as service:
            told = list[tuple[int, int]]()
            for run in range(ROLLOVERS + 1):
                service.wait("serving", run + 1)
                told += [self.zero() for _ in range(self.ASKED)]
        least, most = max(least for least, _ in told), min(most for _, most in told)
        self.assertTrue(least <= self.first_zero() <= most, (least, self.first_zero(), most))
        print(f"\nthe clocks of {ROLLOVERS + 1} runs and more differ by less than {(most - least) / 1e6:.3f} ms")


class WithoutServerTest(ServiceTest):
    WITHOUT = 60

    def test_a_minute_without_a_service(self) -> None:
        """A job that became due meanwhile is given at once, and one that was not when it is due."""
        with self.serving():
            self.ask("OFFER 30000000000 early", "OFFER 90000000000 late")
            offered = time.monotonic()
        time.sleep(self.WITHOUT)
        with self.serving() as service:
            self.assertEqual(self.names("POLL", "POLL"), ["early", "NONE"])
            names = ["STOPPED"]
            while names == ["STOPPED"]:
                self.assertLess(time.monotonic() - offered, 90 + LATEST, service.lines)
                names = self.names("TAKE")
            self.assertEqual(names, ["late"])
            self.assertGreaterEqual(time.monotonic() - offered, 90)

    def names(self, *requests: str) -> list[str]:
        return [it.split(" ")[-1] for it in self.ask(*requests)]
