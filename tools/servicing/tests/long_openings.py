"""More elements than an opening may have, from run to run of a service. That takes some minutes on a busy machine, so
`dev/check service --long` alone runs it."""
import signal

from rb_broker_formats.grammar import MOST_OPENING_ELEMENTS
from servicing.tests.process import Client, Event, Service, ServiceTest

FAR, FURTHER = 10**15, 2 * 10**15  # moments
ASIDE = 1_000
LONGEST = 600  # seconds


class OpeningsTest(ServiceTest):
    def test_those_that_expire_last_wait_until_there_is_room(self) -> None:
        service, _ = self.goes_on("--from", self.history_of(MOST_OPENING_ELEMENTS))
        self.ask_all(*(f"OFFERAT {FURTHER} last-{number}" for number in range(ASIDE)), "OFFERAT 0 due")
        self.stops(service)
        service, told = self.goes_on()
        self.assertEqual((told["elements"], told["aside"]), (f"{MOST_OPENING_ELEMENTS}", f"{ASIDE + 1}"))
        with Client(self.port) as it:
            id = it.greeted().ask("POLL").split(" ")[1]
            self.assertEqual([it.ask(f"DONE {id}"), it.ask("QUIT")], [f"DONE {id}", "BYE"])
        self.ask_all(*(f"REMOVE {number}" for number in range(ASIDE)))
        self.stops(service)
        service, told = self.goes_on()
        self.assertEqual((told["elements"], told.get("aside")), (f"{MOST_OPENING_ELEMENTS}", None))
        self.stops(service)

    def history_of(self, count: int) -> str:
        """The path of a history whose run left so many elements."""
        kept = (f"keep {id} {FAR + id} {id} {FAR + id} 1 job-{id}\n" for id in range(count))
        return self.file("many.txt", f"history 3\nopen {count} 0 {count}\n{''.join(kept)}end 0\n")

    def goes_on(self, *options: str) -> tuple[Service, Event]:
        service = self.start("--delay", "0s", *options)
        return service, service.wait("serving", patience=LONGEST)

    def ask_all(self, *requests: str) -> None:
        """Makes many requests in one session, none of which is refused."""
        with Client(self.port) as it:
            it.greeted().send(*requests)
            for _ in requests:
                self.assertRegex(it.line(), "^OFFERED |^REMOVED yes$")
            it.ask("QUIT")

    def stops(self, service: Service) -> None:
        service.process.send_signal(signal.SIGTERM)
        self.assertEqual((service.process.wait(LONGEST), service.all("lost-run")), (0, []))
