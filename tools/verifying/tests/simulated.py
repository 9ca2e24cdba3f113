"""Simulated runs: a queue, clients at several seats, and what each of them would have recorded.

Each call takes effect at one moment, between the moments at which its request was sent and its reply had come. So the
history keeps the order of real time by the way in which it is made.
"""
import heapq
import random
from collections.abc import Sequence

from rb_broker_formats.element import Element
from verifying.tests.support import Line

DELAY, ATTEMPTS = 400, 3
BEHIND = 5_000_000  # how far the clients' clock is ahead of the server's


def shown(element: Element) -> str:
    """The words of a line that shows an element."""
    return f"{element.id} {element.expiry} {element.attempt} {element.payload}"


class Client:
    """A session at a seat. Its last line waits for the time at which its reply came."""

    def __init__(self, name: str, seat: int) -> None:
        self.name, self.seat = name, seat
        self.held: list[Element] = []
        self.lines: list[Line] = []
        self.last = 0  # the moment of its last request

    def note(self, at: int, request: str, *reply: str) -> None:
        """Notes a request that took effect at this moment. The reply before came between it and the one before."""
        middle = (self.last + at) // 2
        if self.lines:
            self.lines[-1]["received"] = random.randint(self.last, middle) + BEHIND
        sent = random.randint(max(middle, self.last), at) + BEHIND
        line = {"session": self.name, "sent": sent, "received": at + BEHIND, "request": request, "reply": list(reply)}
        self.lines.append(line)
        self.last = at


class Simulation:
    """A run of so many events. `lines` are those of all clients, by name."""

    def __init__(self, seed: int, events: int, seats: int, longest: int, kills: bool = False) -> None:
        """A session makes at most `longest` requests. With `kills` clients that hold a job are killed."""
        random.seed(seed)
        self.seed, self._kills = seed, kills
        self.events: list[str] = []
        self.lines: list[Line] = []
        self._queue: list[tuple[int, int]] = []
        self._elements: dict[int, Element] = {}
        self._next_id = self._at = self._sessions = 0
        self._longest = longest
        self._clients = [self._client(seat + 1) for seat in range(seats)]
        while len(self.events) < events:
            self._at += random.randint(2, 40)
            number = random.randrange(seats)
            if len(self._clients[number].lines) >= self._longest * random.random():
                self._leave(self._clients[number])
                self._clients[number] = self._client(number + 1)
            self._act(self._clients[number])
        for client in self._clients:
            self._at += 20
            self._leave(client)

    def _client(self, seat: int) -> Client:
        self._sessions += 1
        return Client(f"s{self._sessions}", seat)

    def _leave(self, client: Client) -> None:
        if self._kills and client.held:
            self._leave_unheard(client)
        else:
            client.note(self._at, "QUIT", "BYE")
        self.lines += client.lines
        for element in client.held:
            if element.attempt < ATTEMPTS:
                self._offer(client, self._at + DELAY, element.payload, element)

    def _leave_unheard(self, client: Client) -> None:
        """What was under way is in no record: the ends of some jobs, and a fetch of another."""
        for element in random.sample(client.held, random.randint(0, len(client.held))):
            client.held.remove(element)
            if element.attempt < ATTEMPTS and random.random() < 0.7:
                self._offer(client, self._at + DELAY, element.payload, element)
        if self._queue and self._elements[self._queue[0][1]].attempt < ATTEMPTS:  # it must come back
            given = self._taken(client)
            if given:
                self._event(client, f"take {given.id}")

    def _event(self, client: Client, act: str) -> None:
        self.events.append(f"{client.seat} {self._at} {self._at} {act}")

    def _offer(self, client: Client, expiry: int, payload: str, before: Element | None) -> Element:
        element = Element(self._next_id, expiry, self._next_id, expiry, 1, payload)
        if before:
            element = before._replace(id=self._next_id, expiry=expiry, attempt=before.attempt + 1)
        self._next_id += 1
        self._elements[element.id] = element
        heapq.heappush(self._queue, (expiry, element.id))
        self._event(client, " ".join(map(str, ("offer", *element))))
        return element

    def _taken(self, client: Client) -> Element | None:
        """The element that the client fetches, if one has expired."""
        if not self._queue or self._queue[0][0] > self._at:
            return None
        element = self._elements.pop(heapq.heappop(self._queue)[1])
        client.held.append(element)
        return element

    def _act(self, client: Client) -> None:
        """A request of some kind, with its reply and its event."""
        kinds = ["give", "give", "fetch", "fetch", "fetch", "settle", "settle", "look", "refuse"]
        if len(client.held) > 20:
            kinds = ["settle"]
        getattr(self, f"_{random.choice(kinds)}")(client)

    def _give(self, client: Client) -> None:
        delay, payload = random.choice([0, 10, 300, 2000]), f"p{self._next_id}"
        is_moment = random.random() < 0.2
        request = f"OFFERAT {self._at + delay} {payload}" if is_moment else f"OFFER {delay} {payload}"
        element = self._offer(client, self._at + delay, payload, None)
        client.note(self._at, request, f"OFFERED {element.id} {element.expiry}")

    def _fetch(self, client: Client) -> None:
        keyword = random.choice(["POLL", "POLLFOR", "POLLFOR", "DRAIN"])
        if keyword == "DRAIN":
            held = len(client.held)
            given = list(filter(None, [self._taken(client) for _ in range(random.randint(0, 3))]))
            if len(given) < 3 and self._queue and self._queue[0][0] <= self._at:
                most = len(given)  # or more would have been given
            else:
                most = min(random.choice([3, 1000]) if len(given) < 3 else 3, 64 - held)
            self._event(client, " ".join(map(str, ["drain", most, *(element.id for element in given)])))
            request = f"DRAIN {most if most < 64 - held else 1000}"
            client.note(self._at, request, f"DRAINED {len(given)}", *(f"ITEM {shown(element)}" for element in given))
            return
        element = self._taken(client)
        wait, request = (f" {self._at} 0", "POLLFOR 0") if keyword == "POLLFOR" else ("", keyword)
        self._event(client, f"{keyword.lower()}{wait} {element.id if element else 'none'}")
        client.note(self._at, request, f"ITEM {shown(element)}" if element else "NONE")

    def _settle(self, client: Client) -> None:
        if not client.held:
            return
        element = client.held.pop(random.randrange(len(client.held)))
        if random.random() < 0.6:
            client.note(self._at, f"DONE {element.id}", f"DONE {element.id}")
        elif element.attempt == ATTEMPTS:
            client.note(self._at, f"FAIL {element.id}", f"DEAD {element.id}")
        else:
            again = self._offer(client, self._at + DELAY, element.payload, element)
            client.note(self._at, f"FAIL {element.id}", f"AGAIN {again.id} {again.expiry}")

    def _look(self, client: Client) -> None:
        kind = random.choice(["SIZE", "PEEK", "REMOVE", "REMOVE"])
        if kind == "SIZE":
            self._event(client, f"size {len(self._queue)}")
            client.note(self._at, "SIZE", f"SIZE {len(self._queue)}")
        elif kind == "PEEK":
            head = self._elements[self._queue[0][1]] if self._queue else None
            self._event(client, f"peek {head.id}" if head else "peek none")
            client.note(self._at, "PEEK", f"HEAD {shown(head)}" if head else "NONE")
        else:
            self._remove(client, random.randrange(self._next_id + 2))

    def _remove(self, client: Client, id: int) -> None:
        is_there = id in self._elements
        if is_there:
            self._queue.remove((self._elements.pop(id).expiry, id))
            heapq.heapify(self._queue)
        self._event(client, f"remove {id} {'yes' if is_there else 'no'}")
        client.note(self._at, f"REMOVE {id}", f"REMOVED {'yes' if is_there else 'no'}")

    def _refuse(self, client: Client) -> None:
        request, reply = random.choice([
            ("AT 5", "ERR 1 syntax"), ("DONE 99999999", "ERR 5 not-held"), ("TAKE", "STOPPED"),
            ("nonsense \u00e9", "ERR 1 syntax"),
        ])
        client.note(self._at, request, reply)


class Idle:
    """Workers that find no job in waits of a second, in sessions of so many waits, beside a client that offers a job
    now and then. Of some a wait is in no record, since they are killed when it is over."""

    WAIT, LASTS, DEADLY = 1_000_000_000, 45_000_000_000, 0.05

    def __init__(self, seed: int, workers: int, lengths: Sequence[int], offers: int) -> None:
        random.seed(seed)
        self.seed = seed
        self.lines: list[Line] = []
        self._events: list[tuple[int, int, str]] = []  # with moment and seat
        self._seats = [(0, seat) for seat in range(16)]  # with the moment at which each is free
        self._come = [(random.randrange(self.WAIT // 50), worker) for worker in range(workers)]  # when, and who
        while self._come:
            self._work(*heapq.heappop(self._come), random.choice(lengths))
        for id in range(offers):
            at = self.WAIT // 7 + id * self.LASTS // offers
            self._events.append((at, 17, f"offer {id} {at} {id} {at} 1 x"))
            self._note("giver", at - 80_000, at + 90_000, "OFFER 0 x", f"OFFERED {id} {at}")
        self.events = [f"{seat} {at} {at} {act}" for at, seat, act in sorted(self._events)]

    def _note(self, session: str, sent: int, received: int, request: str, reply: str) -> None:
        times = {"sent": sent + BEHIND, "received": received + BEHIND}
        self.lines.append({"session": session, **times, "request": request, "reply": [reply]})

    def _work(self, at: int, number: int, count: int) -> None:
        """A session whose worker takes it now. Its first request may have been sent long before."""
        (_, seat), sent = heapq.heappop(self._seats), max(at - random.randrange(self.WAIT // 3), 0)
        pause = self.WAIT // 100  # until it comes back, which takes longer if it was killed
        while at + self.WAIT < self.LASTS and count > 0:
            began, at, count = at, at + self.WAIT, count - 1
            self._events.append((at, seat, f"pollfor {began} {self.WAIT} none"))
            if random.random() < self.DEADLY:
                pause = self.WAIT // 2
                break
            received = at + random.randrange(5_000_000)
            self._note(f"{number}", sent, received, f"POLLFOR {self.WAIT}", "NONE")
            sent = received + random.randrange(200_000)
            at = sent + random.randrange(300_000)
        heapq.heappush(self._seats, (at, seat))
        if at + self.WAIT < self.LASTS:
            heapq.heappush(self._come, (at + random.randrange(pause), number + 100))
