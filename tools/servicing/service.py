"""One server after the other at one listening socket, each of which begins with what the one before left."""
import contextlib
import os
import socket
import time
from dataclasses import replace

from servicing.between import resumed, saved
from servicing.clock import read_clock
from servicing.connections import HOST
from servicing.current import Current
from servicing.folder import Folder, Unusable
from servicing.http import why_not_listening
from servicing.memory import Memory
from servicing.opening import NoIdsLeft
from servicing.parts import AGAIN, Parts
from servicing.runs import Next, Runs
from servicing.saying import Signals, notify, say
from servicing.server import Damaged, NotStarted, Server, checked_file, made
from servicing.settings import Settings
from servicing.publisher import Publisher
from servicing.state import Board, Phase, Reason
from rb_broker_redis.watching.metrics import span_of
from rb_broker_redis.watching.units import SECOND

POLL = 0.002  # seconds from one look whether a server listens to the next
ROOM = 4096  # connections that may wait to be let in, unless the system allows fewer


def serve(settings: Settings, folder: Folder, board: Board, signals: Signals) -> None:
    """Serves until a signal asks for the end. Raises an `Unusable` if nothing can be served, and a `LeftBehind`."""
    runs, memory = Runs(folder), Memory(folder)
    say("info", "service", port=settings.port, folder=folder.path, http=board.http, pid=os.getpid())
    parts = Parts(settings, folder, signals, runs, Publisher(settings, runs, board), memory)
    try:
        _serve(parts)
    except NoIdsLeft:
        raise Unusable("all ids up to 2^40 are used; begin with another folder") from None
    parts.publisher.run = None
    parts.publisher.enter(Phase.STOPPED, Reason.ASKED)


def _serve(parts: Parts) -> None:
    door, found, before = _handed(parts), resumed(parts), None
    with door or _bound(parts.settings.port) as door:
        while not before or not parts.signals.count:
            current = found if isinstance(found, Current) else _started(parts, door, found, before)
            if current is None:
                break
            _say_serving(parts, current, before)
            if not isinstance(found, Current):
                parts.runs.tidy(parts.settings.keep)
            current.go_on()
            found, before = saved(parts, current), current
        if before:
            before.next_own.withdraw(door)


def _handed(parts: Parts) -> socket.socket | None:
    """The socket at which systemd listens, if there is one. Raises an `Unusable` unless it is at the service's port."""
    door, place = parts.memory.door(), (HOST, parts.settings.port)
    if door is not None and door.getsockname() != place:
        raise Unusable(f"systemd listens at {_shown(door.getsockname())} for this service, not at {_shown(place)}")
    return door


def _shown(place: object) -> str:
    """The address of a socket, such as 127.0.0.1:7011."""
    return ":".join(map(str, place)) if isinstance(place, tuple) else str(place)


def _bound(port: int) -> socket.socket:
    """A socket at which clients connect, whatever becomes of servers. Raises an `Unusable`."""
    try:
        return socket.create_server((HOST, port), backlog=ROOM)
    except OSError as fault:
        raise Unusable(f"cannot listen at port {port}: {why_not_listening(port, fault)}") from None


def _say_serving(parts: Parts, current: Current, before: Current | None) -> None:
    record, publisher, process = current.record, parts.publisher, current.server.process
    publisher.lower_alert("not-listening")
    publisher.run, publisher.looks = current.record, current.looks
    closed = None if before is None else round(time.monotonic() - before.closed, 3)
    publisher.enter(Phase.SERVING, None, port=parts.settings.port, elements=record.opening, aside=record.aside or None,
                  process=process.pid if process else None, closed=None if closed is None else f"{closed:.3f}s")
    notify(READY=1)
    last = parts.runs.records.get(record.number - 1)
    if last is not None and last.end is not None:
        with contextlib.suppress(OSError):  # it is no harm if that can't be written
            parts.runs.write(replace(last, end=replace(last.end, closed=closed or last.end.closed, is_followed=True)))


def _started(parts: Parts, door: socket.socket, following: Next, before: Current | None) -> Current | None:
    """The run behind the one before, whose server listens. None if the end is asked for before that. Raises an
    `Unusable` if the first one can't be started; later that is tried again, since clients wait."""
    _await_date(parts, following)
    while not parts.signals.count:
        try:
            server = made(parts.memory, parts.runs.greatest + 1)  # first: a run without that is one that was lost
            return _listening(parts, door, server, following, before)
        except NotStarted as fault:
            if before is None:
                raise Unusable(f"no server at port {parts.settings.port}: {fault}") from None
            parts.publisher.raise_alert("not-listening", f"no server can be started: {fault}", "error")
            parts.publisher.show()
            parts.signals.wait(AGAIN)
    return None


def _await_date(parts: Parts, following: Next) -> None:
    """Waits while the machine's date can't be right: jobs would be early."""
    while not parts.signals.count and (off := following.off_at(read_clock())) > parts.settings.away:
        text = (f"by its date the machine was off for {span_of(off / SECOND)}, and no run begins: set its date, or "
                "start with --away and a longer time")
        parts.publisher.raise_alert("date", text, "error", off=span_of(off / SECOND))
        parts.publisher.show()
        parts.signals.wait(AGAIN)
    parts.publisher.lower_alert("date")


def _listening(
    parts: Parts, door: socket.socket, server: Server, following: Next, before: Current | None
) -> Current:
    """A run whose server listens. Raises a `NotStarted`."""
    record, opening = parts.until_written("opening", lambda: parts.runs.prepare(
        server.run, following, read_clock(), parts.settings))
    words, file = parts.settings.serve_words(record, door.fileno()), parts.folder.file(f"opening-{record.number}.txt")
    try:
        server.start(words, door.fileno(), file)
        while not server.listens:
            parts.signals.wait(POLL, server.input)
            if server.has_ended and not server.listens:
                raise NotStarted(_why_ended(server, parts.settings.program, file))
    except NotStarted:
        parts.runs.drop(record)
        server.close()
        raise
    return Current(parts, record, server, opening.first_aside, before.next_own if before else None)


def _why_ended(server: Server, program: str, opening: str) -> str:
    """Why a server did not listen: its last line, and what `replay` says of its opening if that is the reason."""
    why = server.last_line or "its process has ended"
    if why.endswith(": bad opening"):
        try:
            checked_file(program, opening)
        except Damaged as fault:
            return f"{why}: `rb_broker replay` says of {os.path.basename(opening)}: {fault}"
    return why
