"""What a service does between two runs: it finds what the one before left, and saves what a run has left."""
import contextlib
import os
import time
from dataclasses import replace

from rb_broker_formats.protocol import MOST_CALLS
from servicing.current import Current
from servicing.deciding import Misfit, Start, how_to_start, misfit_of
from servicing.folder import Unusable
from servicing.opening import Left
from servicing.parts import LeftBehind, Parts
from servicing.runs import Next
from servicing.saying import say
from servicing.server import Checked, Damaged, Server, checked_file
from servicing.publisher import lost_text
from servicing.state import End, Phase, Reason, Run

LOOK = 0.05  # seconds from one look whether a server has ended to the next


def resumed(parts: Parts) -> Current | Next:
    """A server that goes on, or what the next one begins with. Raises an `Unusable`, and has changed nothing then but
    what was accepted of other runs."""
    runs = parts.runs
    if parts.settings.begin_with and not runs.is_new:
        raise Unusable(f"--from needs an empty folder, and {parts.folder.path} has runs")
    while (misfit := runs.misfit()) is not None:
        _accept(parts, misfit)
    if (number := runs.unrecorded) is not None:
        return _without_record(parts, number)
    if runs.last is None:
        return _first(parts)
    return _resumed_after(parts, runs.last)


def _resumed_after(parts: Parts, last: Run) -> Current | Next:
    """The same if the last run has a record."""
    server = _found(parts, last.number)
    if server is not None and server.input is None:
        _await_end(parts, server)
    start = how_to_start(last, parts.runs.history(last.number) is not None, server)
    say("info", "resume", run=last.number, how=start.value)
    if server is not None and start in (Start.GO_ON, Start.COLLECT):
        _settle(parts)
        current = Current(parts, last, server)
        if start is Start.GO_ON:
            return current
        parts.publisher.run = current.record
        return saved(parts, current)
    following = _following(parts, last, start, server)
    _settle(parts)
    if server is not None:
        server.close()
    return following


def _found(parts: Parts, number: int) -> Server | None:
    """What an earlier service has left of the server of a run."""
    kept = parts.memory.found(number)
    return Server(parts.memory, number, kept) if kept else None


def _first(parts: Parts) -> Next:
    """What the first run begins with: nothing, what a history left, or what the last history left that a series of runs
    has left in this folder. Raises an `Unusable`."""
    greatest = parts.runs.greatest
    path = parts.settings.begin_with or (parts.folder.history(greatest) if greatest else None)
    if path is None:
        return Next(Left(0, 0, {}), 0)
    if os.path.exists(path) and not os.path.isfile(path):  # a pipe would keep this waiting
        raise Unusable(f"{path} is no regular file")
    try:
        left = checked_file(parts.settings.program, path).left
    except Damaged as fault:
        raise Unusable(f"{path} can't be continued: {fault}") from None
    age = max(time.time_ns() - os.stat(path).st_mtime_ns, 0)
    say("info", "begins-with", history=path, elements=len(left.elements))
    return Next(left, left.moment + age)


def _await_end(parts: Parts, server: Server) -> None:
    """Waits for a server whose input ended with another service. Raises a `LeftBehind` if an end is asked for."""
    if not server.has_ended:
        say("info", "waiting", run=server.run, clients="the server")
    while not server.has_ended:
        if parts.signals.count:
            raise LeftBehind(f"the server of run {server.run} has not ended yet; start the service again to save its history")
        parts.signals.wait(LOOK)


def _following(parts: Parts, last: Run, start: Start, server: Server | None) -> Next:
    """What follows a run whose server has ended. Raises an `Unusable`."""
    if start is Start.CONTINUE:
        return _continued(parts, last, server)
    if start is Start.AGAIN:
        return parts.runs.again(last, last.calls)
    if start is Start.MISSING:
        _give_up(parts, last, f"run {last.number} ended in good order, and has no history")
        return _lost(parts, last, "it had no history any more, which was accepted")
    return _lost(parts, last, "its server was gone, and what it had left in memory")


def _without_record(parts: Parts, number: int) -> Next:
    """What follows a run that has served, and has no record any more: it is lost. Raises an `Unusable`."""
    if not parts.runs.is_accepted(number):
        _accept(parts, Misfit(number, f"run {number} continued run {number - 1}, and has no record"))
    say("info", "resume", run=number, how=Start.AGAIN.value)
    record = replace(_record_again(parts, number), calls=MOST_CALLS)  # nobody knows how many it had
    if (server := _found(parts, number)) is not None:
        server.cut()
        _await_end(parts, server)
        _keep_damaged(parts, server)
    following = _lost(parts, record, "it had no record any more, which was accepted")
    if server is not None:
        server.close()
    return following


def _record_again(parts: Parts, number: int) -> Run:
    """The record of a run that has none, by its opening or else by what the run before it left. Raises an `Unusable`."""
    runs, last = parts.runs, parts.runs.last
    if number in parts.folder.openings() or last is None or last.is_lost:
        return runs.made_again(number, parts.settings)
    before = _continued(parts, last, None)
    now = before.known_at()  # the date may be wrong now, by which no job may come early
    return parts.until_written("opening", lambda: runs.prepare(number, before, now, parts.settings))[0]


def _accept(parts: Parts, misfit: Misfit) -> None:
    """Goes on without what a run did, if that is accepted. Otherwise raises an `Unusable` that says what it is; what
    was accepted of other runs stays so, as one command accepts one run."""
    if parts.settings.accept_loss != misfit.run:
        _settle(parts)
        raise Unusable(str(misfit))
    parts.runs.accept(misfit)


def _give_up(parts: Parts, last: Run, what: str) -> None:
    """The same of the last run, if the next one can begin where that began."""
    try:
        parts.runs.again(last, 0)
    except Unusable as fault:
        raise Unusable(f"{what}; {fault}") from None
    _accept(parts, Misfit(last.number, what))


def _settle(parts: Parts) -> None:
    """Says and writes down all that was accepted."""
    while (misfit := parts.runs.accepted) is not None:
        say("error", "accepted-loss", run=misfit.run, text=misfit.what)
        parts.until_written(f"run-{misfit.run}", parts.runs.settle)


def _continued(parts: Parts, last: Run, server: Server | None) -> Next:
    """What follows a run that ended in good order, by the file of its history. Raises an `Unusable`."""
    path = parts.folder.history(last.number) or parts.folder.file(f"run-{last.number}.txt")
    try:
        told = checked_file(parts.settings.program, path, last.chains)
        why = misfit_of(last, told)
    except Damaged as fault:
        why = str(fault)
    if why:
        _give_up(parts, last, f"{path} can't be continued: {why}")
        return _lost(parts, last, f"its history did not fit, which was accepted: {why}")
    if last.end is None:
        _write_end(parts, last, _end_of(Reason.UNKNOWN, told, server))
    return parts.runs.after(last, told.left)


def _end_of(why: Reason, told: Checked, server: Server | None, cut: int = 0) -> End:
    """The end of a run by its history, and by what its server printed, if that is still known. The service's own
    elements are not counted."""
    audit, left = told.audit, told.left
    sessions, lost_jobs = server.counts if server else (None, None)
    return End(time.time(), why, audit["calls"], audit["offered"] - left.probes, left.failed, audit["given"],
               len(left.elements), lost_jobs, sessions=sessions, cut=cut, digest=told.digest)


def saved(parts: Parts, run: Current) -> Next:
    """Has the history of a run that has ended checked, and writes it, or the run is lost. Returns what follows. Raises
    an `Unusable` if it can't be checked, and then a later service will."""
    record, server, looks = run.record, run.server, run.looks
    why = Reason.ASKED if parts.signals.count and run.why is not Reason.UNKNOWN else run.why
    parts.publisher.enter(Phase.BETWEEN, why)
    try:
        told = server.collect(parts.settings.program, record.chains)
        if misfit := misfit_of(record, told):
            raise Damaged(misfit)
    except Damaged as fault:
        _keep_damaged(parts, server)
        if server.listens or server.size:
            following = _lost(parts, record, str(fault))
        else:
            following = parts.runs.again(record, 0)
            parts.runs.drop(record)
        parts.publisher.count(looks.offered, looks.left, 0)
    except Unusable:
        server.leave()
        raise
    else:
        end = _end_of(why, told, server, run.cut)
        _write_end(parts, record, end, server)
        following = parts.runs.after(record, told.left)
        say("info", "saved", run=record.number, calls=end.calls, offered=end.offered, given=end.given, left=end.left,
            lost_jobs=end.lost_jobs or None, cut=end.cut or None)
        offered = end.offered or 0
        parts.publisher.count(offered, record.opening + offered - len(told.left.elements), told.left.failed)
    server.close()
    return following


def _keep_damaged(parts: Parts, server: Server) -> None:
    """Keeps what a server has left that nobody continues, for whoever wants to know why."""
    if server.size:
        with contextlib.suppress(OSError):
            parts.folder.write(f"damaged-{server.run}.txt", server.text())


def _lost(parts: Parts, record: Run, why: str) -> Next:
    """A run is lost: it is said, before that is written down and said no more, and the next one begins where it
    began. Raises an `Unusable` before anything is changed."""
    following = parts.runs.again(record, record.calls)
    _settle(parts)
    end = End(time.time(), Reason.KILLED)
    it = replace(record, end=end)
    say("error", "lost-run", run=record.number, lasted=f"{it.lasted:.1f}s", opening=record.opening,
        aside=record.aside or None, why=why, text=lost_text(it))
    _write_end(parts, record, end)
    return following


def _write_end(parts: Parts, record: Run, end: End, server: Server | None = None) -> None:
    """Writes down how a run ended, behind the history that its server has left. Which jobs are lost is said before, as
    a service is killed at any moment."""
    if end.lost_jobs:
        say("error", "lost-jobs", run=record.number, jobs=end.lost_jobs,
            text="they failed when the run was full, and could not come back")
    name = f"run-{record.number}.txt" if server else f"run-{record.number}.json"
    parts.until_written(name, lambda: parts.runs.write(
        replace(record, end=end), {name: server.text()} if server else {}), server)
