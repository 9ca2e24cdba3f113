"""Tasks in a file of SQLite: what is left of them whatever is killed."""

import logging
import os
import sqlite3
import threading
import time
import uuid
from collections.abc import Callable, Iterator
from contextlib import contextmanager
from typing import Any, NamedTuple

from .answers import Greeting

log = logging.getLogger("rb_broker_client.tasks")

STALE = 10.0  # seconds after which who runs a task is dead, if nothing was heard of it
UNSENT = 5.0  # seconds after which a task that was not offered is offered by another
AT_ONCE = 100  # tasks that one process offers again

_USING = threading.Lock()  # held by a transaction, and by a fork: SQLite's locks would be those of the new process, too
if hasattr(os, "register_at_fork"):
    os.register_at_fork(before=_USING.acquire, after_in_parent=_USING.release, after_in_child=_USING.release)

_TABLES = """
    CREATE TABLE IF NOT EXISTS tasks (
        id TEXT PRIMARY KEY, name TEXT NOT NULL, arguments TEXT NOT NULL, key TEXT, due REAL NOT NULL,
        turn INTEGER NOT NULL DEFAULT 1, failures INTEGER NOT NULL DEFAULT 0, error TEXT NOT NULL DEFAULT '',
        state TEXT NOT NULL DEFAULT 'new', touched REAL NOT NULL, offers INTEGER NOT NULL DEFAULT 0, owner TEXT,
        began REAL NOT NULL DEFAULT 0, run INTEGER NOT NULL DEFAULT 0);
    CREATE UNIQUE INDEX IF NOT EXISTS keys ON tasks (key) WHERE state != 'dead';
    CREATE INDEX IF NOT EXISTS states ON tasks (state, touched);
    CREATE INDEX IF NOT EXISTS waits ON tasks (state, due);
    CREATE TABLE IF NOT EXISTS file (id TEXT NOT NULL, run INTEGER NOT NULL DEFAULT 0, lost INTEGER NOT NULL DEFAULT 0);
"""


class StoredTask(NamedTuple):
    """A task in the file. Its `state` is `new` until it is known to be offered, and then `waiting`, `running` or
    `dead`. Each failure begins the next `turn`. Moments are seconds since 1970."""

    id: str
    name: str
    arguments: str
    key: str | None
    due: float
    turn: int
    failures: int
    error: str
    state: str


_COLUMNS = ", ".join(StoredTask._fields)
_OVERDUE = f"""
    UPDATE tasks SET touched = :now, state = 'new', offers = offers + (state = 'waiting') WHERE id IN (
        SELECT id FROM tasks WHERE state = 'new' AND touched < :now - :unsent
        OR state = 'running' AND touched < :now - :stale
        OR state = 'waiting' AND due < :now - :overdue AND max(due, touched) < :now - :overdue * (1 << min(offers, 20))
        LIMIT :most
    ) RETURNING {_COLUMNS}
"""
# What was offered to a server that does not greet, too.
_IN_DOUBT = "UPDATE tasks SET state = 'new', touched = 0 WHERE state = 'waiting' AND (run = 0 OR run >= ?)"


@contextmanager
def going_on() -> Iterator[None]:
    """Logs that the file can't be used now, as if the disk is full. What keeps its tasks is to try again."""
    try:
        yield
    except sqlite3.Error:
        log.exception("the file of tasks can't be used now")


class Store:
    """The tasks of one file, which threads and processes of one machine may use. Each method is a transaction, which no
    kill of a process takes back. What was added, is done or has failed is on the disk, too, when the method returns."""

    def __init__(self, path: str | os.PathLike[str], now: Callable[[], float] = time.time) -> None:
        """Raises `sqlite3.Error` if the file can't be used."""
        self._path, self.now = path, now
        self._opened: list[tuple[int, sqlite3.Connection]] = []  # and by which process
        self._do("INSERT INTO file (id) SELECT :id WHERE NOT EXISTS (SELECT 1 FROM file)", id=uuid.uuid4().hex[:8])
        ((self.file,),) = self._do("SELECT id FROM file")

    def add(self, name: str, arguments: str, key: str | None, due: float) -> StoredTask | None:
        """Adds a task, unless there is one of this key that is not dead."""
        return self._one(f"""INSERT INTO tasks (id, name, arguments, key, due, touched) VALUES (:id, :name, :arguments,
            :key, :due, :now) ON CONFLICT DO NOTHING RETURNING {_COLUMNS}""", id=uuid.uuid4().hex[:16], name=name,
            arguments=arguments, key=key, due=due)

    def sent(self, task: StoredTask, greeting: Greeting | None) -> None:
        """The turn of a task was offered, in the run of this greeting. It stays `new` if that run is lost already."""
        with self._transaction() as db:
            run, lost = db.execute("SELECT run, lost FROM file").fetchone()
            if greeting is not None and greeting.run > run:
                self._hear(db, greeting)
            elif greeting is not None and greeting.run < run and greeting.lost != lost:
                return
            db.execute("UPDATE tasks SET state = 'waiting', touched = ?, run = ? WHERE id = ? AND turn = ? "
                       "AND state = 'new'", [self.now(), greeting.run if greeting else 0, task.id, task.turn])

    def greeted(self, greeting: Greeting) -> int:
        """The broker has this run. If one was lost since the last, what it may have had is `new`. Gives how many."""
        with self._transaction() as db:
            return self._hear(db, greeting)

    def _hear(self, db: sqlite3.Connection, greeting: Greeting) -> int:
        run, lost = db.execute("SELECT run, lost FROM file").fetchone()
        if greeting.run == run - 1:
            return 0  # another process waited longer to tell it than its run lasted
        db.execute("UPDATE file SET run = ?, lost = ?", [greeting.run, greeting.lost])
        if greeting.lost == lost and greeting.run >= run:
            return 0
        return db.execute(_IN_DOUBT, [run if greeting.run > run else 0]).rowcount

    def claim(self, id: str, turn: int, owner: str) -> StoredTask | None:
        """The task of a turn that is delivered, from now on run by this owner; or, if it is `running`, by another one.
        None if it is done, cancelled or dead, or has another turn."""
        words = {"id": id, "turn": turn, "owner": owner, "stale": STALE}
        task = self._one(f"""
            UPDATE tasks SET state = 'running', offers = 0, owner = :owner, touched = :now, began = :now
            WHERE id = :id AND turn = :turn AND (state IN ('new', 'waiting')
            OR state = 'running' AND touched <= :now - :stale) RETURNING {_COLUMNS}""", False, **words)
        return task._replace(state="claimed") if task else self._one(
            f"SELECT {_COLUMNS} FROM tasks WHERE id = :id AND turn = :turn AND state = 'running'", False, **words)

    def done(self, task: StoredTask) -> None:
        self._do("DELETE FROM tasks WHERE id = :id AND turn = :turn", **task._asdict())

    def retry(self, task: StoredTask, due: float, error: str) -> StoredTask:
        """The task failed, and is due again at this moment."""
        self._change(task, "state = 'new', turn = turn + 1, failures = failures + 1, due = :due, error = :error",
                     due=due, error=error)
        return task._replace(turn=task.turn + 1, due=due)

    def bury(self, task: StoredTask, error: str) -> None:
        self._change(task, "state = 'dead', failures = failures + 1, error = :error", error=error)

    def release(self, task: StoredTask) -> None:
        """The task was not run to its end, and is offered again soon, unless it was already."""
        self._change(task, "state = 'new'", is_synced=False)

    def cancel(self, key: str) -> bool:
        return bool(self._do("DELETE FROM tasks WHERE key = :key AND state IN ('new', 'waiting') RETURNING 1", key=key))

    def dead(self) -> list[StoredTask]:
        rows = self._do(f"SELECT {_COLUMNS} FROM tasks WHERE state = 'dead' ORDER BY touched, id")
        return [*map(StoredTask._make, rows)]

    def revive(self, id: str) -> StoredTask | None:
        """A dead task is due now, as if it had never failed. None if it is not dead, or another has its key."""
        return self._one(f"""UPDATE OR IGNORE tasks SET state = 'new', turn = turn + 1, failures = 0, due = :now,
            touched = :now WHERE id = :id AND state = 'dead' RETURNING {_COLUMNS}""", id=id)

    def beat(self, owner: str, *ids: str) -> None:
        """This owner is alive, and so are these tasks, which it runs."""
        self._do("UPDATE tasks SET touched = :now WHERE owner = :owner AND state = 'running' AND instr(:ids, id)",
                 is_synced=False, owner=owner, ids=" ".join(ids))

    def running(self, owner: str) -> list[tuple[float, StoredTask]]:
        """The tasks that this owner runs, each with the moment at which it began."""
        rows = self._do(f"SELECT began, {_COLUMNS} FROM tasks WHERE state = 'running' AND owner = :owner",
                        is_synced=False, owner=owner)
        return [(began, StoredTask._make(it)) for began, *it in rows]

    def overdue(self, overdue: float) -> list[StoredTask]:
        """The tasks that are to be offered again: those that were not offered, those whose owner is dead, and those
        that are so many seconds overdue, or twice as many, and so on, after each time."""
        rows = self._do(_OVERDUE, is_synced=False, overdue=overdue, unsent=UNSENT, stale=STALE, most=AT_ONCE)
        return [*map(StoredTask._make, rows)]

    def _change(self, task: StoredTask, change: str, is_synced: bool = True, **words: Any) -> None:
        # Of one that is run.
        self._do(f"UPDATE tasks SET {change}, touched = :now WHERE id = :id AND turn = :turn AND state = 'running'",
                 is_synced, **{**task._asdict(), **words})

    def _one(self, statement: str, is_synced: bool = True, **words: Any) -> StoredTask | None:
        rows = self._do(statement, is_synced, **words)
        return StoredTask._make(rows[0]) if rows else None

    def _do(self, statement: str, is_synced: bool = True, **words: Any) -> list[Any]:
        with self._transaction(is_synced) as db:
            return db.execute(statement, {**words, "now": self.now()}).fetchall()  # once the file is this one's

    @contextmanager
    def _transaction(self, is_synced: bool = False) -> Iterator[sqlite3.Connection]:
        with _USING:
            if not self._opened or self._opened[-1][0] != os.getpid():  # no process may close what another has opened
                db = sqlite3.connect(self._path, timeout=30, isolation_level=None, check_same_thread=False)
                db.executescript("PRAGMA journal_mode = WAL; PRAGMA synchronous = FULL;" + _TABLES)
                self._opened.append((os.getpid(), db))
            with self._opened[-1][1] as db:  # which commits, or takes back what was done before an exception
                db.execute(f"PRAGMA synchronous = {'FULL' if is_synced else 'NORMAL'}")
                db.execute("BEGIN IMMEDIATE")
                yield db
