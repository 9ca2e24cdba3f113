"""What is begun with behind runs that ended well or ill, when something of the last one is gone or damaged. What is
refused names an option, which works, and which loses nothing but what it says."""
import contextlib
import io
import itertools
import os
import shutil
from collections.abc import Iterator
from pathlib import Path
from unittest import mock

from checking.testing import RoomTest
from common.program import tested_program
from servicing.between import resumed, saved
from servicing.clock import read_clock
from servicing.current import Current
from servicing.folder import Folder, Unusable
from servicing.memory import Memory
from servicing.opening import Opening
from servicing.parts import Parts
from servicing.publisher import Publisher
from servicing.runs import Runs
from servicing.server import Server, made
from servicing.service import _say_serving
from servicing.settings import parser, settings_of
from servicing.state import Board

GOOD, LOST, KILLED, GONE = "in good order", "lost", "its service was killed", "all was killed"
BEFORE = (GOOD, GOOD), (GOOD, LOST), (GOOD, KILLED), (LOST, LOST)
CHANGES = KEPT, REMOVED, EMPTY, DAMAGED = "kept", "removed", "empty", "damaged"
CALLS = 1000


class Played:
    """A service in this process, whose servers are played: each takes one offer."""

    def __init__(self, folder: str, *options: object) -> None:
        words = [*map(str, options), "--folder", folder, "--calls", str(CALLS)]
        settings = settings_of(parser("").parse_args(words), tested_program())
        self.folder = Folder(folder, settings.port)
        try:
            runs = Runs(self.folder)
            signals = mock.Mock(count=0)
            self.parts = Parts(settings, self.folder, signals, runs, Publisher(settings, runs, Board(1)),
                               Memory(self.folder))
            found = resumed(self.parts)
            assert not isinstance(found, Current)
            server = made(self.parts.memory, runs.greatest + 1)
            record, self.opening = runs.prepare(server.run, found, read_clock(), settings)
        except BaseException:
            self.leave()
            raise
        self.current = Current(self.parts, record, server)
        self.write("printed", b"listening 1\n")
        _say_serving(self.parts, self.current, None)
        for number in [it.number for it in runs.past()]:  # as `Runs.tidy` does, by and by
            self.folder.remove(f"opening-{number}.txt")

    def write(self, part: str, text: bytes) -> None:
        """Writes what the server would into memory."""
        memory = self.folder.read("memory").decode()
        Path(f"{memory}/{self.folder.id}-{self.current.record.number}-{part}").write_bytes(text)

    def end(self, how: str) -> int:
        """Ends the run. Returns the id that it gave."""
        opening, number = self.opening, self.current.record.number
        if how in (GOOD, KILLED):
            moment = opening.moment + 1
            offer = f"1 {moment} {moment} offer {opening.next_id} {moment} {opening.next_id} {moment} 1 of-{number}\nend 1\n"
            self.write("history", b"".join(opening.text).removesuffix(b"end 0\n") + offer.encode())
        if how in (GOOD, LOST):
            saved(self.parts, self.current)
        self.leave()
        return opening.next_id

    def leave(self) -> None:
        os.close(self.folder._opened)  # which unlocks it


def payloads(opening: Opening) -> list[str]:
    return sorted(it.rpartition(b" ")[2].decode() for it in opening.elements.values())


class AcceptingTest(RoomTest):
    def setUp(self) -> None:
        super().setUp()
        self.enterContext(contextlib.redirect_stderr(io.StringIO()))
        self.enterContext(mock.patch("os.fsync"))  # no machine stops here, and disks are slow

    def test_what_is_advised_works(self) -> None:
        """Three runs end in each way, and the record, the history or both of the last one are changed in each way."""
        for before, last in itertools.product(BEFORE, (GOOD, LOST, KILLED, GONE)):
            ends = *before, last
            played = self.path(" ".join(ends))
            with self.at(played) as folder:
                given = [Played(str(folder)).end(it) for it in ends][-1]
            for record, history in self.changes(last):
                with self.subTest(ends, record=record, history=history):
                    shutil.copytree(played, copy := f"{played} {record} {history}")
                    with self.at(copy) as folder:
                        self.try_case(folder, ends, record, history, given)

    def changes(self, last: str) -> Iterator[tuple[str, str]]:
        for changes in itertools.product(CHANGES, CHANGES if last in (GOOD, KILLED) else [KEPT]):
            if KEPT in changes or len({*changes}) == 1:
                yield changes

    @contextlib.contextmanager
    def at(self, path: str) -> Iterator[Path]:
        """The folder of the runs in a room, whose memory is there, too."""
        folder, memory = Path(path, "runs"), Path(path, "memory")
        memory.mkdir(parents=True, exist_ok=True)
        if folder.exists():
            (folder / "memory").write_text(f"{memory}/rb_broker")
        with mock.patch.dict(os.environ, XDG_RUNTIME_DIR=str(memory)):
            yield folder

    def try_case(self, folder: Path, ends: tuple[str, ...], record: str, history: str, given: int) -> None:
        """`given` is the id that the last run gave."""
        its_record, (its_history, *_) = folder / "run-3.json", self.histories(folder)
        self.change(its_record, record)
        self.change(its_history, history)
        damaged = {f"damaged-3{it.suffix or '.txt'}": it.read_bytes() for it in (its_record, its_history)
                   if it.exists() and (it != its_record or record != KEPT)}
        is_lost = ends[-1] in (LOST, GONE) or (record, history) != (KEPT, KEPT)
        is_refused = record != KEPT or ends[-1] == GOOD and history != KEPT
        if is_refused:
            self.is_refused(folder, 3)
        played = Played(str(folder), *(["--accept-loss", 3] if is_refused else []))
        ended_well = [how in (GOOD, KILLED) for how in (*ends[:-1], LOST if is_lost else GOOD)]
        left = [f"of-{number}" for number, is_well in enumerate(ended_well, 1) if is_well]
        self.assertEqual((payloads(played.opening), played.current.record.lost), (left, ended_well.count(False)))
        self.assertGreater(played.opening.next_id, given)
        for name, text in damaged.items() if is_refused else ():
            self.assertEqual((folder / name).read_bytes() if text else b"", text)
        number = played.current.record.number
        played.end(GOOD)
        again = Played(str(folder))
        self.assertEqual(payloads(again.opening), sorted([*left, f"of-{number}"]))
        again.end(GOOD)

    def histories(self, folder: Path) -> list[Path]:
        """Where the history of the third run is, or would be."""
        return [*folder.glob("run-3.txt"), *folder.parent.glob("memory/*/*-3-history"), folder / "run-3.txt"]

    def change(self, path: Path, how: str) -> None:
        if how == REMOVED:
            path.unlink()
        elif how != KEPT:
            path.write_bytes(b"" if how == EMPTY else path.read_bytes()[:-9])

    def is_refused(self, folder: Path, run: int) -> None:
        """With advice to accept the loss of this run, and of no other, and nothing is changed."""
        before = self.files(folder)
        for options in ((), ("--accept-loss", run + 1)):
            self.says(folder, f"start with --accept-loss {run}, which gives up what run {run} did$", *options)
            self.assertEqual(self.files(folder), before)

    def says(self, folder: Path, text: str, *options: object) -> None:
        with self.assertRaisesRegex(Unusable, text):
            Played(str(folder), *options)

    def files(self, folder: Path) -> dict[str, bytes]:
        return {it.name: it.read_bytes() for it in folder.iterdir() if it.name != "lock"}

    def played(self, *ends: str) -> Path:
        """The folder of runs that ended so."""
        folder = Path(self.enterContext(self.at(self.path("played"))))
        for it in ends:
            Played(str(folder)).end(it)
        return folder

    def test_the_only_run(self) -> None:
        folder = self.played(GOOD)
        self.change(folder / "run-1.json", EMPTY)
        self.is_refused(folder, 1)
        played = Played(str(folder), "--accept-loss", 1)
        self.assertEqual((payloads(played.opening), played.current.record.number), ([], 2))
        self.assertEqual({*folder.glob("damaged-*")}, {folder / "damaged-1.json", folder / "damaged-1.txt"})
        played.end(GOOD)

    def test_two_runs_that_are_accepted_one_after_the_other(self) -> None:
        folder = self.played(GOOD, GOOD, GOOD)
        self.change(folder / "run-2.json", DAMAGED)
        self.change(folder / "run-3.txt", DAMAGED)
        self.is_refused(folder, 2)
        self.says(folder, "start with --accept-loss 3, ", "--accept-loss", 2)
        self.is_refused(folder, 3)
        played = Played(str(folder), "--accept-loss", 3)
        self.assertEqual(payloads(played.opening), ["of-1", "of-2"])
        played.end(GOOD)

    def test_no_loss_is_advised_behind_which_nothing_can_begin(self) -> None:
        folder = self.played(GOOD, LOST, GOOD)
        for path in (folder / "run-3.txt", folder / "opening-3.txt"):
            path.unlink()
        before, gone = self.files(folder), "opening-3.txt: No such file or directory: restore it$"
        self.says(folder, f"^run 3 ended in good order, and has no history; .*{gone}")
        (folder / "run-3.json").unlink()
        self.says(folder, gone, "--accept-loss", 3)
        del before["run-3.json"]
        self.assertEqual(self.files(folder), before)
