"""What the modules share that begin, watch, end and save the runs of a service, and how they write files: again and
again while the disk is full."""
import time
from dataclasses import dataclass
from typing import Callable, TypeVar

from servicing.folder import Folder
from servicing.memory import Memory
from servicing.runs import Runs
from servicing.saying import Signals
from servicing.server import Server
from servicing.settings import Settings
from servicing.publisher import Publisher
from servicing.state import DISK
from rb_broker_redis.watching.units import SECOND

AGAIN = 1.0  # seconds until something that failed is tried again

Done = TypeVar("Done")


class LeftBehind(Exception):
    """The service has to end before its work is done. A later one goes on, as the text says."""


@dataclass(frozen=True)
class Parts:
    settings: Settings
    folder: Folder
    signals: Signals
    runs: Runs
    publisher: Publisher
    memory: Memory

    def until_written(self, name: str, write: Callable[[], Done], server: Server | None = None) -> Done:
        """Writes a file, perhaps the history of a server, which is in memory only. Raises a `LeftBehind` if an end is
        asked for."""
        kept, asked, publisher, path = server.size if server else 0, 0.0, self.publisher, self.folder.file(name)
        while True:
            try:
                done = write()
                publisher.unwritten = 0
                publisher.lower_alert(DISK)
                return done
            except OSError as fault:
                why, publisher.unwritten = fault.strerror or repr(fault), kept
            text = f"{path} can't be written: {why}; {kept:,} bytes are kept in memory"
            publisher.raise_alert(DISK, text, "error", file=path, why=why, kept=kept)
            publisher.waits_for = (f"{path}: {why}",)
            publisher.show()
            if self.signals.count:
                asked = asked or time.monotonic()
                if self.signals.count > 1 or time.monotonic() - asked > self.settings.stop_within / SECOND:
                    if server:
                        server.leave()
                    raise LeftBehind(f"{text}; mend that, and start the service again to write them")
            self.signals.wait(AGAIN)
