"""What tests of several tools need: work that is long, at a terminal."""
import io
import os
from contextlib import contextmanager
from typing import Iterator
from unittest import mock


class Terminal(io.TextIOWrapper):
    """A stream that is a terminal."""

    def __init__(self, written: io.BytesIO | None = None, *_: object, **options: object) -> None:
        super().__init__(written or io.BytesIO(), "utf-8", write_through=True)

    def isatty(self) -> bool:
        return True

    @property
    def told(self) -> str:
        """What was written."""
        written: bytes = self.buffer.getvalue()  # type: ignore[attr-defined]
        return written.decode()


@contextmanager
def long_work_at_terminal() -> Iterator[None]:
    """Within, standard error of `call_tool` is a terminal, at which nothing of the progress is left out."""
    with mock.patch("io.TextIOWrapper", Terminal), mock.patch.dict(os.environ, COLUMNS="200"), \
            mock.patch("common.progress.PATIENCE", 0.0):
        yield
