"""Ctrl-C ends a tool without a traceback, even while its modules are being imported, which takes longest the first
time. `common.paths`, the first import of each tool, imports this before all else."""
import sys
from types import TracebackType


def _show(kind: type[BaseException], fault: BaseException, trace: TracebackType | None) -> None:
    if not issubclass(kind, KeyboardInterrupt):
        sys.__excepthook__(kind, fault, trace)


sys.excepthook = _show
