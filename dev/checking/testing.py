"""What tests of several tools need: a folder of their own, and a tool as a command or within this process."""
import importlib
import io
import os
import subprocess
import sys
import tempfile
import unittest
from pathlib import Path
from unittest import mock

from common.program import TOP

PATIENCE = 600  # seconds after which a command has failed
FOLDERS = {"report": "reporting", "load": "loading"}  # of the tools that are run within this process


class RoomTest(unittest.TestCase):
    """A test with a folder of its own, which is gone at its end."""

    def setUp(self) -> None:
        room = tempfile.TemporaryDirectory(prefix="rb-test-")
        self.addCleanup(room.cleanup)
        self.room = room.name

    def path(self, name: str) -> str:
        return os.path.join(self.room, name)

    def file(self, name: str, text: str) -> str:
        """Writes a file, also in folders that are not there yet, and returns its path."""
        path = Path(self.room, name)
        path.parent.mkdir(parents=True, exist_ok=True)
        path.write_text(text, "utf-8")
        return str(path)


def tool(name: str) -> list[str]:
    """The first words of a command that runs one of tools/."""
    return [sys.executable, "-B", f"{TOP}/tools/{name}"]


def run_tool(name: str, *words: object, given: str = "") -> subprocess.CompletedProcess[str]:
    """Runs a tool to its end."""
    return subprocess.run([*tool(name), *map(str, words)], input=given, capture_output=True, encoding="utf-8",
                          timeout=PATIENCE, check=False)


def call_tool(name: str, *words: str) -> tuple[int, bytes, str]:
    """Runs a tool within this process, which is quicker: its status, what it writes, and standard error."""
    main = importlib.import_module(f"{FOLDERS[name]}.command").main
    written, errors = io.BytesIO(), io.BytesIO()
    streams = [io.TextIOWrapper(stream, "utf-8", write_through=True) for stream in (written, errors)]
    with mock.patch.multiple(sys, argv=[name, *words], stdout=streams[0], stderr=streams[1]):
        try:
            status = main()
        except SystemExit as end:
            status = end.code
    return status, written.getvalue(), errors.getvalue().decode()
