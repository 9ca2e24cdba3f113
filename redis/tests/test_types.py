"""The types of the package."""
import importlib.util
import os
import subprocess
import sys
import unittest
from pathlib import Path

PACKAGE = Path(__file__).resolve().parents[1]


@unittest.skipUnless(importlib.util.find_spec("mypy"), "there is no mypy for this Python")
class TypesTest(unittest.TestCase):
    def test_each_type_is_right(self) -> None:
        words = [sys.executable, "-m", "mypy", "--cache-dir", os.devnull, "src"]
        ran = subprocess.run(words, cwd=PACKAGE, stdout=subprocess.PIPE, stderr=subprocess.STDOUT, text=True,
                             check=False)
        self.assertEqual(ran.returncode, 0, ran.stdout)
