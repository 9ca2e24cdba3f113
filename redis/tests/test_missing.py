"""What the command says of itself, and where there is no redis-py, or no hiredis."""
import subprocess
import sys
import tomllib
import unittest
from pathlib import Path

WITHOUT = "import runpy, sys; sys.modules[{!r}] = None; runpy.run_module('rb_broker_redis', run_name='__main__')"

PROJECT = Path(__file__).parent.parent / "pyproject.toml"


class MissingTest(unittest.TestCase):
    def test_the_version_is_that_of_the_package(self) -> None:
        words = [sys.executable, "-m", "rb_broker_redis", "--version"]
        ran = subprocess.run(words, capture_output=True, text=True, check=True)
        version = tomllib.loads(PROJECT.read_text("ascii"))["project"]["version"]
        self.assertEqual(ran.stdout, f"rb_broker_redis {version}\n")

    def test_what_is_needed_is_named_where_it_is_missing(self) -> None:
        for package in ("redis", "hiredis"):
            with self.subTest(package=package):
                ran = subprocess.run([sys.executable, "-c", WITHOUT.format(package), "--help"], capture_output=True, text=True,
                                     check=False)
                self.assertEqual((ran.returncode, ran.stdout), (1, ""))
                self.assertEqual(ran.stderr, "rb_broker_redis: this needs redis-py and hiredis, Debian's python3-redis and"
                                 " python3-hiredis\n")
