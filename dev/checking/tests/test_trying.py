"""The broker without proofs, made by a stand-in for rt."""
import os
import subprocess
import sys
import time
from pathlib import Path
from typing import Callable

import pytest

from checking import trying
from common.program import TOP

# What is built lies in a folder of a folder of TMPDIR, until rt ends.
RT = "#!/bin/sh\nmkdir -p \"$TMPDIR\"/a/b && cp /bin/echo \"$TMPDIR\"/a/b/program && sleep 0.5\n"
SAYS = "making rb_broker without proofs, which takes two minutes or more\n"
RUN = "import sys; from checking import trying; trying.TOP = sys.argv[1]; sys.exit(trying.run_unproved(sys.argv[2:]))"

Made = Callable[[], tuple[Path, str]]


@pytest.fixture
def made(files: Callable[[dict[str, str]], Path], monkeypatch: pytest.MonkeyPatch, capsys: pytest.CaptureFixture[str],
         tmp_path_factory: pytest.TempPathFactory) -> Made:
    """Asks for the broker of a checkout with two crates. Gives its path, and what is said."""
    top = files({"crates.txt": "rb_broker: rb_low\nrb_low:\n", "crates/rb_broker/src/main.rt": "",
                 "crates/rb_low/src/lib.rt": "", "bin/rt": RT})
    (top / "bin/rt").chmod(0o755)
    monkeypatch.setattr(trying, "TOP", str(top))
    monkeypatch.setenv("PATH", f"{top}/bin:{os.environ['PATH']}")
    return lambda: (trying.unproved_broker(str(tmp_path_factory.mktemp("room"))), capsys.readouterr().err)


def test_it_is_made_once(made: Made, tmp_path: Path) -> None:
    """And again once a source is newer, of any crate below."""
    program, said = made()
    assert program == tmp_path / "crates/rb_broker/out/unproved" and said.endswith(f": {SAYS}")
    assert subprocess.run([program], check=False).returncode == 0
    assert made() == (program, "")
    later = time.time() + 60
    os.utime(tmp_path / "crates/rb_low/src/lib.rt", (later, later))
    assert made()[1].endswith(f": {SAYS}")


def test_it_is_run(made: Made, tmp_path: Path) -> None:
    """With all words, and as it is."""
    environment = {**os.environ, "PYTHONPATH": ":".join(f"{TOP}/{it}" for it in ("dev", "tools", "clients/python/src"))}
    words = [sys.executable, "-B", "-c", RUN, str(tmp_path), "script", "--delay", "30"]
    said = [subprocess.run(words, env=environment, capture_output=True, text=True, check=True) for _ in range(2)]
    assert [ran.stdout for ran in said] == ["script --delay 30\n"] * 2
    assert [ran.stderr.count(SAYS) for ran in said] == [1, 0] and not said[1].stderr


def test_rt_builds_none(made: Made, tmp_path: Path, capsys: pytest.CaptureFixture[str]) -> None:
    (tmp_path / "bin/rt").write_text("#!/bin/sh\necho no more room\nexit 2\n")
    with pytest.raises(SystemExit) as ended:
        made()
    assert ended.value.code == 2 and capsys.readouterr().err.endswith(" rt try built no program:\nno more room\n\n")
