"""The reading of a case file, by the table of crates/rb_cases/src/case.rt."""
import re
from pathlib import Path

import pytest

from conforming.cases import Malformed, read_cases


def test_a_script_and_a_replay(tmp_path: Path) -> None:
    path = tmp_path / "a.case"
    path.write_text(
        "# remark\ncase a name\nargs --calls 7\n>*3 A \\# \\(# 10) \\(# *5 %7 +1)\n>~ B\\(3 xy)\\\\\\r\\n\\x41\n"
        "< é\nfrom~\nwriter fails 3\nends quit 2\n"
        "\ncase b\n= history 3\nverdict unreadable 2 end\nstatus 1\n", "utf-8")
    script, replay = read_cases(str(path))
    assert (script.file, script.name, script.line) == ("a.case", "a name", 2)
    assert (script.words, script.number("writer fails")) == (["--calls", "7"], 3)
    assert script.text(">") == b"A 0 10 1\nA 1 11 6\nA 2 12 4\nBxyxyxy\\\r\nA"
    assert (script.text("<"), script.text("from")) == ("é\n".encode(), b"")
    assert (script.lost, script.fault, "from" in script.texts, "=" in script.texts) == (2, None, True, False)
    told = (replay.is_script, replay.text("="), replay.value("verdict"), replay.number("status"))
    assert told == (False, b"history 3\n", "unreadable 2 end", 1)


@pytest.mark.parametrize(("text", "told"), [
    ("case b\nwriter sleeps\n", "2: no word of a case: writer sleeps"),
    ("case b\n>* POLL\n", "2: no word of a case: >*"),
    ("# remark\n\n> POLL\n", "3: no case or table has begun"),
    ("case b\nends imput 0\n", "2: ends does not take imput 0"),
    ("case b\nends quit\n", "2: ends does not take quit"),
    ("case b\ntimer whel\n", "2: timer does not take whel"),
    ("case b\nargs a\nargs b\n", "3: args stands twice in a case"),
    ("case a\nends quit 0\n\ncase b\n> POLL\n", "4: a case with neither ends nor verdict"),
    ("case a\nends quit 0\ncase a\nends quit 0\n", "3: a second case of this name"),
])
def test_a_line_that_is_refused(tmp_path: Path, text: str, told: str) -> None:
    path = tmp_path / "a.case"
    path.write_text(text)
    with pytest.raises(Malformed, match=f"^{re.escape(f'{path}:{told}')}$"):
        read_cases(str(path))
