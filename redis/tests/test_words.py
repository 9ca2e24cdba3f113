"""Times in command lines, which no Redis is asked for."""
from __future__ import annotations

import pytest

from rb_broker_redis.command import parser

SERVE, JUDGE = "serve --queue q --port 0", "judge file"
TIMES = [
    *((SERVE, it) for it in ("--delay", "--rate", "--wait", "--lease", "--grace", "--timeout")),
    *((JUDGE, it) for it in ("--delay", "--rate")),
    ("archive folder --queue q", "--every"), ("dead 17 --queue q --offer", "--delay"),
]
HAS_NO_UNIT = "30 has no unit: write 30s (units are ns, us, ms, s, m, h, d)"


@pytest.mark.parametrize(("words", "option"), TIMES)
def test_a_time_needs_its_unit(words: str, option: str, capsys: pytest.CaptureFixture[str]) -> None:
    asked = parser().parse_args([*words.split(), option, "1.5s"])
    assert getattr(asked, option[2:]) == 1_500_000_000
    with pytest.raises(SystemExit) as end:
        parser().parse_args([*words.split(), option, "30"])
    assert (end.value.code, capsys.readouterr().err) == (2, f"rb_broker_redis: argument {option}: {HAS_NO_UNIT}\n")


@pytest.mark.parametrize(("word", "period"), [("30", 30), ("30s", 30_000_000_000)])
def test_a_script_takes_nanoseconds_as_the_program_does(word: str, period: int) -> None:
    assert parser().parse_args(["script", "--delay", word]).delay == period
