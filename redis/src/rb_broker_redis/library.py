"""The library of functions, broker.lua, which a Redis has to have before a queue of it can be used.

Libraries of several versions stand side by side, so an upgrade takes nothing from the gateways that are still to go.
"""
from __future__ import annotations

import re
from pathlib import Path

from .link import Link
from .resp import ErrorAnswer

SOURCE = Path(__file__).with_name("broker.lua").read_text()
(VERSION,) = re.findall(r"^local VERSION = '(\d+)'$", SOURCE, re.MULTILINE)


def name_of(function: str) -> str:
    """What the Redis calls a function of this version."""
    return f"{function}_{VERSION}"


async def load_functions(link: Link) -> None:
    """Gives a Redis the functions, unless it has them."""
    try:
        await link.ask("FCALL", name_of("rb_version"), 0)
    except ErrorAnswer as fault:
        if "not found" not in str(fault):
            raise
        await link.ask("FUNCTION", "LOAD", "REPLACE", SOURCE)
