"""Numbers in a table for people, and as Prometheus reads them."""
from __future__ import annotations

import time
from collections.abc import Iterable, Mapping
from typing import Any

from .units import SECOND, number, span

PACE = "_a_second"  # a number of the table alone: Prometheus makes paces of counters

Number = tuple[str, str, Any]  # its name, what it means, and its value


def date(at: float) -> str:
    return time.strftime("%Y-%m-%d %H:%M:%S", time.gmtime(at))


def span_of(seconds: float) -> str:
    return ("-" if seconds < 0 else "") + span(int(abs(seconds) * SECOND))


def told(name: str, value: float) -> str:
    """A number as people read it."""
    if name.endswith("_time_seconds"):
        return date(value)
    if name.endswith("_seconds"):
        return span_of(value)
    return f"{value:,.2f}" if name.endswith(PACE) else number(int(value))


def metric(name: str, meaning: str, values: Mapping[str, Any]) -> str:
    """The lines of a metric, whose values are told apart by their labels."""
    kind = "counter" if name.endswith("_total") else "gauge"
    lines = "".join(f"rb_broker_{name}{{{labels}}} {value!r}\n" for labels, value in values.items())
    return f"# HELP rb_broker_{name} {meaning}.\n# TYPE rb_broker_{name} {kind}\n{lines}" if lines else ""


def metrics_of(label: str, is_up: bool, is_healthy: bool, alerts: Iterable[str], numbers: Iterable[Number]) -> str:
    """The text of the metrics that everything watched has, with a label, and of its numbers."""
    named = {f'{label},name="{it}"': 1 for it in sorted({*alerts})}
    return "".join((
        metric("up", "Whether a server serves clients", {label: int(is_up)}),
        metric("healthy", "Whether /health says 200", {label: int(is_healthy)}),
        metric("alert", "An alert, by its name, for as long as it lasts", named),
        *(metric(name, meaning, {label: value}) for name, meaning, value in numbers if not name.endswith(PACE))))
