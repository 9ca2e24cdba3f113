"""Drawings as SVG: scales, axes with their ticks, and the marks of plots. Text goes through `escape` alone.

A drawing is as wide as the page lets it be. Heights are pixels. Places from the left are shares of the width, out of
SHARES: as the units of `marks`, which are stretched, and as percentages elsewhere, so that words keep their size. The
labels of the upright axis stand at the left of the drawing, where style.css leaves room for them. On a narrow page it
hides every second label at the bottom.
"""
import itertools
from html import escape
from typing import Callable, Iterable, NamedTuple, Sequence

HEIGHT, TOP, BOTTOM = 270, 28, 222
LEFT = 72  # the room for labels at the left, as in style.css
SHARES = 1000
MOST_STEPS = 5  # so that words fit on a page for which style.css shows them all
COUNT_STEPS = tuple(factor * 10**power for power in range(20) for factor in (1, 2, 5))


class Scale(NamedTuple):
    """Puts values from `low` to `high`, which is greater, on places from `start` to `stop`."""

    low: float
    high: float
    start: float
    stop: float

    def at(self, value: float) -> float:
        share = (value - self.low) / (self.high - self.low)
        return round(self.start + share * (self.stop - self.start), 1)


class Tick(NamedTuple):
    """A mark on an axis: its place and its label."""

    place: float
    label: str


def round_values(high: int, steps: Iterable[int]) -> range:
    """Values from 0 to `high`, one of these steps apart, so that they are few."""
    step = next(step for step in steps if step * MOST_STEPS >= high)
    return range(0, high + 1, step)


def count_scale(values: Iterable[int]) -> Scale:
    """The upright scale of counts, from 0 on."""
    return Scale(0, max(1, max(values, default=1)), BOTTOM, TOP)


def round_ticks(scale: Scale, steps: Iterable[int], label: Callable[[int], str]) -> list[Tick]:
    """Some round values of a scale from 0 on."""
    return [Tick(scale.at(value), label(value)) for value in round_values(int(scale.high), steps)]


def text(x: float | str, y: float, words: str, kind: str) -> str:
    return f'<text x="{x}" y="{y}" class="{kind}">{escape(words)}</text>'


def line(kind: str, start: tuple[str, float], end: tuple[str, float]) -> str:
    return f'<line class="{kind}" x1="{start[0]}" y1="{start[1]}" x2="{end[0]}" y2="{end[1]}"/>'


def x_axis(ticks: Iterable[Tick], title: str) -> str:
    """The axis at the bottom."""
    parts = [line("axis", ("0", BOTTOM), ("100%", BOTTOM))]
    for (place, label), kind in zip(ticks, itertools.cycle(("", " from-720"))):
        at = f"{round(place * 100 / SHARES, 2):g}%"
        parts += [line(f"axis{kind}", (at, BOTTOM), (at, BOTTOM + 5)), text(at, BOTTOM + 18, label, f"x{kind}")]
    return "".join([*parts, text("50%", BOTTOM + 38, title, "x title")])


def y_axis(ticks: Iterable[Tick], title: str) -> str:
    """The labels at the left, each with a line through the drawing, and above them what they count."""
    parts = [text(-LEFT, 12, title, "title")]
    for place, label in ticks:
        parts += [line("grid", ("0", place), ("100%", place)), text(-8, place + 4, label, "y")]
    return "".join(parts)


def stairs(places: Sequence[float], heights: Sequence[float | None]) -> str:
    """The path of a value that stays from each place to the next one, and is broken where it is none."""
    path, is_broken = [], True
    for start, end, height in zip(places, places[1:], heights):
        if height is not None:
            path.append(f"M{start} {height}H{end}" if is_broken else f"V{height}H{end}")
        is_broken = height is None
    return "".join(path)


def marks(paths: Iterable[tuple[str, str]]) -> str:
    """Lines by their kinds, each as a path whose places are shares."""
    told = "".join(f'<path class="line {kind}" d="{path}"/>' for kind, path in paths)
    return (f'<svg class="marks" viewBox="0 0 {SHARES} {HEIGHT}" preserveAspectRatio="none" width="100%"'
            f' height="{HEIGHT}">{told}</svg>')
