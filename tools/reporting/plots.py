"""The plots: the depth of the queue and lateness over time. Each draws a value for each bucket of the axis of time."""
from array import array
from typing import NamedTuple, Sequence

from rb_broker_formats.history import History
from reporting import svg
from reporting.depth import Depth
from reporting.figures import Figures
from reporting.lateness import rank
from reporting.time_axis import DATE_STEPS, TimeAxis
from rb_broker_redis.watching.units import mark, number, span


class Plot(NamedTuple):
    """A plot: by the class of each line what it stands for and its height in each bucket, if it has one; the axes, and
    what the page says of each place."""

    name: str
    title: str
    lines: dict[str, tuple[str, Sequence[float | None]]]
    upright: str
    axis: TimeAxis
    caption: str
    readings: Sequence[tuple[float, str]]

    @property
    def drawing(self) -> str:
        paths = ((kind, svg.stairs(self.axis.places, it)) for kind, (_, it) in self.lines.items())
        return self.upright + self.axis.drawn() + svg.marks(paths)


def plots_of(figures: Figures) -> list[Plot]:
    """All plots of a page."""
    axis = TimeAxis(figures.history, figures.clock)
    return [depth_plot(figures.depth, axis), lateness_plot(lateness_in(axis, figures.history), axis)]


def depth_plot(depth: Depth, axis: TimeAxis) -> Plot:
    """The greatest number of elements in the queue in each bucket, and of those of them that had expired."""
    # The last value before a bucket stands when it begins.
    parts = [slice(max(0, part.start - 1), part.stop) for part in axis.slices(depth.moments)]
    standing, expired = ([max(values[part]) for part in parts] for values in (depth.standing, depth.expired))
    y = svg.count_scale(standing)
    return Plot(
        "depth", "Depth of the queue",
        {"standing": ("in the queue", [*map(y.at, standing)]),
         "expired": ("of these expired, and not given yet", [*map(y.at, expired)])},
        svg.y_axis(svg.round_ticks(y, svg.COUNT_STEPS, number), "elements"), axis,
        f"The greatest number of each {span(round(axis.width))}, so that no peak is lost.",
        axis.readings((f"{every:,} in the queue", f"{due:,} of these expired")
                      for every, due in zip(standing, expired)))


class Late(NamedTuple):
    """How late what was given in a bucket was, and how much that is."""

    median: int
    greatest: int
    given: int


def lateness_in(axis: TimeAxis, history: History) -> list[Late | None]:
    """How late those given in each bucket were, if any was given."""
    found = [array("Q") for _ in range(axis.count)]
    for _, event, late in history.gifts():
        found[axis.bucket(history.events.moments[event])].append(late)
    return [Late(rank(sorted(times), 0.5), max(times), len(times)) if times else None for times in found]


def lateness_plot(late: Sequence[Late | None], axis: TimeAxis) -> Plot:
    """How late elements were given: the median and the greatest of each bucket."""
    y = svg.count_scale(bucket.greatest for bucket in late if bucket)
    return Plot(
        "lateness", "Lateness over time",
        {"median": ("median", [y.at(bucket.median) if bucket else None for bucket in late]),
         "greatest": ("greatest", [y.at(bucket.greatest) if bucket else None for bucket in late])},
        svg.y_axis(svg.round_ticks(y, DATE_STEPS, mark), "lateness"), axis,
        f"Of what was given in each {span(round(axis.width))}.",
        axis.readings([f"median {span(bucket.median)}", f"greatest {span(bucket.greatest)}",
                       f"of {number(bucket.given)} given"] if bucket else ["nothing was given"] for bucket in late))
