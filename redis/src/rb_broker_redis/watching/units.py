"""Numbers as people read them. Moments and spans of time are nanoseconds."""
from rb_broker_formats.durations import SECOND as SECOND

# From the smallest. A span is told in the largest of which it has at least one, or of minutes and more two.
UNITS: tuple[tuple[int, str, int], ...] = (
    (1, "ns", 0), (1_000, "µs", 1), (1_000_000, "ms", 1), (SECOND, "s", 1),
    (60 * SECOND, "min", 2), (3600 * SECOND, "h", 2), (86_400 * SECOND, "d", 2),
)


def unit_of(nanoseconds: int) -> tuple[int, str]:
    """The unit in which a span is shown: its nanoseconds and its name."""
    return next((size, name) for size, name, least in reversed(UNITS) if nanoseconds >= size * least)


def span(nanoseconds: int) -> str:
    """A span in a unit that suits it, with three digits."""
    size, name = unit_of(nanoseconds)
    value = nanoseconds / size
    digits = 0 if size == 1 or value >= 100 else 1 if value >= 10 else 2
    return f"{value:,.{digits}f} {name}"


def mark(nanoseconds: int) -> str:
    """A round span as a label of an axis: in the largest unit of which it is a multiple."""
    size, name = next((size, name) for size, name, _ in reversed(UNITS) if size == 1 or not nanoseconds % size)
    return f"{nanoseconds // size:,} {name}" if nanoseconds else "0 ns"


def number(value: int) -> str:
    return f"{value:,}"


def counted(value: int, one: str, many: str = "") -> str:
    """A number with its noun."""
    return f"{value:,} {one if value == 1 else many or one + 's'}"


def percent(part: int, whole: int) -> str:
    """A share. A small one is never shown as nothing."""
    share = 100 * part / whole if whole else 0.0
    return "< 0.1 %" if 0 < share < 0.1 else f"{share:.1f} %"
