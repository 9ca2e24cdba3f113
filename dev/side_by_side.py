"""Calls of a function side by side."""
from concurrent.futures import ThreadPoolExecutor, as_completed
from typing import Callable, Iterable, Iterator, TypeVar

Given = TypeVar("Given")
Result = TypeVar("Result")


def side_by_side(
    call: Callable[[Given], Result], each: Iterable[Given], at_once: int
) -> Iterator[tuple[Given, Result]]:
    """Calls a function for each of these, so many at once. Gives each with the result, as they come. If that is broken
    off, those that have not begun never do."""
    return in_lanes(call, [(each, at_once)])


def in_lanes(
    call: Callable[[Given], Result], lanes: Iterable[tuple[Iterable[Given], int]]
) -> Iterator[tuple[Given, Result]]:
    """The same for several of these at the same time, each with its own count."""
    pools, calls = [], {}
    try:
        for each, at_once in lanes:
            pools.append(ThreadPoolExecutor(at_once))
            calls.update({pools[-1].submit(call, one): one for one in each})
        yield from ((calls[ended], ended.result()) for ended in as_completed(calls))
    finally:
        for pool in pools:
            pool.shutdown(wait=False, cancel_futures=True)
