"""Clients of one name over several queues, as `--shards` of the broker on Redis serves them: what a request and its
reply are at each queue.

The id that a client sees is 64 times the queue's own, plus the number of the queue. A fetch may ask several queues, and
some in vain; SIZE, PEEK and CLEAR ask all. So a reply that names no element which came or left is not compared, and
what it asked is not looked for in the histories (`history.IN_VAIN`).
"""
import re

from verifying.account import Strange
from verifying.record import Exchange

MOST_SHARDS = 64

# The requests that such a reply may answer.
IN_VAIN = {
    "NONE": ("POLL", "POLLFOR", "PEEK"), "DRAINED": ("DRAIN",), "SIZE": ("SIZE",), "HEAD": ("PEEK",),
    "STOPPED": ("TAKE", "POLLFOR"),
}
BY_ID = ("DONE", "FAIL", "REMOVE")
NAMES_AN_ELEMENT = ("OFFERED", "ITEM", "AGAIN", "DEAD", "DONE")
NOT_THERE = ("REMOVED no", "ERR 5 not-held")

_SHARD = re.compile(r".*\.([0-9]{1,2})-[0-9]+\.txt(?:\.gz)?", re.DOTALL)

Part = tuple[int, Exchange]
"""What an exchange is at the queue of this number."""


def shard_of_file(path: str) -> int | None:
    """The number of the queue whose events an archive's file has: 3 for jobs.3-000000000000.txt."""
    found = _SHARD.fullmatch(path)
    return int(found[1]) if found else None


def parts_of(exchange: Exchange, count: int) -> list[Part]:
    """What an exchange is at each of so many queues that it concerns. Raises `Strange` for no right reply."""
    asked = exchange.request.rstrip("\r").split(" ")
    try:
        parts = _unanswered(exchange, asked, count) if exchange.received is None else _answered(exchange, asked, count)
    except (ValueError, IndexError):  # a number that is none, too few words, or elements of two queues
        raise Strange from None
    if any(queue >= count for queue, _ in parts):
        raise Strange
    return parts


def _unanswered(exchange: Exchange, asked: list[str], count: int) -> list[Part]:
    """It may have been carried out at each queue, unless it names an id."""
    if asked[0] not in BY_ID or not "".join(asked[1:2]).isdecimal():
        return [(queue, exchange) for queue in range(count)]
    owner, request = _inner(asked)
    return [(queue, exchange._replace(request=request if queue == owner else "")) for queue in range(count)]


def _answered(exchange: Exchange, asked: list[str], count: int) -> list[Part]:
    (reply, *items), request, queue = exchange.reply, exchange.request, 0
    words = reply.split(" ")
    if words[0] in ("BYE", "CLEARED"):
        return [(queue, exchange) for queue in range(count)]
    if words[0] == "DRAINED" and items:
        return _drained(exchange, reply, items)
    if asked[0] in IN_VAIN.get(words[0], ()) or reply == "ERR 9 held":
        return []
    if asked[0] in BY_ID:
        queue, request = _inner(asked)
        if queue >= count and reply in NOT_THERE:
            return []
    if words[0] in NAMES_AN_ELEMENT:
        owner, reply = _inner(words)
        if asked[0] in BY_ID and owner != queue:
            raise ValueError
        queue = owner
    return [(queue, exchange._replace(request=request, reply=[reply, *items]))]


def _drained(exchange: Exchange, reply: str, items: list[str]) -> list[Part]:
    """The items of each queue are what it gave."""
    given: dict[int, list[str]] = {}
    if reply != f"DRAINED {len(items)}":
        raise ValueError
    for queue, item in (_inner(item.split(" ")) for item in items):
        given.setdefault(queue, []).append(item)
    return [(queue, exchange._replace(reply=[f"DRAINED {len(its)}", *its])) for queue, its in given.items()]


def _inner(words: list[str]) -> tuple[int, str]:
    """The queue of a request or a line that names an id, and what it is there."""
    id, queue = divmod(int(words[1]), MOST_SHARDS)
    return queue, " ".join([words[0], str(id), *words[2:]])
