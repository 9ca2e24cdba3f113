"""The acts that an event may be, by small numbers, so that a column of them has a byte for each event; and what one
gave, by its words."""
from typing import Sequence

(OFFER, POLL, POLL_NONE, TAKE, POLLFOR, POLLFOR_NONE, PEEK, PEEK_NONE,
 REMOVE, REMOVE_NONE, DRAIN, CLEAR, SIZE) = range(13)

# The acts by their keywords in the text. One that finds an element or none is two.
BY_KEYWORD: dict[str, tuple[int, ...]] = {
    "offer": (OFFER,), "poll": (POLL, POLL_NONE), "take": (TAKE,), "pollfor": (POLLFOR, POLLFOR_NONE),
    "peek": (PEEK, PEEK_NONE), "remove": (REMOVE, REMOVE_NONE), "drain": (DRAIN,), "clear": (CLEAR,), "size": (SIZE,),
}

KEYWORDS: tuple[str, ...] = tuple(keyword for keyword, told in BY_KEYWORD.items() for _ in told)  # of each act

GIVES_ONE = frozenset((POLL, TAKE, POLLFOR))
GIVES = GIVES_ONE | {DRAIN}  # a drain as many as it says

# Where the ids of the elements that an act gave stand among its words, by the first of these.
IDS: dict[str, slice] = {"poll": slice(1, 2), "take": slice(1, 2), "pollfor": slice(3, 4), "drain": slice(2, None)}


def given_ids(act: Sequence[str]) -> list[int]:
    """The ids of the elements that an act gave, in their order."""
    return [int(word) for word in act[IDS.get(act[0], slice(0))] if word != "none"]
