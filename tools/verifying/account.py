"""What a session's replies say about its calls, one reply after the other."""
import re
from typing import Callable, Match, NamedTuple, Sequence

from rb_broker_formats.element import NONE, Element
from rb_broker_formats.protocol import MOST_HELD
from verifying.history import ANY, History


class Rules(NamedTuple):
    """What is otherwise where a queue stands on Redis."""

    has_leases: bool = False  # a session may end before its client leaves; what it held has come back
    is_shard: bool = False  # the session has jobs of other queues too, and a fetch may ask this queue in vain


class Strange(Exception):
    """A reply that its request can't get."""


class Expected(NamedTuple):
    """The event that a reply speaks of."""

    act: str  # its words, with ANY for what the reply does not tell
    event: int = NONE  # the only one that names this element in this way, if the reply names one
    flaw: str = ""  # what the reply says about that element, and the history does not


class Account:
    """What a session holds, by its replies so far."""

    def __init__(self, history: History, rules: Rules) -> None:
        self._history, self._rules = history, rules
        self.held: dict[int, Element | None] = {}  # by id, in the order in which they were fetched
        self.has_left = False  # by QUIT
        self.last_attempt = 0  # of a job, as a DEAD says
        self.was_full = False  # so was the run, as a refusal says
        self._is_over = False  # by a lease that was over, as a refusal says

    def expected(self, request: str, reply: list[str]) -> Expected | None:
        """The event that a reply speaks of, if it speaks of one. Raises `Strange` for no right reply."""
        keyword = reply[0].partition(" ")[0]
        if self._is_over and keyword not in ("ERR", "BYE"):
            raise Strange
        told = "\n".join([request, *reply])
        for form, read in FORMS.get(keyword, ()):
            found = form(told)
            if found:
                return read(self, *found.groups())
        raise Strange

    def _offered(self, keyword: str, number: str, payload: str, id: str, expiry: str) -> Expected:
        event, flaw = self._history.offers[int(id)], ""
        if keyword == "OFFERAT":
            flaw = "" if number == expiry else f"OFFERED {id} {expiry} answers OFFERAT {number} {payload}"
        elif event != NONE and self._history.asked(event) != int(expiry) - int(number):
            flaw = f"it was offered at {self._history.asked(event)}, {number} before its expiry"
        first = f" {expiry}" if self._history.version == 3 else ""
        return Expected(f"offer {id} {expiry} {id}{first} 1 {payload}", event, flaw)

    def _item(self, asked: str, timeout: str | None, *words: str) -> Expected:
        id = int(words[0])
        return Expected(f"{_look(asked, timeout)} {words[0]}", self._history.exits[id], self._fetched(id, words))

    def _head(self, *words: str) -> Expected:
        return Expected(f"peek {words[0]}", NONE, _flaw(words, self._history.element(int(words[0]))))

    def _drained(self, asked: str, count: str, items: str) -> Expected:
        most = ANY if self._rules.is_shard else min(int(asked), MOST_HELD - len(self.held))
        given = [tuple(line.split(" ")[1:]) for line in items.split("\n")[1:]]
        _test(str(len(given)) == count)
        flaws = "; ".join(filter(None, (self._fetched(int(words[0]), words) for words in given)))
        event = self._history.exits[int(given[0][0])] if given else NONE
        return Expected(" ".join(["drain", str(most), *(words[0] for words in given)]), event, flaws)

    def _removed(self, id: str, found: str) -> Expected:
        return Expected(f"remove {id} {found}", self._history.exits[int(id)] if found == "yes" else NONE)

    def _again(self, failed: str, id: str, expiry: str) -> Expected:
        job = self._settled(failed)
        if job is None:  # it was not offered, which was told when it was fetched
            raise Strange
        first = f" {job.first}" if self._history.version == 3 else ""
        act = f"offer {id} {expiry} {job.origin}{first} {job.attempt + 1} {job.payload}"
        return Expected(act, self._history.offers[int(id)])

    def _settled(self, id: str) -> Element | None:
        """The job that a request names, which is no longer held."""
        try:
            return self.held.pop(int(id))
        except KeyError:
            raise Strange from None

    def _done(self, id: str) -> None:
        self._settled(id)

    def _dead(self, id: str) -> None:
        job = self._settled(id)
        self.last_attempt = job.attempt if job else 0

    def _now(self, asked: str, now: str) -> None:
        _test(int(now) >= int(asked))

    def _left(self) -> None:
        self.has_left = True

    def _not_held(self, id: str) -> None:
        is_held = int(id) in self.held
        _test(self._rules.has_leases or not is_held)
        self._is_over |= is_held

    def _too_many(self) -> None:
        _test(len(self.held) == MOST_HELD)

    def _full(self) -> None:
        self.was_full = True

    def _fetched(self, id: int, words: Sequence[str]) -> str:
        """The flaw of a line that gives an element, which is held from then on."""
        element = self.held[id] = self._history.element(id)
        return _flaw(words, element)


def _test(is_right: bool) -> None:
    if not is_right:
        raise Strange


def _look(asked: str, timeout: str | None) -> str:
    """The words of a fetch, or of a peek, but what it found."""
    return asked.lower() if timeout is None else f"pollfor {ANY} {timeout}"


def _flaw(words: Sequence[str], element: Element | None) -> str:
    """What a line that shows an element says about it, and the history does not."""
    if element is None:
        return f"element {words[0]} was not offered"
    says, was = " ".join(words), f"{element.id} {element.expiry} {element.attempt} {element.payload}"
    return "" if says == was else f"it says {says}, and was {was}"


def _compiled(form: str) -> Callable[[str], Match[str] | None]:
    return re.compile(form.replace("\n", "\r?\n", 1), re.DOTALL).fullmatch


# A number, a word, and the words that show an element.
N, W = "[0-9]{1,20}", r"[^ \r\n]+"
ELEMENT = f"({N}) ({N}) ({N}) ({W})"

# What reads a reply: a request with its reply, by their form, whose groups it takes.
Read = Callable[..., Expected | None]
UNCHANGED: Read = lambda _: None  # such a reply says nothing about a job or a call
REPLIES: dict[str, Read] = {
    f"(OFFER|OFFERAT) ({N}) ({W})\nOFFERED ({N}) ({N})": Account._offered,
    f"(TAKE|POLL|POLLFOR ({N}))\nITEM {ELEMENT}": Account._item,
    f"(POLL|PEEK|POLLFOR ({N}))\nNONE": lambda _, asked, timeout: Expected(f"{_look(asked, timeout)} none"),
    f"PEEK\nHEAD {ELEMENT}": Account._head,
    f"DRAIN ({N})\nDRAINED ({N})((?:\nITEM {N} {N} {N} {W})*)": Account._drained,
    f"REMOVE ({N})\nREMOVED (yes|no)": Account._removed,
    "CLEAR\nCLEARED": lambda _: Expected("clear"),
    f"SIZE\nSIZE ({N})": lambda _, count: Expected(f"size {count}"),
    f"FAIL ({N})\nAGAIN ({N}) ({N})": Account._again,
    f"FAIL ({N})\nDEAD \\1": Account._dead,
    f"DONE ({N})\nDONE \\1": Account._done,
    f"AT ({N})\nNOW ({N})": Account._now,
    f"(?:TAKE|POLLFOR {N})\nSTOPPED": UNCHANGED,
    "QUIT\nBYE": Account._left,
    f"(?:DONE|FAIL) ({N})\nERR 5 not-held": Account._not_held,
    f"(?:TAKE|POLL|POLLFOR {N})\nERR 9 held": Account._too_many,
    ".*\nERR 6 full": Account._full,
    ".*\nERR (?:1 syntax|2 number|3 range|4 payload|7 memory|8 line)": UNCHANGED,
}

# The same, by the first word of the reply. A request may end with a carriage return.
FORMS: dict[str, list[tuple[Callable[[str], Match[str] | None], Read]]] = {}
for _form, _read in REPLIES.items():
    FORMS.setdefault(_form.partition("\n")[2].split()[0], []).append((_compiled(_form), _read))
