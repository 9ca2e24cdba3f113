"""By the text of docs/HISTORY.md: which elements were offered and not taken back, and which were given."""
from rb_broker_formats.acts import given_ids
from rb_broker_formats.element import Element
from rb_broker_formats.files import open_history


class History:
    """The elements of one run or of several, each of which continued the one before."""

    def __init__(self, *paths: str) -> None:
        self.elements: dict[int, Element] = {}
        self.given: list[int] = []
        for path in paths:
            with open_history(path) as it:
                header, _, *lines = it.read().decode("ascii").splitlines()
            if header != "history 3":
                raise ValueError(f"{path} begins with {header!r}")
            for words in (it.split(" ") for it in lines[:-1]):
                act = words if words[0] == "keep" else words[3:]
                if act[0] in ("keep", "offer"):
                    self.elements[int(act[1])] = Element(*map(int, act[1:6]), act[6])
                elif act[0] == "remove" and act[2] == "yes":
                    del self.elements[int(act[1])]  # as an overdue job that a Java queue then offers at its moment
                self.given += given_ids(act)

    def attempts(self) -> dict[str, list[int]]:
        """The attempts of each payload, in the order in which they were offered."""
        attempts: dict[str, list[int]] = {}
        for _, element in sorted(self.elements.items()):
            attempts.setdefault(element.payload, []).append(element.attempt)
        return attempts
