"""Why a history, or what clients recorded of it, can't be read."""


class Wrong(Exception):
    """What a line says is not what a queue does."""


class Damaged(Exception):
    """The line of this number, from 1, is none of such a file, or says what no queue does, or does not continue the run
    before. The file is named where there may be several."""

    def __init__(self, line: int, what: str) -> None:
        super().__init__(line, what)
        self.line, self.what, self.file = line, what, ""

    def __str__(self) -> str:
        return f"{self.file}: line {self.line}: {self.what}" if self.file else f"line {self.line}: {self.what}"


class BadCompression(OSError):
    """A file is damaged as a compressed one."""

    def __init__(self, path: str) -> None:
        super().__init__(0, "damaged as a compressed file", path)
