"""Why a request isn't answered as it asks, or can't be answered here."""

from typing import Any

Tree = dict[str, Any]
# A status, a body, the turn where one is taken, and the methods of Allow.
Answer = tuple[int, Any, int | None, list[str]]


class Beyond(Exception):
    """The stream asks for what this program doesn't know."""


class Fault(Exception):
    """A fault of a request's bytes, which ends the connection."""

    def __init__(self, name: str) -> None:
        super().__init__(name)
        self.name = name


class Unfinished(Exception):
    """The bytes end within a request."""


class Refused(Exception):
    """A fault of a request or its body: its code, its name, the status of the reply, and its
    fields."""

    def __init__(self, code: str, word: str, status: int = 422, **fields: object) -> None:
        super().__init__(code, word)
        self.code, self.word, self.status, self.fields = code, word, status, fields

    def answer(self) -> Answer:
        return self.status, error(self.code, self.word, **self.fields), None, []


def error(code: str, word: str, **fields: object) -> Tree:
    return dict(fields, code=code, message=f"{code} {word}")
