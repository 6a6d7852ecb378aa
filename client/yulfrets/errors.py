"""What ends a command early, and the exit statuses that scripts see."""

from __future__ import annotations

from enum import IntEnum
from typing import Any


class ExitStatus(IntEnum):
    """The exit statuses of the command; docs/CLIENT.md explains each.

    Python itself ends a program that breaks with 1, so no answer has that status.
    """

    DONE = 0
    USAGE = 2
    REFUSED = 3
    UNREACHABLE = 4
    UNKNOWN = 5
    FILES = 6
    UNFINISHED = 7
    LEFT_OUT = 8
    NEW_CLASHES = 9
    INTERRUPTED = 130


class Failure(Exception):
    """Ends a command: one line that says what is wrong, a hint what to do, and the status."""

    status = ExitStatus.USAGE

    def __init__(self, message: str, hint: str = "", **fields: Any) -> None:
        super().__init__(message)
        self.message, self.hint, self.fields = message, hint, fields

    def as_json(self) -> dict[str, Any]:
        """The same as an object, for `--json`."""
        record: dict[str, Any] = {"status": int(self.status), "message": self.message}
        if self.hint:
            record["hint"] = self.hint
        return record | self.fields


class UsageFault(Failure):
    """Words of the command line that don't go together."""

    status = ExitStatus.USAGE


class Refused(Failure):
    """The server, the converter or a check refuses what it was given."""

    status = ExitStatus.REFUSED

    def __init__(self, message: str, hint: str = "", code: str = "", **fields: Any) -> None:
        super().__init__(message, hint, **({"code": code} if code else {}), **fields)
        self.code = code


class Unreachable(Failure):
    """No answer, and nothing was changed."""

    status = ExitStatus.UNREACHABLE


class Unknown(Failure):
    """A change was sent and not answered: it may have been made or not."""

    status = ExitStatus.UNKNOWN


class FileFault(Failure):
    """A file of this machine can't be read or written."""

    status = ExitStatus.FILES


class Unfinished(Failure):
    """The server was still looking for clashes when the time was over."""

    status = ExitStatus.UNFINISHED
