"""The tokens of a Part 21 file, cut from the left, the longest spelling each time."""

import re
from typing import NamedTuple

from tests.oracle.faults import Refused

SKIPPED = re.compile(rb"(?:[\x09-\x0d ]+|/\*.*?\*/)*", re.DOTALL)
TOKEN = re.compile(
    rb"(?P<word>!?[A-Za-z_][A-Za-z0-9_\-]*)"
    rb"|(?P<name>#[0-9]+)"
    rb"|(?P<number>[+-]?[0-9]+(?:\.[0-9]*)?(?:[Ee][+-]?[0-9]+)?)"
    rb"|(?P<text>'[^']*(?:''[^']*)*')"
    rb"|(?P<enumeration>\.[A-Za-z_][A-Za-z0-9_]*\.)"
    rb'|(?P<bits>"[0-9A-Fa-f]+")'
    rb"|(?P<single>[(),;=$*])"
)
MARK = b"\xef\xbb\xbf"
MOST_NAME = 2**63 - 1


class Token(NamedTuple):
    """A token: its kind, its spelling, where it begins."""

    kind: str
    text: bytes
    at: int


def bad_token(at: int) -> Refused:
    return Refused("U2", "BadToken", at=at)


def bad_statement(at: int) -> Refused:
    return Refused("U3", "BadStatement", at=at)


def value_of_name(digits: bytes) -> int | None:
    """The number of an instance name; None where it is too large."""
    digits = digits.lstrip(b"0")
    value = int(digits or b"0") if len(digits) < 20 else MOST_NAME + 1
    return value if value <= MOST_NAME else None


def longest_name(text: bytes) -> bytes:
    """The longest beginning of a name whose value fits."""
    while value_of_name(text[1:]) is None:
        text = text[:-1]
    return text


class Tokens:
    """The tokens of a file, one after another."""

    def __init__(self, data: bytes) -> None:
        self.data, self.at = data, 3 if data.startswith(MARK) else 0

    def take(self) -> Token | None:
        """The next token, None at the end of the bytes; U2 where none begins."""
        skipped = SKIPPED.match(self.data, self.at)
        at = skipped.end() if skipped else self.at
        if at == len(self.data):
            self.at = at
            return None
        found = TOKEN.match(self.data, at)
        if not found or not found.lastgroup:
            raise bad_token(at)
        text = found.group()
        if found.lastgroup == "name":
            text = longest_name(text)
        self.at = at + len(text)
        return Token(found.lastgroup, text, at)

    def need(self) -> Token:
        """The next token; U3 where the bytes end."""
        token = self.take()
        if token is None:
            raise bad_statement(len(self.data))
        return token

    def expect(self, *texts: bytes) -> Token:
        """The next token, which has to be one of these words or single characters."""
        token = self.need()
        if token.kind not in ("word", "single") or token.text.upper() not in texts:
            raise bad_statement(token.at)
        return token
