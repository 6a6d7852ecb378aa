"""The text that the bytes between two apostrophes give."""

import re
from re import Match

HEX = rb"[0-9A-Fa-f]"
PIECE = re.compile(
    rb"(?P<backslash>\\\\)"
    rb"|\\X\\(?P<one>" + HEX + rb"{2})"
    rb"|\\X2\\(?P<two>(?:" + HEX + rb"{4})+)\\X0\\"
    rb"|\\X4\\(?P<four>(?:" + HEX + rb"{8})+)\\X0\\"
    rb"|\\S\\(?P<shifted>[ -~])"
    rb"|(?P<page>\\P[A-I]\\)"
    rb"|(?P<utf8>[\xc2-\xdf][\x80-\xbf]|\xe0[\xa0-\xbf][\x80-\xbf]|\xed[\x80-\x9f][\x80-\xbf]"
    rb"|[\xe1-\xec\xee\xef][\x80-\xbf]{2}|\xf0[\x90-\xbf][\x80-\xbf]{2}"
    rb"|[\xf1-\xf3][\x80-\xbf]{3}|\xf4[\x80-\x8f][\x80-\xbf]{2})"
    rb"|(?P<byte>[\x00-\xff])"
)
DROPPED = bytes(range(32))


def character(code: int) -> str:
    """The character of a code, a replacement where there is none."""
    return chr(code) if code <= 0x10FFFF and not 0xD800 <= code < 0xE000 else "\ufffd"


def groups(digits: bytes, size: int) -> str:
    return "".join(character(int(digits[at : at + size], 16)) for at in range(0, len(digits), size))


def piece(found: Match[bytes]) -> str:
    """The characters of one spelling."""
    kind, text = found.lastgroup, found.group(found.lastgroup or 0)
    if kind == "backslash":
        return "\\"
    if kind in ("one", "two", "four"):
        return groups(text, {"one": 2, "two": 4, "four": 8}[kind])
    if kind == "shifted":
        return chr(text[0] + 128)
    if kind == "page":
        return ""
    return text.decode() if kind == "utf8" else chr(text[0])


def text_of(spelled: bytes) -> str:
    """The text: apostrophes are paired first, then bytes below 32 are dropped."""
    plain = spelled.replace(b"''", b"'").translate(None, DROPPED)
    return "".join(map(piece, PIECE.finditer(plain)))
