"""Where in a Part 21 file (ISO 10303-21) a fault lies: its line, its instance, its element."""

from __future__ import annotations

import re
from dataclasses import dataclass

INSTANCE = re.compile(rb"#(\d+)\s*=\s*([A-Za-z0-9_]+)\s*\(((?:[^;']|'[^']*')*)\)\s*;", re.DOTALL)
STRING = re.compile(rb"'[^']*'")
REFERENCE = re.compile(rb"#(\d+)")
GUID = re.compile(rb"\s*'([0-9A-Za-z_$]{22})'\s*,")
NAMED = re.compile(rb"\s*'[^']*'\s*,[^,]*,\s*'((?:[^']|'')*)'")
LONGEST_WAY = 12


@dataclass(frozen=True)
class Place:
    """A place in a file, for the one who has to mend it."""

    line: int
    text: str
    element: str = ""


def text_of(spelled: bytes) -> str:
    r"""A text of the file as it reads: `''`, `\\`, `\X\E4`, `\X2\00E4\X0\` and `\S\d` taken in."""

    def wide(found: re.Match[str]) -> str:
        size, digits = (4, found[2]) if found[1] == "2" else (8, found[2])
        codes = [digits[at : at + size] for at in range(0, len(digits) - size + 1, size)]
        return "".join(chr(min(int(code, 16), 0x10FFFF)) for code in codes)

    text = spelled.decode("utf-8", "replace").replace("''", "'")
    text = re.sub(r"\\X([24])\\((?:[0-9A-F]{4})*)\\X0\\", wide, text)
    text = re.sub(r"\\X\\([0-9A-F]{2})", lambda found: chr(int(found[1], 16)), text)
    text = re.sub(r"\\S\\(.)", lambda found: chr(ord(found[1]) + 128), text)
    return text.replace("\\\\", "\\")


def line_at(data: bytes, at: int) -> int:
    """The line, counted from 1, of a place in the bytes."""
    return data.count(b"\n", 0, at) + 1


def _element(number: int, keyword: bytes, values: bytes) -> str:
    """An instance with a GlobalId that is no relation, in words; else nothing."""
    guid = GUID.match(values)
    if not guid or keyword.upper().startswith(b"IFCREL"):
        return ""
    name = NAMED.match(values)
    called = f" {text_of(name[1])!r}" if name and name[1] else ""
    return f"#{number} {keyword.decode('ascii').upper()} {guid[1].decode('ascii')}{called}"


def element_of(data: bytes, number: int) -> str:
    """The nearest object with a GlobalId that is the instance or refers to it over some others."""
    users: dict[int, list[int]] = {}
    objects: dict[int, str] = {}
    for found in INSTANCE.finditer(data):
        own = int(found[1])
        if words := _element(own, found[2], found[3]):
            objects[own] = words
        if found[2].upper().startswith(b"IFCREL"):
            continue
        for used in REFERENCE.findall(STRING.sub(b"", found[3])):
            users.setdefault(int(used), []).append(own)
    seen, level = {number}, [number]
    for _ in range(LONGEST_WAY):
        for one in level:
            if one in objects:
                return objects[one]
        level = [user for one in level for user in users.get(one, []) if user not in seen]
        seen.update(level)
    return ""


def place_of(data: bytes, at: int | None, number: int | None) -> Place | None:
    """Where the fault lies that names a place in the bytes or an instance, if it can be seen."""
    if number:
        found = re.search(rb"(?:^|[;\s])(#%d\s*=[^\n]*)" % number, data)
        if not found:
            return None
        text = found[1].decode("latin-1").strip()[:160]
        return Place(line_at(data, found.start(1)), text, element_of(data, number))
    if at is not None:
        start = data.rfind(b"\n", 0, at) + 1
        end = data.find(b"\n", at)
        text = data[max(start, at - 60) : end if end >= 0 else len(data)][:160]
        return Place(line_at(data, at), text.decode("latin-1").strip())
    return None
