"""The items of a file of code and what they promise: their clauses, by text alone."""

import re
from collections.abc import Iterator
from dataclasses import dataclass, field

ITEM = re.compile(
    r"(?P<pub>pub(?P<within>\([^)]*\))? )?(?:const )?(?:unsafe )?"
    r"(?P<kind>fn|struct|enum|trait|type|impl|mod|use|static|const|ghost use|ghost)\b\s*"
    r"(?P<name>[\w:]*)"
)
CLAUSE = re.compile(r"(?:\b(?:requires|ensures|decreases)(?:\s+[\w'-]+)?|\bghost\b[^;{}]*)\s*$")
SKIPPED = re.compile(
    r"//[^\n]*|/\*.*?\*/|\"(?:[^\"\\]|\\.)*\"|b?'(?:[^'\\\n]|\\[^\n])[^'\n]{0,8}?'", re.S
)
CLOSING = {"(": ")", "[": "]", "{": "}"}


@dataclass
class Item:
    """An item: what kind it is, its name, whether all may use it, its text without its body, and
    the items within it."""

    kind: str
    name: str
    public: bool
    text: str
    within: list["Item"] = field(default_factory=list)


def without_words(source: str) -> str:
    """The code with its comments and its texts blanked, so that brackets pair."""
    return SKIPPED.sub(lambda m: re.sub(r"[^\n]", " ", m[0]), source)


def end_of(text: str, at: int) -> int:
    """The place behind the bracket that closes the one at a place."""
    open_brackets = []
    for place in range(at, len(text)):
        letter = text[place]
        if letter in CLOSING:
            open_brackets.append(CLOSING[letter])
        elif open_brackets and letter == open_brackets[-1]:
            open_brackets.pop()
            if not open_brackets:
                return place + 1
    return len(text)


def items(text: str) -> Iterator[Item]:
    """The items of a text without comments."""
    at = 0
    while at < len(text):
        if text[at].isspace() or text[at] in ";,}":
            at += 1
        elif text[at] == "#":
            at = end_of(text, text.index("[", at))
        else:
            at, item = item_at(text, at)
            if item:
                yield item


def item_at(text: str, start: int) -> tuple[int, Item | None]:
    """The item that begins at a place, and the place behind it."""
    head = ITEM.match(text, start)
    kind = head["kind"] if head else ""
    at, said, body = start, "", ""
    while at < len(text) and text[at] != ";":
        if text[at] not in CLOSING:
            said += text[at]
            at += 1
            continue
        end = end_of(text, at)
        if text[at] == "{" and kind in ("fn", "impl", "trait", "mod") and not CLAUSE.search(said):
            body, at = text[at + 1 : end - 1], end
            break
        said += text[at:end]
        ends_item = text[at] == "{" and kind in ("struct", "enum")
        at = end
        if ends_item:
            break
    if not head:
        return max(at, start + 1), None
    inner = list(items(body)) if kind in ("impl", "trait", "mod") else []
    public = head["pub"] is not None and head["within"] is None
    return max(at, start + 1), Item(kind, head["name"].rstrip(":"), public, said, inner)


def implemented(item: Item) -> tuple[str, str]:
    """Of an impl: the trait, if there is one, and the type."""
    said = item.text.removeprefix("impl").strip()
    if said.startswith("<"):
        depth = 0
        for at, letter in enumerate(said):
            depth += (letter == "<") - (letter == ">" and said[at - 1] != "-")
            if depth == 0:
                said = said[at + 1 :]
                break
    said = re.split(r"\bwhere\b", said)[0]
    first, _, second = said.partition(" for ")
    names = [re.findall(r"\w+", re.sub(r"<.*", "", part, flags=re.S)) for part in (first, second)]
    if second:
        return (names[0] or [""])[-1], (names[1] or [""])[-1]
    return "", (names[0] or [""])[-1]
