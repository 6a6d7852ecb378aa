"""Names of models, made of the names of files on any system."""

from __future__ import annotations

import glob
import os
import re
import unicodedata
from dataclasses import dataclass
from pathlib import Path

from .errors import FileFault, UsageFault

MOST_NAME = 64
LETTERS = {
    "ä": "ae",
    "ö": "oe",
    "ü": "ue",
    "Ä": "Ae",
    "Ö": "Oe",
    "Ü": "Ue",
    "ß": "ss",
    "æ": "ae",
    "Æ": "Ae",
    "ø": "o",
    "Ø": "O",
    "ł": "l",
    "Ł": "L",
}


@dataclass(frozen=True)
class Source:
    """A file to upload, and the name that its model gets."""

    name: str
    path: Path


def is_model_name(text: str) -> bool:
    """Whether the server takes a text as the name of a model; dots alone would change the path."""
    return bool(re.fullmatch(r"[A-Za-z0-9_.-]{1,64}", text)) and text.strip(".") != ""


def model_name(path: str) -> str:
    """The name that a file's model gets where none is said.

    It is the last part of the path, behind a slash or a backslash, without `.ifc`, with umlauts
    written out, accents dropped and `_` for all else that a name can't have.
    """
    last = re.split(r"[/\\]", path)[-1]
    last = re.sub(r"\.ifc$", "", last, flags=re.IGNORECASE)
    spelled = "".join(LETTERS.get(c, c) for c in unicodedata.normalize("NFC", last))
    plain = "".join(
        c for c in unicodedata.normalize("NFKD", spelled) if not unicodedata.combining(c)
    )
    name = re.sub(r"[^A-Za-z0-9_.-]+", "_", plain).strip("_")[:MOST_NAME]
    if not is_model_name(name):
        raise UsageFault(f"{path}: no name of a model can be made of it", "write NAME=FILE")
    return name


def expanded(words: list[str]) -> list[str]:
    """The words, with patterns such as `*.ifc` followed where the shell hasn't done it."""
    found: list[str] = []
    for word in words:
        fits = [] if os.path.exists(word) or "*" not in word else sorted(glob.glob(word))
        found += fits or [word]
    return found


def source_of(word: str, name: str | None) -> Source:
    """The file that a word names: FILE, or NAME=FILE where no such file is there."""
    if not os.path.exists(word) and "=" in word:
        front, rest = word.split("=", 1)
        if is_model_name(front):
            name, word = front, rest
    path = Path(word)
    if not path.exists():
        raise FileFault(f"{word}: there is no such file")
    if path.is_dir():
        raise FileFault(f"{word} is a folder", "name the files in it: folder/*.ifc")
    if name is not None and not is_model_name(name):
        raise UsageFault(f"{name!r} is no name of a model", "1 to 64 of A-Z a-z 0-9 _ . -")
    return Source(name or model_name(word), path)


def sources_of(words: list[str], name: str | None) -> list[Source]:
    """The files to upload, each with a name of its own."""
    files = expanded(words)
    if name is not None and len(files) > 1:
        raise UsageFault("--name is for one file", "write NAME=FILE for each of several")
    sources = [source_of(word, name) for word in files]
    first: dict[str, Source] = {}
    for one in sources:
        if one.name in first:
            raise UsageFault(
                f"{first[one.name].path} and {one.path} would both be the model {one.name}",
                "write NAME=FILE",
            )
        first[one.name] = one
    return sources
