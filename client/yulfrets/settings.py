"""Where the server is and who asks: from the command line, else from the environment."""

from __future__ import annotations

import os
from argparse import Namespace
from dataclasses import dataclass
from urllib.parse import urlsplit

from .errors import UsageFault

DEFAULT_URL = "http://127.0.0.1:8080"
MOST_USER = 128
LOOPBACK = {"127.0.0.1", "localhost", "::1"}


@dataclass(frozen=True)
class Settings:
    """How the server is reached."""

    url: str = DEFAULT_URL
    user: str | None = None
    password: str | None = None
    project: str | None = None
    ca: str | None = None
    timeout: float = 130.0
    tries: int = 5


def checked_url(text: str) -> str:
    """The address without a slash at its end, or a fault that says what is wrong with it."""
    try:
        parts = urlsplit(text)
        bad = parts.scheme not in ("http", "https") or not parts.hostname or parts.port == 0
    except ValueError:
        bad = True
    if bad:
        raise UsageFault(
            f"{text!r} is no address of a server", "give one such as https://bim.example.org"
        )
    if parts.query or parts.fragment or parts.username:
        raise UsageFault(
            f"{text!r}: an address has no query, fragment or name in it",
            "give the name by --user and the password by YULFRETS_PASSWORD",
        )
    return text.rstrip("/")


def settings_of(words: Namespace) -> Settings:
    """The settings that the words and the environment give; words come first."""

    def value(name: str) -> str | None:
        said: str | None = getattr(words, name, None)
        return said if said is not None else os.environ.get(f"YULFRETS_{name.upper()}") or None

    url = checked_url(value("url") or DEFAULT_URL)
    user, password = value("user"), os.environ.get("YULFRETS_PASSWORD") or None
    if user is not None and not 1 <= len(user.encode()) <= MOST_USER:
        raise UsageFault(f"a user's name has 1 to {MOST_USER} bytes")
    if user is not None and not user.isprintable():
        raise UsageFault("a user's name has no control characters")
    if password and not user:
        raise UsageFault("there is a password and no name", "give the name by --user")
    if password and url.startswith("http:") and urlsplit(url).hostname not in LOOPBACK:
        raise UsageFault("the password would be sent unencrypted", "use an address with https://")
    ca = value("ca")
    if ca is not None and not os.path.exists(ca):
        raise UsageFault(f"{ca}: there is no such file", "--ca names a certificate in PEM form")
    timeout = getattr(words, "timeout", None)
    return Settings(
        url, user, password, value("project"), ca, 130.0 if timeout is None else timeout
    )
