"""One request and its answer, and which requests may be asked again."""

from __future__ import annotations

import sys
import time
from collections.abc import Callable
from dataclasses import dataclass
from typing import Any

try:
    import requests
    from requests import exceptions as broken
    from requests.auth import HTTPBasicAuth
except ModuleNotFoundError:
    sys.exit("yulfrets: Python has no module requests: apt-get install python3-requests")

from .errors import Refused, Unknown, Unreachable
from .settings import Settings

CUT = 0
"""Stands for the status of an answer that never came whole."""
CONNECT_SECONDS = 5.0
LONGEST_PAUSE = 30.0


@dataclass(frozen=True)
class Answer:
    """A whole answer: its status and its JSON."""

    status: int
    body: Any


def may_ask_again(method: str, status: int) -> bool:
    """Whether a request may be repeated after such an answer.

    429 and 503 say that nothing was changed. After 502, 504 or a cut a change may have been made,
    so only what changes nothing is asked again.
    """
    return status in (429, 503) or (method == "GET" and status in (CUT, 502, 504))


def pause_before(attempt: int, retry_after: str | None) -> float:
    """How many seconds to wait before the next attempt."""
    if retry_after is not None and retry_after.strip().isdigit():
        return min(float(retry_after), LONGEST_PAUSE)
    return float(min(0.2 * 2**attempt, LONGEST_PAUSE))


class Transport:
    """Requests to one server over one connection that is kept."""

    def __init__(self, settings: Settings) -> None:
        self.settings = settings
        self.turn: int | None = None
        self.session = requests.Session()
        self.session.headers["Accept"] = "application/json"
        if settings.user and settings.password:
            # as bytes, since the library would write texts in Latin-1
            name, word = settings.user.encode(), settings.password.encode()
            self.session.auth = HTTPBasicAuth(name, word)

    def close(self) -> None:
        """Gives the connection back, so that it holds none of the server's lanes."""
        self.session.close()

    def ask(
        self,
        method: str,
        path: str,
        *,
        json: Any = None,
        body: Callable[[], Any] | None = None,
        user: str | None = None,
    ) -> Answer:
        """Sends a request, as often as it may be repeated, and returns its answer.

        `body` makes the bytes anew for each attempt. Answers of 400 and above are raised.
        """
        attempt = 0
        while True:
            status, answer = self._once(method, path, json, body, user)
            last = attempt + 1 >= self.settings.tries or not may_ask_again(method, status)
            if answer is not None and (status < 400 or last):
                return self._judged(method, answer)
            if last:
                raise self._cut(method)
            wait = answer.headers.get("Retry-After") if answer is not None else None
            time.sleep(pause_before(attempt, wait))
            attempt += 1

    def _once(
        self, method: str, path: str, json: Any, body: Callable[[], Any] | None, user: str | None
    ) -> tuple[int, requests.Response | None]:
        """One attempt: the status with the answer, or CUT where it didn't come whole."""
        name = user or self.settings.user
        try:
            answer = self.session.request(
                method,
                self.settings.url + path,
                json=json,
                data=body() if body else None,
                headers={"X-User": name.strip().encode()} if name else None,
                timeout=(CONNECT_SECONDS, self.settings.timeout),
                verify=self.settings.ca or True,
                allow_redirects=False,
            )
        except (broken.SSLError, broken.ProxyError, broken.ConnectTimeout) as fault:
            raise self._unreachable(fault) from fault
        except (broken.ConnectionError, broken.Timeout, broken.ChunkedEncodingError) as fault:
            if "NewConnectionError" in repr(fault):
                raise self._unreachable(fault) from fault
            return CUT, None
        except broken.RequestException as fault:
            raise Unreachable(f"{self.settings.url}: {fault}") from fault
        length = answer.headers.get("Content-Length", "")
        if length.isdigit() and answer.raw.tell() < int(length):
            return CUT, None
        self.turn = int(answer.headers.get("X-Book-Turn", self.turn or 0)) or None
        return answer.status_code, answer

    def _unreachable(self, fault: Exception) -> Unreachable:
        """Why no connection came about."""
        where = self.settings.url
        if isinstance(fault, broken.SSLError):
            return Unreachable(
                f"{where}: the server's certificate isn't trusted, or it speaks no TLS",
                "give the certificate that signed it by --ca FILE or YULFRETS_CA",
                reason=str(fault)[:300],
            )
        return Unreachable(
            f"{where}: no server answers there",
            "see that it runs, and give its address by --url or YULFRETS_URL",
        )

    def _cut(self, method: str) -> Unreachable | Unknown:
        """The connection ended, or the time was over, before the answer was whole."""
        if method == "GET":
            return Unreachable(
                f"{self.settings.url}: the connection was cut before the answer was whole",
                "nothing was changed: try again later",
            )
        return Unknown(
            f"{self.settings.url}: the connection was cut, so it isn't known whether the change"
            " was made",
            "look before you repeat it: yulfrets versions, yulfrets topics",
            **({"last_turn": self.turn} if self.turn else {}),
        )

    def _judged(self, method: str, answer: requests.Response) -> Answer:
        """The answer, or the failure that its status says."""
        status = answer.status_code
        try:
            body = answer.json()
        except ValueError:
            body = None
        if status < 300 and body is not None:
            return Answer(status, body)
        if status in (502, 504) and method != "GET":
            raise Unknown(
                f"{self.settings.url}: {status} from a proxy, so it isn't known whether the change"
                " was made",
                "look before you repeat it: yulfrets versions, yulfrets topics",
            )
        if isinstance(body, dict) and isinstance(body.get("code"), str):
            raise refusal(status, body)
        raise stranger(self.settings.url, status, answer.headers.get("Location"))


def refusal(status: int, body: dict[str, Any]) -> Refused | Unreachable:
    """An answer with a code as a failure; `message` is the code and its name."""
    rest = {name: value for name, value in body.items() if name not in ("code", "message")}
    message = str(body.get("message", body["code"]))
    if status in (429, 502, 503, 504):
        return Unreachable(f"the server is busy: {message}", "try again later", http=status)
    return Refused(message, "", str(body["code"]), http=status, **rest)


def stranger(url: str, status: int, location: str | None) -> Refused | Unreachable:
    """An answer that isn't one of this server's."""
    if status == 401:
        return Refused("401: a name and a password are asked for", "--user, YULFRETS_PASSWORD")
    if status == 403:
        return Refused(
            "403: this user may not do that", "ask for the rights, or use another --user"
        )
    if status in (429, 502, 503, 504):
        return Unreachable(
            f"{url}: {status}, the server behind it is busy or down", "try again later"
        )
    if location and 300 <= status < 400:
        return Unreachable(f"{url}: {status}, it sends to {location}", "give that address by --url")
    return Unreachable(
        f"{url}: {status}, and the answer isn't that of a Yulfrets server", "check --url"
    )
