"""A small server with triangles, as a later server gives them: the page, one project, one model, nothing else.

Each element is a hilly piece of ground of 9 by 9 fields, so 162 triangles: replies end within an element. What it answers is worked out here alone,
in grid numbers: a millimetre has `per_mm` of them, and of an older server's one, which doesn't say so.
"""
import array
import json
import struct
import threading
from http.server import BaseHTTPRequestHandler, ThreadingHTTPServer
from pathlib import Path
from urllib.parse import parse_qs, urlsplit

PROJECT = "00000001-0000-8000-8000-000000000000"
FIELDS = 9
EACH = 2 * FIELDS * FIELDS
STEP = 100
APART = 1200
KINDS = {".html": "text/html", ".js": "text/javascript", ".css": "text/css", ".svg": "image/svg+xml"}


def ground() -> list[int]:
    """The corners of one element's triangles in millimetres, from its own corner."""

    def point(i: int, j: int) -> list[int]:
        return [i * STEP, j * STEP, (i * 7 + j * 13) % 11 * 20 + (200 if i == j else 0)]

    out: list[int] = []
    for i in range(FIELDS):
        for j in range(FIELDS):
            a, b, c, d = (
                point(i, j),
                point(i + 1, j),
                point(i + 1, j + 1),
                point(i, j + 1),
            )
            out += a + b + c + a + c + d
    return out


class Model:
    """Some elements side by side, with their reply as JSON and their triangles as bytes. `apart` is in millimetres."""

    def __init__(self, elements: int, per_mm: int | None = None, apart: float = APART) -> None:
        wide = max(1, round(elements**0.5))
        per = per_mm or 1
        base = [v * per for v in ground()]
        side = FIELDS * STEP * per
        corners = array.array("i")
        listed = []
        for n in range(elements):
            x, y = (round(v * apart * per) for v in (n % wide, n // wide))
            move = (x, y, 0)
            corners.extend([v + move[k % 3] for k, v in enumerate(base)])
            box = [x, y, 0, x + side, y + side, max(base[2::3])]
            listed.append(
                {
                    "box": box,
                    "class": "IFCSLAB",
                    "guid": "%022d" % n,
                    "name": f"Ground {n}",
                    "storey": None,
                    "triangles": EACH,
                }
            )
        self.total = elements * EACH
        self.bytes = corners.tobytes()
        version = {
            "models": [{"elements": listed, "name": "ground"}],
            "newest": 1,
            **({"per_mm": per_mm} if per_mm else {}),
            "rules": [],
            "version": 1,
        }
        self.version = json.dumps(version).encode()

    def part(self, first: int, count: int) -> bytes:
        """The bytes of so many triangles, with their pieces."""
        end = min(self.total, first + count)
        pieces: list[int] = []
        at = first
        while at < end:
            element, place = divmod(at, EACH)
            size = min(EACH - place, end - at)
            pieces += [element, place, size]
            at += size
        head = [1, first, self.total, len(pieces) // 3]
        numbers = struct.pack(f"<{len(head) + len(pieces)}i", *head, *pieces)
        return numbers + self.bytes[36 * first : 36 * end]


class Fake(ThreadingHTTPServer):
    """
    Serves the page and a model on a free port. `triangles` is the status of their request: 200, 204 or 404. `user` is who has signed in, as a
    front says it; `named` are the names that the page sends.
    """

    daemon_threads = True
    request_queue_size = 64

    def __init__(self, page: Path, model: Model, triangles: int = 200, user: str = "") -> None:
        super().__init__(("127.0.0.1", 0), Handler)
        self.page = page
        self.model = model
        self.triangles = triangles
        self.user = user
        self.named: set[str | None] = set()
        self.asked = 0
        self.address = f"http://127.0.0.1:{self.server_address[1]}/"
        threading.Thread(target=self.serve_forever, daemon=True).start()

    def stop(self) -> None:
        """Ends it."""
        self.shutdown()
        self.server_close()


class Handler(BaseHTTPRequestHandler):
    """One connection."""

    protocol_version = "HTTP/1.1"
    server: Fake

    def log_message(self, *_: object) -> None:
        """Says nothing."""

    def send(self, status: int, kind: str, body: bytes) -> None:
        """A whole reply."""
        self.send_response(status)
        if status != 204:
            self.send_header("Content-Type", kind)
            self.send_header("Content-Length", str(len(body)))
        self.end_headers()
        if status != 204:
            self.wfile.write(body)

    def file(self, path: str) -> None:
        """A file of the page."""
        place = self.server.page / (path.lstrip("/") or "index.html")
        if not place.is_file():
            self.send(404, "text/plain", b"")
            return
        self.send(200, KINDS[place.suffix], place.read_bytes())

    def do_GET(self) -> None:  # noqa: N802
        """The page, or one of the requests that it makes."""
        parts = urlsplit(self.path)
        model = self.server.model
        if not parts.path.startswith(("/coord/", "/bcf/")):
            self.file(parts.path)
            return
        self.server.named.add(self.headers["X-User"])
        if parts.path == "/bcf/3.0/current-user":
            who = {"id": "7", "name": self.server.user}
            self.send(200 if self.server.user else 204, "application/json", json.dumps(who).encode())
        elif parts.path.endswith("/triangles"):
            self.server.asked += 1
            query = parse_qs(parts.query)
            first, count = int(query["first"][0]), int(query["count"][0])
            body = model.part(first, count) if self.server.triangles == 200 else b""
            self.send(self.server.triangles, "application/octet-stream", body)
        elif parts.path.endswith("/clashes"):
            body = b'{"clashes":[],"first":0,"total":0,"version":1}'
            self.send(200, "application/json", body)
        elif parts.path.endswith("/topics"):
            self.send(200, "application/json", b"[]")
        elif parts.path.endswith("/projects"):
            body = json.dumps([{"name": "Fake", "project_id": PROJECT}]).encode()
            self.send(200, "application/json", body)
        else:
            self.send(200, "application/json", model.version)
