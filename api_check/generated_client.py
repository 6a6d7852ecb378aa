"""Is the document good for a client that a library makes of it?

Perl's OpenAPI::Client is the one that Debian 12 packages. It judges each request by the document before it sends it.
"""

from __future__ import annotations

import json
import subprocess
import tempfile
from pathlib import Path
from typing import Any

from .as_30 import as_30
from .directed import body_name
from .document import Document, Operation
from .places import ROOT
from .scene import BODIES, Scene, guid
from .server import Server
from .wire import Client

SECONDS = 120
SCRIPT = ROOT / "api_check" / "generated_client.pl"
# Called last, since a topic goes with its comments and viewpoints.
LAST = ("deleteViewpoint", "deleteComment", "deleteTopic", "deleteModel")


def _call(operation: Operation, ids: dict[str, str]) -> dict[str, Any]:
    names = [it["name"] for it in operation.of("path")]
    parameters: dict[str, Any] = {name: ids[name] for name in names}
    if any(it["name"] == "X-User" for it in operation.parameters):
        parameters["X-User"] = "eva"
    if operation.name == "listClashes":
        parameters.update(first=0, count=10)
    body = BODIES.get(body_name(operation))
    return {"operation": operation.name, "parameters": parameters, "body": body}


def _calls(document: Document, scene: Scene) -> list[dict[str, Any]]:
    """A call of each operation but the upload, whose body is no JSON. What is deleted goes last."""
    ids = {**scene.ids, "comment_guid": guid(2), "viewpoint_guid": guid(3)}
    others = [it for it in document.operations if it.name not in (*LAST, "putModel", "putRules")]
    order = [*others, *(document.named(it) for it in ("putRules", *LAST))]
    return [_call(it, ids) for it in order]


def check_generated(document: Document, program: str) -> tuple[int, list[str]]:
    """How many calls the client made, and which weren't answered as they must."""
    with Server(program) as server, tempfile.TemporaryDirectory() as folder:
        scene = Scene(Client(server.port))
        scene.make_clash()
        scene.make_topic()
        path = Path(folder) / "openapi.json"
        path.write_text(json.dumps(as_30(document)), encoding="utf-8")
        calls = _calls(document, scene)
        run = subprocess.run(
            ["perl", str(SCRIPT), str(path), str(server.port)],
            input="".join(json.dumps(it) + "\n" for it in calls),
            capture_output=True,
            text=True,
            timeout=SECONDS,
            check=False,
        )
    wanted = []
    for call in calls:
        statuses = document.named(call["operation"]).responses
        wanted.append(f"{call['operation']} {next(it for it in statuses if it < 300)}")
    came = [it.strip() for it in run.stdout.splitlines()]
    faults = [f"wanted {one}, came {other}" for one, other in zip(wanted, came) if one != other]
    if len(came) != len(wanted):
        faults.append(f"{len(came)} of {len(wanted)} calls: {run.stderr.strip()[-300:]}")
    return len(came), faults
