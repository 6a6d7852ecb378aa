"""The document in the words of OpenAPI 3.0, for tools that don't know 3.1 yet.

    python3 -m api_check.as_30 >openapi-3.0.json
"""

from __future__ import annotations

import json
from typing import Any

from .document import Document
from .places import DOCUMENT


def _words_of_30(node: Any) -> Any:
    """The same with `nullable` in place of the type null, and `enum` in place of `const`."""
    if isinstance(node, list):
        return [_words_of_30(it) for it in node]
    if not isinstance(node, dict):
        return node
    node = {key: _words_of_30(value) for key, value in node.items()}
    kinds = node.get("type")
    if isinstance(kinds, list):
        node["type"] = next(it for it in kinds if it != "null")
        node["nullable"] = True
    elif kinds == "null":
        del node["type"]
        node.update(nullable=True, enum=[None])
    if "const" in node:
        node["enum"] = [node.pop("const")]
    return node


def as_30(document: Document) -> dict[str, Any]:
    """The whole document."""
    tree: dict[str, Any] = _words_of_30(document.tree)
    tree["openapi"] = "3.0.3"
    return tree


if __name__ == "__main__":
    print(json.dumps(as_30(Document.read(DOCUMENT)), indent=1, ensure_ascii=False))
