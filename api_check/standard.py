"""Is the document valid by the standard's own schema?

Debian 12 packages the official schemas of OpenAPI up to 3.0 (`openapi-specification`), and no validator of 3.1
(there is no `openapi-spec-validator`, no `referencing`). So the document is checked in two steps: all of it but
the insides of its schemas by the official schema of 3.0, once the few words in which 3.1 differs are put back; and
each schema in it by the meta-schema of JSON Schema 2020-12, which 3.1 names as its own.
"""

from __future__ import annotations

import json
import re
from collections.abc import Iterator
from typing import Any

from jsonschema import Draft4Validator, Draft202012Validator
from jsonschema.exceptions import SchemaError

from .as_30 import as_30
from .document import METHODS, Document
from .places import STANDARD


def by_the_standard(document: Document) -> list[str]:
    """The faults by the official schema."""
    faults = []
    version = str(document.tree.get("openapi"))
    if not re.fullmatch(r"3\.1\.\d+", version):
        faults.append(f"openapi: {version} isn't 3.1")
    with STANDARD.open(encoding="utf-8") as file:
        official = json.load(file)
    for error in Draft4Validator(official).iter_errors(as_30(document)):
        deepest = max(error.context or [error], key=lambda it: len(it.absolute_path))
        where = "/".join(map(str, deepest.absolute_path))
        faults.append(f"{where}: {deepest.message[:160]}")
    return faults


def _schemas(node: Any, where: str = "") -> Iterator[tuple[str, Any]]:
    """All schemas that aren't part of another, with their places."""
    if isinstance(node, list):
        for index, it in enumerate(node):
            yield from _schemas(it, f"{where}/{index}")
    elif isinstance(node, dict):
        for key, it in node.items():
            if key == "schema":
                yield f"{where}/schema", it
            elif key == "schemas":
                for name, schema in it.items():
                    yield f"{where}/schemas/{name}", schema
            elif key not in ("value", "examples"):
                yield from _schemas(it, f"{where}/{key}")


def by_json_schema(document: Document) -> list[str]:
    """The faults of the schemas by the meta-schema of 2020-12."""
    faults = []
    for where, schema in _schemas(document.tree):
        try:
            Draft202012Validator.check_schema(schema)
        except SchemaError as error:
            faults.append(f"{where}: {error.message[:160]}")
    return faults


def _references(node: Any, where: str = "") -> Iterator[tuple[str, str]]:
    if isinstance(node, dict):
        if isinstance(node.get("$ref"), str):
            yield where, node["$ref"]
        for key, it in node.items():
            yield from _references(it, f"{where}/{key}")
    elif isinstance(node, list):
        for index, it in enumerate(node):
            yield from _references(it, f"{where}/{index}")


def _mappings(node: Any) -> Iterator[dict[str, str]]:
    if isinstance(node, dict):
        if isinstance(node.get("discriminator"), dict):
            yield node["discriminator"].get("mapping", {})
        for it in node.values():
            yield from _mappings(it)
    elif isinstance(node, list):
        for it in node:
            yield from _mappings(it)


def _leads_somewhere(document: Document, reference: str) -> bool:
    try:
        document.at({"$ref": reference})
    except (KeyError, TypeError):
        return False
    return reference.startswith("#/")


def by_references(document: Document) -> list[str]:
    """References that lead nowhere, components that nobody names, and codes that are mapped wrongly."""
    found = list(_references(document.tree))
    faults = [f"{at}: {to} leads nowhere" for at, to in found if not _leads_somewhere(document, to)]
    used = {to for _, to in found}
    for mapping in _mappings(document.tree):
        for code, to in mapping.items():
            used.add(to)
            if not _leads_somewhere(document, to):
                faults.append(f"discriminator: {to} leads nowhere")
            elif document.at({"$ref": to})["properties"]["code"].get("const") != code:
                faults.append(f"discriminator: {code} is mapped to {to}")
    for kind, parts in document.tree["components"].items():
        for name in parts:
            named = f"#/components/{kind}/{name}"
            if named not in used and kind != "securitySchemes" and name != "Error":
                faults.append(f"{named} isn't used")
    return faults


def by_operations(document: Document) -> list[str]:
    """Operations without a name of their own, tag, summary or a parameter for each part of the path."""
    faults, names = [], set()
    tags = {it["name"] for it in document.tree["tags"]}
    for path, item in document.tree["paths"].items():
        for method in METHODS:
            if method not in item:
                continue
            node = item[method]
            name = node.get("operationId", "")
            if not re.fullmatch("[a-z][A-Za-z]+", name) or name in names:
                faults.append(
                    f"{method} {path}: operationId {name!r} isn't a name, or isn't the only one"
                )
            names.add(name)
            if not node.get("tags") or set(node["tags"]) - tags or not node.get("summary"):
                faults.append(f"{name}: a tag that isn't described, or no summary")
    for operation in document.operations:
        parts = set(re.findall(r"\{(\w+)\}", operation.path))
        if parts != {it["name"] for it in operation.of("path")}:
            faults.append(f"{operation.name}: parameters of the path")
    return faults
