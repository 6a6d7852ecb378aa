"""The OpenAPI document, with its operations and the responses that each may have."""

from __future__ import annotations

import re
from collections.abc import Iterator, Mapping
from dataclasses import dataclass
from functools import cached_property
from pathlib import Path
from typing import Any

import yaml

METHODS = ("get", "put", "post", "delete", "options", "head", "patch", "trace")
Node = Mapping[str, Any]


@dataclass(frozen=True)
class Header:
    """A header that a response has, or may have."""

    required: bool
    schema: Node


@dataclass(frozen=True)
class Response:
    """What is described of a response: its headers, its media type and the schema of its body."""

    headers: Mapping[str, Header]
    media: str
    schema: Node
    examples: Mapping[str, Node]


@dataclass(frozen=True, repr=False)
class Operation:
    """A method of a path."""

    name: str
    method: str
    path: str
    parameters: tuple[Node, ...]
    body: Mapping[str, Node]
    responses: Mapping[int, Response]

    def fits(self, method: str, path: str) -> bool:
        """Whether a request of this method and path is for this operation."""
        pattern = re.sub(r"\\\{\w+\\\}", "[^/]+", re.escape(self.path))
        return method == self.method and re.fullmatch(pattern, path) is not None

    def of(self, place: str) -> list[Node]:
        """The parameters in the path, the query or a header."""
        return [it for it in self.parameters if it["in"] == place]


class Document:
    """A document that was read. All references lead into the document itself."""

    def __init__(self, tree: dict[str, Any]) -> None:
        self.tree = tree

    @classmethod
    def read(cls, path: Path) -> Document:
        """Reads a YAML file."""
        with path.open(encoding="utf-8") as file:
            return cls(yaml.load(file, Loader=getattr(yaml, "CSafeLoader", yaml.SafeLoader)))

    def at(self, node: Any) -> Any:
        """The node, or what its reference leads to."""
        while isinstance(node, dict) and "$ref" in node:
            found: Any = self.tree
            for part in node["$ref"].removeprefix("#/").split("/"):
                found = found[part]
            node = found
        return node

    def response(self, node: Node) -> Response:
        """What is described of one response."""
        tree = self.at(node)
        media, content = next(iter(tree["content"].items()))
        headers = {
            name: Header(bool(self.at(it).get("required")), self.at(it)["schema"])
            for name, it in tree.get("headers", {}).items()
        }
        return Response(headers, media, content["schema"], content.get("examples", {}))

    def _operation(self, path: str, method: str, item: Node) -> Operation:
        node = item[method]
        return Operation(
            name=node["operationId"],
            method=method.upper(),
            path=path,
            parameters=tuple(
                self.at(it) for it in [*item.get("parameters", []), *node.get("parameters", [])]
            ),
            body=self.at(node.get("requestBody", {})).get("content", {}),
            responses={int(status): self.response(it) for status, it in node["responses"].items()},
        )

    @cached_property
    def operations(self) -> tuple[Operation, ...]:
        """All operations, in the order of the document."""
        return tuple(
            self._operation(path, method, item)
            for path, item in self.tree["paths"].items()
            for method in METHODS
            if method in item
        )

    @cached_property
    def others(self) -> Mapping[int, Response]:
        """The responses to requests that are none of the operations."""
        return {
            int(status): self.response(it) for status, it in self.tree["x-other-requests"].items()
        }

    def named(self, name: str) -> Operation:
        """The operation of this name."""
        return next(it for it in self.operations if it.name == name)

    @cached_property
    def errors(self) -> Mapping[str, Node]:
        """The schema of each code that is described."""
        schemas = self.tree["components"]["schemas"]
        found = {}
        for schema in schemas.values():
            code = schema.get("properties", {}).get("code", {}).get("const")
            if code is not None:
                found[code] = schema
        return found

    def codes_of(self, schema: Node) -> Iterator[str]:
        """The codes that a schema of a response takes."""
        tree = self.at(schema)
        if "oneOf" in tree:
            for part in tree["oneOf"]:
                yield from self.codes_of(part)
        elif "const" in tree.get("properties", {}).get("code", {}):
            yield tree["properties"]["code"]["const"]
