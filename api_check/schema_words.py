"""JSON Schema 2020-12 with the words that the document adds, and with whole numbers as the server reads them."""

from __future__ import annotations

from collections.abc import Iterator
from typing import Any

from jsonschema import Draft202012Validator
from jsonschema.exceptions import ValidationError
from jsonschema.validators import extend

from .document import Document, Node


def _is_whole(_checker: Any, value: Any) -> bool:
    return isinstance(value, int) and not isinstance(value, bool)


def _max_bytes(_it: Any, most: int, value: Any, _schema: Any) -> Iterator[ValidationError]:
    if isinstance(value, str) and len(value.encode("utf-8", "surrogatepass")) > most:
        yield ValidationError(f"{len(value.encode())} bytes, at most {most}")


def _items(value: Any) -> list[Any]:
    return value if isinstance(value, list) else []


def component_count(components: Any) -> int:
    """How many components a viewpoint has in its selection, its colorings and its exceptions."""
    if not isinstance(components, dict):
        return 0
    shown = components.get("visibility")
    exceptions = _items(shown.get("exceptions")) if isinstance(shown, dict) else []
    colored = [
        _items(it.get("components"))
        for it in _items(components.get("coloring"))
        if isinstance(it, dict)
    ]
    return len(_items(components.get("selection"))) + len(exceptions) + sum(map(len, colored))


def _max_components(_it: Any, most: int, value: Any, _schema: Any) -> Iterator[ValidationError]:
    if component_count(value) > most:
        yield ValidationError(f"{component_count(value)} components, at most {most}")


_WORDS = extend(
    Draft202012Validator,
    {"x-max-bytes": _max_bytes, "x-max-components": _max_components},
    type_checker=Draft202012Validator.TYPE_CHECKER.redefine("integer", _is_whole),
)


class Schemas:
    """Judges values by schemas of the document."""

    def __init__(self, document: Document) -> None:
        self._components = document.tree["components"]
        self._kept: dict[int, Any] = {}

    def _validator(self, schema: Node) -> Any:
        found = self._kept.get(id(schema))
        if found is None:
            found = _WORDS({**schema, "components": self._components})
            self._kept[id(schema)] = found
        return found

    def fault(self, schema: Node, value: Any) -> str | None:
        """Why the schema doesn't take the value, or nothing."""
        error = next(self._validator(schema).iter_errors(value), None)
        if error is None:
            return None
        return f"at /{'/'.join(map(str, error.absolute_path))}: {error.message[:200]}"

    def takes(self, schema: Node, value: Any) -> bool:
        """Whether the schema takes the value."""
        return bool(self._validator(schema).is_valid(value))
