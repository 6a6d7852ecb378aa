"""The bodies of topics, comments, viewpoints and rules: what each says, or why it is refused."""

import json
import re
from collections.abc import Callable, Mapping
from typing import Any

from tests.oracle.dates import date_of, seconds_of
from tests.oracle.faults import Refused, Tree

WORDS = ("topic_type", "topic_status", "priority", "assigned_to", "stage", "description")


def identifier_in(text: str) -> bytes | None:
    """The sixteen bytes of an identifier, in one of the four forms that the crate `uuid` reads;
    else None."""
    hyphenated = "[0-9a-fA-F]{8}-[0-9a-fA-F]{4}-[0-9a-fA-F]{4}-[0-9a-fA-F]{4}-[0-9a-fA-F]{12}"
    forms = [
        "[0-9a-fA-F]{32}",
        hyphenated,
        "\\{" + hyphenated + "\\}",
        "[uU][rR][nN]:[uU][uU][iI][dD]:" + hyphenated,
    ]
    if not any(re.fullmatch(form, text) for form in forms):
        return None
    return bytes.fromhex(re.sub("[^0-9a-fA-F]", "", text)[-32:])


def finite(text: str) -> float:
    if float(text) in (float("inf"), float("-inf")):
        raise ValueError(text)
    return float(text)


def whole(text: str) -> int | float:
    """An integer of 64 bits; any other is read as a float, and so is a zero with a sign."""
    value = int(text)
    return value if text != "-0" and -(2**63) <= value < 2**64 else finite(text)


def constant(text: str) -> float:
    raise ValueError(text)


def depth(tree: object) -> int:
    if isinstance(tree, (dict, list)):
        return 1 + max(map(depth, tree.values() if isinstance(tree, dict) else tree), default=0)
    return 0


def object_in(body: bytes) -> Tree:
    """The object of a body, as serde_json reads it: at most 127 levels, no lone surrogates, no
    number beyond a float."""
    tree: Any = json.loads(
        body.decode(), parse_float=finite, parse_int=whole, parse_constant=constant
    )
    json.dumps(tree, ensure_ascii=False).encode()
    if not isinstance(tree, dict) or depth(tree) > 127:
        raise ValueError("no object")
    return tree


def present(tree: Tree) -> Tree:
    return {name: value for name, value in tree.items() if value is not None}


def is_text(value: object, most: int, least: int = 0) -> bool:
    return isinstance(value, str) and least <= len(value.encode()) <= most


def is_index(value: object) -> bool:
    return isinstance(value, int) and not isinstance(value, bool) and -(2**31) <= value < 2**31


def is_short_list(value: object) -> bool:
    """Whether it is a list of labels."""
    return isinstance(value, list) and len(value) <= 20 and all(is_text(v, 256) for v in value)


def is_date(value: object) -> bool:
    return isinstance(value, str) and seconds_of(value) is not None


def is_identifier(value: object) -> bool:
    return isinstance(value, str) and identifier_in(value) is not None


def is_ifc_guid(value: object) -> bool:
    return isinstance(value, str) and re.fullmatch("[0-9A-Za-z_$]{22}", value) is not None


def member_fault(name: str) -> Refused:
    return Refused("B4", "BadMember", name=name)


def check_members(tree: Tree, checks: Mapping[str, Callable[[object], bool]]) -> None:
    """Refuses the first member by its bytes that fails its check."""
    for name in sorted(checks):
        if name in tree and not checks[name](tree[name]):
            raise member_fault(name)


def topic_in(tree: Tree) -> Tree:
    """The members of a topic."""
    tree = present(tree)
    if not is_text(tree.get("title"), 1024, 1):
        raise Refused("B3", "Title")
    checks: dict[str, Callable[[object], bool]] = {
        name: lambda value: is_text(value, 4096) for name in WORDS
    }
    check_members(tree, {**checks, "index": is_index, "labels": is_short_list, "due_date": is_date})
    body = {name: tree[name] for name in ("title", "index", *WORDS) if name in tree}
    if tree.get("labels"):
        body["labels"] = tree["labels"]
    if "due_date" in tree:
        body["due_date"] = date_of(seconds_of(tree["due_date"]) or 0)
    return body


def comment_in(tree: Tree) -> tuple[str, bytes | None]:
    """A comment's text, and the identifier of its viewpoint."""
    tree = present(tree)
    if not is_text(tree.get("comment"), 8192, 1):
        raise member_fault("comment")
    check_members(tree, {"viewpoint_guid": is_identifier})
    return (
        tree["comment"],
        identifier_in(tree["viewpoint_guid"]) if "viewpoint_guid" in tree else None,
    )


def list_in(tree: Tree, name: str) -> list[Any]:
    value = tree.get(name, [])
    if not isinstance(value, list):
        raise member_fault("components")
    return value


def component_in(tree: object) -> Tree:
    if not isinstance(tree, dict):
        raise Refused("B8", "BadComponent")
    tree = present(tree)
    good: dict[str, Callable[[object], bool]] = {
        "ifc_guid": is_ifc_guid,
        "originating_system": lambda value: is_text(value, 64),
        "authoring_tool_id": lambda value: is_text(value, 64),
    }
    if any(name in tree and not good[name](tree[name]) for name in good):
        raise Refused("B8", "BadComponent")
    return {name: tree[name] for name in good if name in tree}


def coloring_in(tree: object) -> tuple[str, list[Any]]:
    """A color, and the components that have it, which are still to be read."""
    tree = present(tree) if isinstance(tree, dict) else {}
    color = tree.get("color")
    if not isinstance(color, str) or not re.fullmatch("#?([0-9a-fA-F]{6}|[0-9a-fA-F]{8})", color):
        raise member_fault("components")
    return color, list_in(tree, "components")


def visibility_in(tree: Tree) -> Tree:
    """The member `visibility` of a viewpoint's components."""
    shown = tree.get("visibility", {})
    if not isinstance(shown, dict):
        raise member_fault("components")
    shown = present(shown)
    if not isinstance(shown.get("default_visibility", False), bool):
        raise member_fault("components")
    return shown


def view_in(tree: Tree) -> tuple[Tree, Tree]:
    """A viewpoint's own members, and its three parts."""
    tree = present(tree)
    given = tree.get("components", {})
    if not isinstance(given, dict):
        raise member_fault("components")
    given = present(given)
    shown = visibility_in(given)
    selection, exceptions = list_in(given, "selection"), list_in(shown, "exceptions")
    coloring = [coloring_in(item) for item in list_in(given, "coloring")]
    check_members(tree, {"index": is_index})
    body = {
        "selection": [component_in(item) for item in selection],
        "coloring": [
            {"color": color, "components": [component_in(item) for item in items]}
            for color, items in coloring
        ],
        "visibility": {
            "default_visibility": shown.get("default_visibility", False),
            "exceptions": [component_in(item) for item in exceptions],
        },
    }
    if len(selection) + len(exceptions) + sum(len(items) for _, items in coloring) > 1000:
        raise Refused("B8", "BadComponent")
    return {"index": tree["index"]} if "index" in tree else {}, body


def is_distance(value: object) -> bool:
    """Whether a rule may have it, as far as its kind goes: a whole number."""
    return value is None or isinstance(value, int) and not isinstance(value, bool)


def is_rule(item: Tree) -> bool:
    """Whether the members of a rule have values of their kinds."""
    kind, distance, level = item.get("kind", "clash"), item.get("distance"), item.get("level")
    sides = (item.get(side) for side in "ab")
    return (
        all(isinstance(side, str) and re.fullmatch(r"\*|[A-Z0-9_]{1,64}", side) for side in sides)
        and kind in ("clash", "pierce", "ignore")
        and item.get("storey", "any") in ("any", "same", "different")
        and item.get("models", "any") in ("any", "same", "other")
        and (level is None or is_text(level, 256))
        and (kind == "ignore" or (distance is not None) == (kind == "clash"))
        and is_distance(distance)
    )


def rule_in(item: Tree, index: int) -> Tree:
    """One rule of a body, as a version lists it."""
    item = present(item)
    if not is_rule(item):
        raise Refused("C1", "BadRule", index=index)
    distance = item.get("distance")
    if distance is not None and not 0 <= distance <= 1000:
        raise Refused("C3", "Distance", index=index)
    kind = item.get("kind", "clash")
    rule = {
        "a": item["a"],
        "b": item["b"],
        "kind": kind,
        "storey": item.get("storey", "any"),
        "level": item.get("level"),
        "models": item.get("models", "any"),
    }
    return dict(rule, distance=distance) if kind == "clash" else rule


def rules_in(tree: Tree) -> list[Tree]:
    """The rules of a body."""
    items = tree.get("rules")
    if isinstance(items, list) and len(items) > 200:
        raise Refused("C2", "TooManyRules", count=len(items))
    if not isinstance(items, list) or any(not isinstance(item, dict) for item in items):
        raise Refused("C1", "BadRule", index=0)
    return [rule_in(item, index) for index, item in enumerate(items)]
