"""Files of clash rules: whether the server would take one, and what its rules can't meet."""

from __future__ import annotations

import json
import re
from pathlib import Path
from typing import Any

from .errors import FileFault, Refused
from .records import Rule, Version

MOST_RULES, MOST_DISTANCE, MOST_LEVEL = 200, 1000, 256
WORDS = {
    "kind": ("clash", "pierce", "ignore"),
    "storey": ("any", "same", "different"),
    "models": ("any", "same", "other"),
}
SHAPE = (
    "a rule has a, b and distance, and kind, storey, level and models where they are wanted; "
    "a pierce rule has no distance"
)
MEMBERS = {"a", "b", "kind", "distance", "storey", "level", "models"}


def fault_of_rule(rule: dict[str, Any]) -> tuple[str, str] | None:
    """The code and the words of a rule's fault, None where it has none."""
    given = {name: value for name, value in rule.items() if value is not None}
    for member in ("a", "b"):
        value = given.get(member)
        if value is None:
            return "C1", f"{member} is missing"
        if value != "*" and not (
            isinstance(value, str) and re.fullmatch(r"[A-Z0-9_]{1,64}", value)
        ):
            return "C1", f"{member} is * or a class such as IFCWALL"
    for member, words in WORDS.items():
        if member in given and given[member] not in words:
            return "C1", f"{member} is one of {', '.join(words)}"
    level = given.get("level")
    if level is not None and not (isinstance(level, str) and len(level.encode()) <= MOST_LEVEL):
        return "C1", f"level is a text of up to {MOST_LEVEL} bytes"
    return fault_of_distance(given)


def fault_of_distance(given: dict[str, Any]) -> tuple[str, str] | None:
    """The fault of a rule's distance; an ignoring rule needs none, and a pierce rule has none."""
    distance, kind = given.get("distance"), given.get("kind", "clash")
    if distance is None:
        return ("C1", "distance is missing") if kind == "clash" else None
    if kind == "pierce":
        return "C1", "a pierce rule has no distance"
    if isinstance(distance, bool) or not isinstance(distance, int):
        return "C1", "distance is a whole number of millimetres"
    if not 0 <= distance <= MOST_DISTANCE:
        return "C3", f"distance is 0 to {MOST_DISTANCE} millimetres"
    return None


def checked_rules(rules: Any, source: str) -> list[dict[str, Any]]:
    """The rules, or a failure that names the first one with a fault."""
    if not isinstance(rules, list):
        raise Refused(f"{source}: there is no list of rules", 'write {"rules":[..]}', "C1")
    if len(rules) > MOST_RULES:
        raise Refused(f"{source}: there are {len(rules)} rules, at most {MOST_RULES}", "", "C2")
    for place, rule in enumerate(rules):
        if not isinstance(rule, dict):
            # this comes before the faults of single rules, and the server says 0 for its place
            raise Refused(f"{source}: rule {place} is no object", SHAPE, "C1", index=0)
    for place, rule in enumerate(rules):
        fault = fault_of_rule(rule)
        if fault:
            code, words = fault
            raise Refused(f"{source}: rule {place}: {words}", SHAPE, code, index=place)
    return rules


def read_rules(path: Path) -> list[dict[str, Any]]:
    """The rules of a file: an object with `rules`, or the list itself."""
    try:
        read = json.loads(path.read_text("utf-8-sig"))
    except OSError as fault:
        raise FileFault(f"{path}: {fault.strerror}") from fault
    except ValueError as fault:
        raise Refused(f"{path}: no JSON: {fault}", "mend it at that place", "H9") from fault
    return checked_rules(read.get("rules") if isinstance(read, dict) else read, str(path))


def fits_any(name: str, classes: set[str]) -> bool:
    """Whether some element has the class of a rule."""
    return name == "*" or name in classes


def remarks(rules: list[dict[str, Any]], version: Version) -> list[str]:
    """What is allowed and hardly meant: unknown members, and what no element of a version has."""
    elements = [one for model in version["models"] for one in model["elements"]]
    classes, storeys = {one["class"] for one in elements}, {one["storey"] for one in elements}
    met = bool(elements)
    found: list[str] = []
    for place, rule in enumerate(rules):
        for member in sorted(set(rule) - MEMBERS):
            found.append(f"rule {place}: {member} is passed over")
        for member in ("a", "b"):
            if met and not fits_any(rule[member], classes):
                found.append(f"rule {place}: no element is of the class {rule[member]}")
        if met and rule.get("level") is not None and rule["level"] not in storeys:
            found.append(f"rule {place}: no storey has the name {rule['level']!r}")
        if any(hides(earlier, rule) for earlier in rules[:place]):
            found.append(f"rule {place}: an earlier rule fits all that it fits")
    return found


def hides(earlier: dict[str, Any], later: dict[str, Any]) -> bool:
    """Whether a rule fits all pairs and decides before the later one."""
    anything = earlier["a"] == "*" and earlier["b"] == "*"
    same = {earlier["a"], earlier["b"]} == {later["a"], later["b"]}
    narrow = any(earlier.get(name, None) not in (None, "any") for name in ("storey", "models"))
    return (anything or same) and not narrow and earlier.get("level") is None


def written(rules: list[Rule]) -> dict[str, Any]:
    """Rules of a version as a file that `rules put` takes, without what says nothing."""
    return {
        "rules": [
            {name: value for name, value in rule.items() if value not in (None, "any")}
            for rule in rules
        ]
    }
