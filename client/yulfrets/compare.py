"""Which clashes are new and which are gone between two versions."""

from __future__ import annotations

from dataclasses import dataclass

from .records import Clash, Element, Model, Version

ElementKey = tuple[str, str]
PairKey = tuple[ElementKey, ElementKey]


def pair_key(clash: Clash) -> PairKey:
    """The two elements of a clash, by model and GlobalId; the rule and the order don't count."""
    ends = sorted(
        [(clash["a"]["model"], clash["a"]["guid"]), (clash["b"]["model"], clash["b"]["guid"])]
    )
    return ends[0], ends[1]


@dataclass(frozen=True)
class Difference:
    """What changed from one version's clashes to another's."""

    new: list[Clash]
    gone: list[Clash]
    kept: int


def difference(before: list[Clash], after: list[Clash]) -> Difference:
    """The clashes that one version has and the other hasn't, each in its version's order."""
    old, now = {pair_key(one) for one in before}, {pair_key(one) for one in after}
    new = [one for one in after if pair_key(one) not in old]
    gone = [one for one in before if pair_key(one) not in now]
    return Difference(new, gone, len(after) - len(new))


def elements_of(version: Version) -> dict[ElementKey, Element]:
    """A version's elements by model and GlobalId."""
    return {
        (model["name"], element["guid"]): element
        for model in version["models"]
        for element in model["elements"]
    }


@dataclass(frozen=True)
class Step:
    """What one version changed against the version before it."""

    put: list[str]
    removed: list[str]
    rules: bool


def step(before: Version, after: Version) -> Step:
    """The models that were put or removed, and whether the rules were set to others."""
    old: dict[str, Model] = {one["name"]: one for one in before["models"]}
    now: dict[str, Model] = {one["name"]: one for one in after["models"]}
    put = [name for name, one in now.items() if old.get(name) != one]
    removed = [name for name in old if name not in now]
    return Step(put, removed, before["rules"] != after["rules"])
