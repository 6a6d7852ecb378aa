"""The picture of the crates, docs/crates.svg, as Graphviz draws it, and what a picture says."""

import shutil
import subprocess
import sys
import xml.etree.ElementTree as tree
from collections.abc import Iterator

from lint.crates_list import Crate, reduced

PICTURE = "docs/crates.svg"
SVG = "{http://www.w3.org/2000/svg}"
STYLE = """
  graph [rankdir=TB, newrank=true, ranksep=0.32, nodesep=0.12, pad=0.1, bgcolor="transparent"];
  node [shape=box, style="filled,rounded", fillcolor="#ffffff", color="#33506e"];
  node [fontcolor="#12263a"];
  node [fontname="sans-serif", fontsize=11, height=0.28, width=0.1, margin="0.07,0.03"];
  edge [color="#7f93a8", arrowhead=none, penwidth=0.9];
"""
BAND = (
    'style=filled, color="%s", fontname="sans-serif", fontsize=13, fontcolor="#445566", labeljust=l'
)


def groups_of(crates: list[Crate]) -> dict[str, list[str]]:
    """The crates of each group, in their order."""
    groups: dict[str, list[str]] = {}
    for crate in crates:
        groups.setdefault(crate.group, []).append(crate.name)
    return groups


def source(crates: list[Crate]) -> str:
    """What Graphviz is given: a band for each group, the first at the bottom, and a line from each
    crate to those that it uses, but for those that another of them uses."""
    lines = ["digraph crates {", STYLE]
    groups = groups_of(crates)
    for at, (group, names) in enumerate(groups.items()):
        band = BAND % ("#e6ebf1", "#f3f5f8")[at % 2]
        lines.append(f'  subgraph cluster_{at} {{ graph [label="{group}", {band}];')
        lines += [f'    "{name}";' for name in names]
        lines.append("  }")
    lines += [f'  "{name}" -> "{use}";' for name, uses in reduced(crates).items() for use in uses]
    lines += apart(list(groups.values()), reduced(crates))
    return "\n".join([*lines, "}", ""])


def apart(groups: list[list[str]], lines: dict[str, list[str]]) -> Iterator[str]:
    """Lines that aren't seen, by which each group is above the one before: from its lowest crates
    to the highest of that."""
    for below, above in zip(groups, groups[1:]):
        used = {use for name in below for use in lines[name]}
        tops = [name for name in below if name not in used]
        feet = [name for name in above if not any(use in above for use in lines[name])]
        for foot in feet:
            for top in tops:
                yield f'  "{foot}" -> "{top}" [style=invis, weight=0];'


def drawn(crates: list[Crate]) -> str:
    """The picture, by the program `dot`."""
    if not shutil.which("dot"):
        sys.exit("there is no dot: apt-get install graphviz")
    run = subprocess.run(
        ["dot", "-Tsvg"], input=source(crates), capture_output=True, text=True, check=False
    )
    if run.returncode != 0:
        sys.exit(f"dot: {run.stderr[:2000]}")
    return run.stdout


def titles(root: tree.Element, kind: str) -> list[str]:
    """The titles of the nodes, the edges or the clusters of a picture, in their order."""
    parts = (part for part in root.iter(f"{SVG}g") if part.get("class") == kind)
    return [(part.findtext(f"{SVG}title") or "").strip() for part in parts]


def labels(root: tree.Element) -> list[str]:
    """What is written into the bands of a picture."""
    parts = (part for part in root.iter(f"{SVG}g") if part.get("class") == "cluster")
    return ["".join(part.findtext(f"{SVG}text") or "") for part in parts]


def seen_lines(root: tree.Element) -> list[str]:
    """The lines of a picture that are drawn, as `upper->lower`."""
    parts = (part for part in root.iter(f"{SVG}g") if part.get("class") == "edge")
    return [
        (part.findtext(f"{SVG}title") or "").strip()
        for part in parts
        if part.find(f"{SVG}path") is not None
    ]


def differences(crates: list[Crate], picture: str) -> Iterator[str]:
    """What a picture lacks or has beyond the crates, their groups and their lines; where things lie
    doesn't count."""
    try:
        root = tree.fromstring(picture)
    except tree.ParseError as fault:
        yield f"{PICTURE} is no picture: {fault}"
        return
    wanted_lines = [f"{name}->{use}" for name, uses in reduced(crates).items() for use in uses]
    pairs = (
        ("crate", [crate.name for crate in crates], titles(root, "node")),
        ("group", list(groups_of(crates)), labels(root)),
        ("line", wanted_lines, seen_lines(root)),
    )
    for kind, wanted, seen in pairs:
        for name in sorted({*wanted, *seen}):
            if wanted.count(name) != seen.count(name):
                found, right = seen.count(name), wanted.count(name)
                yield f"{PICTURE} has the {kind} {name} {found} times, and should {right} times"
