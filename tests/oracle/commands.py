"""What `check` and `generate` print, and their exit statuses."""

import os
import re
from collections.abc import Iterator

from tests.ifc.basics import HEAD, TAIL
from tests.oracle.answers import too_large
from tests.oracle.bodies import object_in, rules_in
from tests.oracle.faults import Refused, Tree
from tests.oracle.model_file import build
from tests.oracle.versions import Models, Version

Printed = tuple[bytes, int]
USAGE = b"usage: bim_server replay|check|generate|serve\n", 2
OPTIONS: dict[str, dict[str, str | None]] = {
    "check": {"--rules": ".*", "--grid": "exact|snap"},
    "generate": {"--count": "[0-9]{1,20}", "--number": "[0-9]{1,20}", "--file": None},
}
NAMED = re.compile(r"([A-Za-z0-9_.\-]{1,64})=(.*)")
FIELDS = ("at", "id", "to", "what", "index", "count", "limit")
BOX = (
    "(1,3,2),(2,3,4),(5,6,7),(6,8,7),(1,2,5),(2,6,5),"
    "(3,7,4),(4,7,8),(1,5,3),(3,5,7),(2,4,6),(4,8,6)"
)
ANY_TOUCHING = {"a": "*", "b": "*", "kind": "clash", "distance": 0}


class Outside(Exception):
    """The words are outside the grammar."""


def words_of(command: str, words: list[str]) -> tuple[dict[str, str], list[str]]:
    """The options by name, and the other words."""
    given: dict[str, str] = {}
    others, left = [], iter(words)
    for word in left:
        name, equals, value = word.partition("=")
        if not word.startswith("-"):
            others.append(word)
            continue
        if name not in OPTIONS[command] or name in given:
            raise Outside
        form = OPTIONS[command][name]
        if form is not None and not equals:
            value = next(left, "-")
        if form is None and equals or value.startswith("-") or not re.fullmatch(form or "", value):
            raise Outside
        given[name] = value
    return given, others


def named(words: list[str]) -> list[tuple[str, str]]:
    """The models of a check, by name and file."""
    found = [NAMED.fullmatch(word) for word in words]
    pairs = [(it.group(1), it.group(2)) for it in found if it]
    if not 1 <= len(found) <= 64 or len(pairs) < len(found) or len(dict(pairs)) < len(pairs):
        raise Outside
    return pairs


def line_of(what: str, tree: Tree) -> bytes:
    """The line that says what is refused."""
    fields = [str(tree[name]) for name in FIELDS if name in tree]
    return (" ".join([f"{what}: {tree['message']}", *fields]) + "\n").encode()


def rules_of(data: bytes) -> list[Tree]:
    try:
        tree = object_in(data)
    except (ValueError, RecursionError):
        raise Refused("H9", "BadJson") from None
    return rules_in(tree)


def check(words: list[str], folder: str) -> Printed:
    """The clashes of the named files in a folder, under the named rules."""
    what = "rules"
    try:
        given, others = words_of("check", words)
        files = named(others)
        with open(os.path.join(folder, given["--rules"]), "rb") as file:
            rules = rules_of(file.read())
        models: Models = {}
        for what, path in files:
            with open(os.path.join(folder, path), "rb") as file:
                models[what] = build(file.read(), given.get("--grid") == "snap")
    except (Outside, KeyError):
        return USAGE
    except Refused as fault:
        return line_of(what, fault.answer()[1]), 3
    except OSError:
        return b"", 4
    too_much = too_large(models)
    if too_much:
        return line_of("version", too_much), 3
    return b"".join(lines_of(Version(models, rules).clashes)), 0


def lines_of(clashes: list[Tree]) -> Iterator[bytes]:
    for it in clashes:
        ends = (it["a"]["model"], it["a"]["guid"], it["b"]["model"], it["b"]["guid"])
        yield (" ".join([*ends, str(it["rule"])]) + "\n").encode()
    yield f"clashes {len(clashes)}\n".encode()


def drawn(number: int) -> Iterator[int]:
    """The numbers that are drawn from one."""
    while True:
        number = (number * 6364136223846793005 + 1442695040888963407) % 2**64
        yield number // 2**33


def cuboids(count: int, number: int) -> bytes:
    """The file of a generated model."""
    draw = drawn(number)
    parts = [HEAD]
    for element in range(count):
        low = [next(draw) % 40000, next(draw) % 40000, next(draw) % 12000]
        size = [100 + next(draw) % 900 for _ in range(3)]
        corners = ([low[n] + size[n] * (corner >> n & 1) for n in range(3)] for corner in range(8))
        spelled = ",".join("(" + ",".join(f"{it}." for it in corner) + ")" for corner in corners)
        k, guid = 10 + 5 * element, f"{element + 1:022d}"
        keyword = "IFCPIPESEGMENT" if element % 2 else "IFCBEAM"
        parts += [
            f"#{k}=IFCCARTESIANPOINTLIST3D(({spelled}));\n",
            f"#{k + 1}=IFCTRIANGULATEDFACESET(#{k},$,.T.,({BOX}),$);\n",
            f"#{k + 2}=IFCSHAPEREPRESENTATION($,'Body','Tessellation',(#{k + 1}));\n",
            f"#{k + 3}=IFCPRODUCTDEFINITIONSHAPE($,$,(#{k + 2}));\n",
            f"#{k + 4}={keyword}('{guid}',$,'{guid}',$,$,$,#{k + 3},$,$);\n",
        ]
    return "".join([*parts, TAIL]).encode()


def generate(words: list[str]) -> Printed:
    """A generated model, or how much it has."""
    try:
        given, others = words_of("generate", words)
        count, number = int(given["--count"]), int(given.get("--number", "1"))
        if others or not 1 <= count <= 10000 or number >= 2**64:
            raise Outside
    except (Outside, KeyError):
        return USAGE
    file = cuboids(count, number)
    if "--file" in given:
        return file, 0
    elements = build(file, False)
    rules = rules_in({"rules": [ANY_TOUCHING]})
    lines = {
        "elements": len(elements),
        "triangles": sum(len(it.triangles) for it in elements),
        "clashes": len(Version({"m": elements}, rules).clashes),
    }
    return "".join(f"{name} {value}\n" for name, value in lines.items()).encode(), 0
