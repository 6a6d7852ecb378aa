"""Works out anew what the cases say of versions, where the rule by which a version is printed
changes: the grid numbers in a millimetre, which a version prints as `per_mm`.

    python3 -m tests.printed_versions                 shows which cases say another number of it
    python3 -m tests.printed_versions --write         writes their output anew
    python3 -m tests.printed_versions --reference     compares with what the reference answers

The new bytes come from the old ones and the rule alone: a box has as many times its numbers,
`per_mm` is put in, and the length of the body is counted anew. No program is asked. This is right
where each length of the case's files is on the coarser grid, in exact mode: a case that asks for
`grid=snap`, or whose files have a length that isn't a whole millimetre, or another unit than the
metre, is named and left as it is, to be judged by the rules.
"""

import argparse
import json
import os
import re
import sys
from collections.abc import Iterator
from fractions import Fraction

from tests import oracle
from tests.case_files import HERE, all_cases, chosen, input_of, read
from tests.oracle.__main__ import answered, is_known
from tests.oracle.faults import Tree
from tests.oracle.framing import read_body, read_request
from tests.oracle.model_file.lengths import PER_MM, PREFIXES

LENGTH = re.compile(rb"(?i)Content-Length: \d+")
TOLERANCE = Fraction(1, 1000)
MEMBERS = {"models", "newest", "rules", "version"}
POINTS = re.compile(rb"=IFCCARTESIANPOINT(?:LIST3D)?\(([^;]*)\);")
BLANK = re.compile(rb"\s|/\*.*?\*/", re.DOTALL)
NUMBER = re.compile(rb"[+-]?\d+\.?\d*(?:E[+-]?\d+)?", re.IGNORECASE)
UNIT = re.compile(rb"IFCSIUNIT\([$*],\.LENGTHUNIT\.,(?:[$*]|\.(\w+)\.),\.METRE\.\)")
POWERS = {prefix or b"": power for prefix, power in PREFIXES.items()}


def spelled(tree: Tree) -> bytes:
    """A tree as the program prints it."""
    return json.dumps(tree, ensure_ascii=False, separators=(",", ":"), sort_keys=True).encode()


def pieces(output: bytes) -> Iterator[tuple[bytes, bytes]]:
    """The responses of an output: each head with its empty line, and its body."""
    at = 0
    while at < len(output):
        end = output.index(b"\r\n\r\n", at) + 4
        head = output[at:end]
        found = LENGTH.search(head)
        has_body = found and not output.startswith(b"HTTP/1.1 ", end)
        size = int(found.group().split()[1]) if found and has_body else 0
        yield head, output[end : end + size]
        at = end + size


def version_in(body: bytes) -> Tree | None:
    """The version that a body is, None where it is something else."""
    tree = json.loads(body) if body else None
    if not isinstance(tree, dict) or not MEMBERS <= tree.keys():
        return None
    assert spelled(tree) == body, "a version that is printed otherwise than the rule prints it"
    return tree


def at_grid(tree: Tree, per_mm: int) -> Tree:
    """The version where a millimetre has so many grid numbers."""
    before = tree.get("per_mm", 1)
    for model in tree["models"]:
        for element in model["elements"]:
            element["box"] = [it * per_mm // before for it in element["box"]]
    return dict(tree, per_mm=per_mm)


def anew(output: bytes, per_mm: int) -> bytes:
    """The output where a millimetre has so many grid numbers."""
    parts = []
    for head, body in pieces(output):
        tree = version_in(body)
        if tree is not None:
            body = spelled(at_grid(tree, per_mm))
            head = LENGTH.sub(b"Content-Length: %d" % len(body), head)
        parts += [head, body]
    return b"".join(parts)


def keeps_its_meaning(length: Fraction, snap: bool) -> bool:
    """Whether a length in millimetres has ten times its number where the grid becomes ten times as
    fine, or is refused on both."""
    off = abs(length - round(length))
    off_tenths = abs(length * 10 - round(length * 10)) / 10
    return off < TOLERANCE or not snap and off_tenths >= TOLERANCE


def files_in(data: bytes) -> Iterator[tuple[bytes, bool]]:
    """The files that the requests of an input upload, without blanks and comments, and whether
    each asks for the nearest numbers."""
    at = 0
    while True:
        try:
            request = read_request(data, at)
            at = read_body(data, request)
        except (oracle.Fault, oracle.Unfinished, oracle.Beyond):
            return
        if request.method == b"PUT" and b"/models/" in request.target:
            yield BLANK.sub(b"", request.body).upper(), b"snap" in request.target


def is_coarse(data: bytes) -> bool:
    """Whether all lengths of the points of the input's files keep their meaning."""
    for file, snap in files_in(data):
        units = UNIT.findall(file)
        points = [it for found in POINTS.findall(file) for it in NUMBER.findall(found)]
        if points and len(units) != 1 or b"IFCCONVERSIONBASEDUNIT" in file:
            return False
        scale = Fraction(10) ** POWERS.get(units[0], -9) if points else Fraction(1)
        if not all(keeps_its_meaning(Fraction(it.decode()) * scale, snap) for it in points):
            return False
    return True


def differs(path: str, wanted: bytes) -> bool:
    """Whether the reference answers a case otherwise than the rule says."""
    try:
        printed, _ = answered(path)
    except oracle.Beyond as reason:
        print(f"{path}: the reference doesn't know {reason}")
        return False
    if printed != wanted:
        print(f"{path}: the reference answers otherwise")
    return printed != wanted


def main() -> int:
    parser = argparse.ArgumentParser(
        description=__doc__, formatter_class=argparse.RawDescriptionHelpFormatter
    )
    parser.add_argument("--write", action="store_true")
    parser.add_argument("--reference", action="store_true")
    parser.add_argument("--per-mm", type=int, default=PER_MM)
    parser.add_argument("words", metavar="GROUP or WORD", nargs="*")
    given = parser.parse_args()
    changed = left = differ = 0
    for path in chosen(all_cases(), given.words):
        folder = os.path.join(HERE, path)
        before = read(folder, "stdout")
        if not is_known(folder) or not before.startswith(b"HTTP/"):
            continue
        after = anew(before, given.per_mm)
        if after == before:
            continue
        if not is_coarse(input_of(folder)):
            left += 1
            print(f"{path}: to be judged by the rules")
            continue
        changed += 1
        differ += given.reference and differs(path, after)
        if given.write:
            with open(os.path.join(folder, "stdout"), "wb") as file:
                file.write(after)
    print(
        f"{changed} by the rule, {left} to be judged, {differ} that the reference answers otherwise"
    )
    return 1 if differ else 0


if __name__ == "__main__":
    sys.exit(main())
