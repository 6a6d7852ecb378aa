"""Runs the grids of grid.json, which another program worked out, over the built crate.

    python3 -m bench.bucket_grid.vectors [FILE]

FILE has a list of versions: `models`, each a `name` and `boxes` of six numbers in millimetres;
`memberships`, and `too_spread` where they are more than there may be; else `bucket_count`, `owners`
of some pairs (null where they share no cell) and, where they are few, `buckets` with their members
as [model, place]. Copies the crates into a scratch folder, adds the program of vectors.txt, builds
it proved, and runs it once for each version.
"""

import argparse
import json
import pathlib
import subprocess
import sys
import tempfile
from collections.abc import Iterator
from typing import Any

from bench.scratch import built_over

HERE = pathlib.Path(__file__).resolve().parent
BELOW = ["exact_arith", "bim_model", "tri_exact", "clearance", "box_lanes", "bucket_grid"]
USES = "bucket_grid bim_model anyhow"
Numbers = dict[tuple[int, ...], int]


def lines_in(case: Any, number: Numbers) -> Iterator[str]:
    """What the program is given."""
    for model in case["models"]:
        yield f"model {model['name']}"
        for sides in model["boxes"]:
            yield "box " + " ".join(map(str, sides))
    for pair in case.get("owners", []):
        yield f"owner {number[tuple(pair['a'])]} {number[tuple(pair['b'])]}"
    if "buckets" in case:
        yield "list"


def lines_out(case: Any, number: Numbers) -> Iterator[str]:
    """What it has to answer."""
    if case["too_spread"]:
        yield f"too spread {case['memberships']}"
        return
    yield f"memberships {case['memberships']}"
    yield f"buckets {case['bucket_count']}"
    for bucket in case.get("buckets", []):
        members = ", ".join(str(number[tuple(member)]) for member in bucket["members"])
        yield "bucket " + " ".join(map(str, bucket["cell"])) + f" [{members}]"
    for pair in case.get("owners", []):
        yield "none" if pair["cell"] is None else "owner " + " ".join(map(str, pair["cell"]))


def numbers_of(case: Any) -> Numbers:
    """The number of each element, by its model and its place there."""
    places = ((m, e) for m, model in enumerate(case["models"]) for e in range(len(model["boxes"])))
    return {place: number for number, place in enumerate(places)}


def main() -> int:
    words = argparse.ArgumentParser(
        description=__doc__, formatter_class=argparse.RawDescriptionHelpFormatter
    )
    words.add_argument(
        "file", metavar="FILE", nargs="?", type=pathlib.Path, default=HERE / "grid.json"
    )
    cases = json.loads(words.parse_args().file.read_text())
    agreed = 0
    with tempfile.TemporaryDirectory() as scratch:
        program = built_over(
            pathlib.Path(scratch), BELOW, "vectors", USES, HERE / "vectors.txt", ("out",)
        )
        for place, case in enumerate(cases):
            number = numbers_of(case)
            given = "".join(line + "\n" for line in lines_in(case, number))
            wanted = "".join(line + "\n" for line in lines_out(case, number))
            ran = subprocess.run(
                [program], input=given, capture_output=True, text=True, check=False
            )
            if ran.returncode == 0 and ran.stdout == wanted:
                agreed += 1
            else:
                print(f"case {place} ({case['name']}) differs: status {ran.returncode}")
                print(ran.stdout[:400], ran.stderr[:400])
    print(f"{agreed} of {len(cases)} agree")
    return 0 if agreed == len(cases) else 1


if __name__ == "__main__":
    sys.exit(main())
