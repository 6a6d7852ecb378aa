"""Times the grid and the check of all buckets, beside a baseline on the same elements, in
milliseconds.

    python3 -m bench.clash.run FILE.ifc .. [--baseline BASELINE] [--turns N] [--rounds N]
                               [--distances 0,50,pierce]
    python3 -m bench.clash.run --carry FILE.ifc .. [--rounds N] [--distances 0,50]

Each FILE has elements with triangulated surfaces in millimetres (IFCCARTESIANPOINTLIST3D,
IFCTRIANGULATEDFACESET), as `bim_server generate --count 1000 --number 7 --file` writes them. The
numbers are written into a plain file for pace.txt, the program over the built crates. A distance of
the one rule is in millimetres; `pierce` stands for a rule that asks for piercing, for which no
baseline is run. BASELINE is
another program, called as `BASELINE FILE.ifc DISTANCE --reps N`; it prints `clashes N`, and its
seconds as `clash_s T [grid T filter T near T]`. Copies the crates, with what earlier checks kept of
them, into a scratch folder, adds the program, builds it proved (`rt run`), and runs both by turns:
in each turn both programs on all files, with N rounds of the largest file and as many more of a
smaller one as it is smaller, so that a slow second of the machine falls on no file alone. Prints
the least of each part over all turns and rounds, the ratio of the wholes (here over baseline), and
how each whole grows from one file to the next. Ends with 1 where the numbers of clashes differ.

With --carry it prints instead what a second version keeps of the work on a first, in which one
element lay a millimetre beside (carry.txt): the check of all buckets, the grid of the second
version, carrying, and the check of what is left.

Both programs keep what memory was let go of for the next round (MALLOC_TRIM_THRESHOLD_). The
baseline does so by itself once it has let go of the bytes of its file, as does a server after an
upload; pace.txt holds its input to the end, and would get new pages from the system in each round.
"""

import argparse
import array
import os
import pathlib
import re
import subprocess
import sys
import tempfile

from bench.scratch import built_over

FOLDER = pathlib.Path(__file__).resolve().parent


BELOW = [
    "exact_arith",
    "bim_model",
    "tri_exact",
    "clearance",
    "tri_pierce",
    "box_lanes",
    "clash_rules",
    "bucket_grid",
    "bucket_check",
]
USES = "bucket_check bucket_grid clash_rules bim_model serde_json anyhow"
POINTS = re.compile(r"#(\d+)=IFCCARTESIANPOINTLIST3D\(\((.*)\)\);")
FACES = re.compile(r"#\d+=IFCTRIANGULATEDFACESET\(#(\d+),[^,]*,[^,]*,\((.*?)\),[^,)]*\);")
PLAIN = re.compile(
    r"clashes (\d+).* clash_s ([\d.]+) \[grid ([\d.]+) filter ([\d.]+) near ([\d.]+)\]"
)
HERE = re.compile(r"clashes (\d+) buckets \d+ grid (\d+) filter (\d+) check (\d+) whole (\d+)")
KEPT = os.environ | {"MALLOC_TRIM_THRESHOLD_": "1000000000", "MALLOC_MMAP_THRESHOLD_": "1000000000"}
FOR_EVER = float("inf")


def build(work: pathlib.Path, carry: bool) -> pathlib.Path:
    """The path of the program of pace.txt, or of carry.txt."""
    below, uses = (BELOW + ["clash_delta"], f"clash_delta {USES}") if carry else (BELOW, USES)
    proofs = {"main": FOLDER / "pace_invariants.txt"}
    if carry:
        proofs["check_undone"] = FOLDER / "carry_invariants.txt"
    source = FOLDER / ("carry.txt" if carry else "pace.txt")
    return built_over(work, below, "pace", uses, source, ("must-fail",), proofs)


def numbers_in(text: str) -> list[int]:
    return [int(float(word)) for word in re.findall(r"-?\d+(?:\.\d*)?", text)]


def write_scene(source: pathlib.Path, target: pathlib.Path) -> None:
    """The triangles of each element, by their corners."""
    points: dict[str, list[list[int]]] = {}
    elements: list[list[list[int]]] = []
    for line in source.read_text().splitlines():
        found = POINTS.match(line)
        if found:
            numbers = numbers_in(found[2])
            points[found[1]] = [numbers[at : at + 3] for at in range(0, len(numbers), 3)]
        found = FACES.match(line)
        if found:
            elements.append([points[found[1]][corner - 1] for corner in numbers_in(found[2])])
    scene = array.array("i", [len(elements)])
    for corners in elements:
        scene.append(len(corners) // 3)
        for corner in corners:
            scene.extend(corner)
    if sys.byteorder == "big":
        scene.byteswap()
    target.write_bytes(scene.tobytes())


def ran(words: list[str], form: re.Pattern[str]) -> tuple[int, list[float]]:
    """The number of clashes, and the times."""
    output = subprocess.run(words, env=KEPT, capture_output=True, text=True, check=True).stdout
    found = form.search(output)
    if found is None:
        sys.exit(f"{words[0]} printed {output[:400]!r}")
    return int(found[1]), [float(time) for time in found.groups()[1:]]


def least_of(before: list[float], times: list[float]) -> list[float]:
    """The lesser of each two times."""
    return [min(pair) for pair in zip(before, times)]


class Least:
    """The least times on a file at a distance or under a pierce rule, in milliseconds: of the
    baseline whole, grid, filter, exact, of the program whole, grid, filter, check; and the number
    of clashes."""

    def __init__(self, file: pathlib.Path, scene: pathlib.Path, distance: str, rounds: int) -> None:
        self.file, self.scene, self.distance, self.rounds = file, scene, distance, str(rounds)
        self.plain, self.here, self.found = [FOR_EVER] * 4, [FOR_EVER] * 4, 0

    def turn(self, program: pathlib.Path, baseline: str | None) -> None:
        """The program once, and the baseline where there is one."""
        self.found, times = ran([str(program), str(self.scene), self.distance, self.rounds], HERE)
        grid, filtered, check, whole = times
        self.here = least_of(self.here, [time / 1e6 for time in (whole, grid, filtered, check)])
        if baseline is None or self.distance == "pierce":
            return
        words = [baseline, str(self.file), self.distance, "--reps", self.rounds, "--lex", "0"]
        there, times = ran(words, PLAIN)
        self.plain = least_of(self.plain, [time * 1e3 for time in times])
        if self.found != there:
            counts = f"{self.found} clashes here, {there} by the baseline"
            sys.exit(f"{self.file} at {self.distance}: {counts}")

    def line(self, before: "Least | None") -> str:
        """A line of the table; growth is that of the whole from the line before."""
        kind = f"{self.file.name} at {self.distance}: {self.found} clashes"
        here = parts(self.here[:3] + [max(self.here[3] - self.here[2], 0.0)])
        grown = f"{self.here[0] / before.here[0]:.2f}" if before else ""
        if self.plain[0] == FOR_EVER:
            return f"{kind:44} {here:36}  {grown}"
        grown = f"{self.plain[0] / before.plain[0]:.2f} {grown}" if before else ""
        ratio = self.here[0] / self.plain[0]
        return f"{kind:44} {parts(self.plain):36} {here:36} {ratio:5.2f}  {grown}"


def parts(times: list[float]) -> str:
    return "{:8.2f} ({:.2f}, {:.2f}, {:.2f})".format(*times)


def time_carrying(
    program: pathlib.Path, files: list[pathlib.Path], work: pathlib.Path, given: argparse.Namespace
) -> None:
    """Prints what a second version keeps of the work on a first."""
    for distance in given.distances.split(","):
        for file in files:
            words = [str(program), str(work / f"{file.name}.scene"), distance, str(given.rounds)]
            output = subprocess.run(
                words, env=KEPT, capture_output=True, text=True, check=True
            ).stdout
            print(f"{file.name} at {distance}: {output}", end="")


def time_checks(
    program: pathlib.Path, files: list[pathlib.Path], work: pathlib.Path, given: argparse.Namespace
) -> None:
    """Prints the table of both programs."""
    largest = max(file.stat().st_size for file in files)
    all_least = [
        Least(
            file,
            work / f"{file.name}.scene",
            distance,
            given.rounds * largest // file.stat().st_size,
        )
        for distance in given.distances.split(",")
        for file in files
    ]
    for _ in range(given.turns):
        for least in all_least:
            least.turn(program, given.baseline)
    baseline = f"{'baseline':36} " if given.baseline else ""
    ratio = "ratio  " if given.baseline else ""
    print(f"{'milliseconds: whole (grid, filter, exact)':44} {baseline}{'here':36} {ratio}growth")
    before = None
    for least in all_least:
        print(least.line(before if before and before.distance == least.distance else None))
        before = least


def main() -> int:
    words = argparse.ArgumentParser(
        description=__doc__, formatter_class=argparse.RawDescriptionHelpFormatter
    )
    words.add_argument("files", metavar="FILE", nargs="+", type=pathlib.Path)
    words.add_argument("--baseline", help="another program, beside which it is timed")
    words.add_argument("--carry", action="store_true")
    words.add_argument("--program", type=pathlib.Path, help="the program, if it is built already")
    words.add_argument("--turns", metavar="N", type=int, default=8)
    words.add_argument("--rounds", metavar="N", type=int, default=9)
    words.add_argument("--distances", default="0,50")
    given = words.parse_args()
    with tempfile.TemporaryDirectory() as scratch:
        work = pathlib.Path(scratch)
        program = given.program or build(work, given.carry)
        for file in given.files:
            write_scene(file, work / f"{file.name}.scene")
        if given.carry:
            time_carrying(program, given.files, work, given)
        else:
            time_checks(program, given.files, work, given)
    return 0


if __name__ == "__main__":
    sys.exit(main())
