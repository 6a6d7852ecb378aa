#!/usr/bin/env python3
"""words.py IFC2GRID HOUSE FOLDER: exit statuses, messages of one line, reports, and silence in a pipe."""

from __future__ import annotations

import json
import subprocess
import sys
from pathlib import Path

from given import given
from model import Model
from rows import run_rows
from written import read


class Words:
    def __init__(self, program: str, house: str, folder: Path) -> None:
        self.program, self.house, self.folder = program, house, folder

    def run(self, *words: str) -> subprocess.CompletedProcess[str]:
        return subprocess.run([self.program, *words], capture_output=True, text=True, timeout=60)

    def refused(self, status: int, words: tuple[str, ...], hint: str) -> None:
        done = self.run(*words)
        assert done.returncode == status, f"status {done.returncode} of {words}"
        assert done.stdout == "" and done.stderr.count("\n") == 1, f"{words}: {done.stdout}{done.stderr}"
        assert hint in done.stderr, f"{done.stderr!r} doesn't say {hint!r}"

    def path(self, name: str, text: str = "") -> str:
        path = self.folder / name
        if text:
            path.write_text(text)
        return str(path)

    def wrong_words(self) -> None:
        out = self.path("out.ifc")
        self.refused(2, (), "two files")
        self.refused(2, ("a.ifc", out, "--grid", "2"), "--grid")
        self.refused(2, ("a.ifc", out, "--nothing", "2"), "--nothing")
        self.refused(2, ("a.ifc", out, "--jobs"), "--jobs")

    def not_readable(self) -> None:
        out = self.path("out.ifc")
        self.refused(3, ("missing.ifc", out), "can't be read")
        self.refused(3, (self.path("no.ifc", "solid x"), out), "ISO-10303-21")
        text = Model("IFC5").text()
        self.refused(3, (self.path("schema.ifc", text), out), "IFC5")
        self.refused(3, (self.path("empty.ifc", Model().text()), out), "no building or distribution element")
        assert not Path(out).exists() and not Path(out + ".spool").exists(), "something was written"

    def not_writable(self) -> None:
        self.refused(4, (self.house, str(self.folder / "missing" / "out.ifc")), "can't be written")

    def help(self) -> None:
        done = self.run("--help")
        assert done.returncode == 0 and "--origin-file" in done.stdout

    def left_out(self) -> None:
        """An element of an unknown item is left out, one with an unknown item beside a known one is written partly."""
        model = Model()
        good = model.block((1000, 1000, 1000))
        strange = model.add("IFCGEOMETRICCURVESET((#1))")
        model.element([strange])
        model.element([good, strange])
        model.element([good])
        model.element([good])
        source, out, report = (self.path(name) for name in ("left.ifc", "left.out.ifc", "left.json"))
        Path(source).write_text(model.text())
        done = self.run(source, out, "--report", report)
        assert done.returncode == 1 and done.stderr == "", f"{done.returncode} {done.stderr}"
        said = json.loads(Path(report).read_text())
        assert said["elements"] == 3 == len(read(Path(out)))
        number = int(strange[1:])
        assert [note["at"] for note in said["left_out"]] == [number], said["left_out"]
        assert [note["at"] for note in said["partly"]] == [number], said["partly"]
        assert "IFCGEOMETRICCURVESET" in said["left_out"][0]["reason"]
        text = Path(source).read_bytes()
        assert text[: said["partly"][0]["byte"]].endswith(b"=IFCGEOMETRICCURVESET")

    def rounding(self) -> None:
        """To tenths of a millimetre, or to whole ones; the report says to which, and how far corners went."""
        model = Model()
        model.element([model.block((1000.04, 100, 100))])
        source, out, report = (self.path(name) for name in ("grid.ifc", "grid.out.ifc", "grid.json"))
        Path(source).write_text(model.text())
        for words, box, grid in (((), 1000, 0.1), (("--grid", "0.1"), 1000, 0.1), (("--grid", "1"), 1000, 1)):
            assert self.run(source, out, "--report", report, *words).returncode == 0
            (element,) = read(Path(out)).values()
            said = json.loads(Path(report).read_text())["rounding"]
            assert element.box[3] == box and said["grid_mm"] == grid, f"{words}: {element.box} {said}"
            assert said["greatest_mm"] == 0.04 and said["mean_mm"] == 0.02, said
        Path(source).write_text(model.text().replace("1000.04", "1000.36").replace("500.02", "500.18"))
        for words, end in (((), 1000.4), (("--grid", "1"), 1000)):
            assert self.run(source, out, *words).returncode == 0
            (element,) = read(Path(out)).values()
            assert element.box[3] == end, f"{words}: {element.box}"

    def same_identifier(self) -> None:
        model = Model()
        first = model.element([model.block((1000, 1000, 1000))])
        second = model.element([model.block((500, 500, 500))])
        lines = [line for line in model.lines if line.startswith(first + "=")]
        guid = lines[0].split("'")[1]
        place = int(second[1:]) - 1
        model.lines[place] = model.lines[place].replace(model.lines[place].split("'")[1], guid)
        source, out = self.path("twice.ifc", model.text()), self.path("twice.out.ifc")
        assert self.run(source, out).returncode == 1
        (element,) = read(Path(out)).values()
        assert element.box[3] == 1000

    def classes_by_type(self) -> None:
        model = Model("IFC2X3")
        pipe = model.element([model.block((1000, 100, 100))], keyword="IFCFLOWSEGMENT")
        kind = model.add(f"IFCPIPESEGMENTTYPE({model.guid()},$,'P',$,$,$,$,$,$,.RIGIDSEGMENT.)")
        model.add(f"IFCRELDEFINESBYTYPE({model.guid()},$,$,$,({pipe}),{kind})")
        model.element([model.block((100, 100, 100))], keyword="IFCSENSOR")
        source, out = self.path("types.ifc", model.text()), self.path("types.out.ifc")
        assert self.run(source, out).returncode == 0
        keywords = sorted(element.keyword for element in read(Path(out)).values())
        assert keywords == ["IFCDISTRIBUTIONELEMENT", "IFCPIPESEGMENT"], keywords

    def storeys(self) -> None:
        """Parts are in the storey of their whole, and a door in that of the wall whose opening it fills."""
        model = Model()
        part = model.element([model.block((100, 100, 100))], keyword="IFCPLATE")
        whole = model.add(f"IFCCURTAINWALL({model.guid()},$,'C',$,$,{model.placement},$,$,$)")
        model.aggregate(whole, [part])
        host = model.element([model.block((4000, 200, 3000))])
        hole = model.opening(host, [model.block((900, 200, 2000), at=(500, 0, 0))])
        door = model.element([model.block((900, 50, 2000), at=(500, 0, 0))], keyword="IFCDOOR")
        model.add(f"IFCRELFILLSELEMENT({model.guid()},$,$,$,{hole},{door})")
        lost = model.element([model.block((100, 100, 100))], keyword="IFCPUMP")
        model.elements.clear()
        model.storey("Upper", [whole], 3000)
        model.storey("Lower", [host])
        source, out = self.path("storeys.ifc", model.text()), self.path("storeys.out.ifc")
        assert self.run(source, out).returncode == 0 and lost
        found = {element.keyword: element.storey for element in read(Path(out)).values()}
        wanted = {"IFCPLATE": "Upper", "IFCWALL": "Lower", "IFCDOOR": "Lower", "IFCPUMP": None}
        assert found == wanted, found

    def never_ending(self) -> None:
        """A placement within itself ends with a word."""
        model = Model()
        own = model.next_name()
        model.add(f"IFCLOCALPLACEMENT({own},{model.identity})")
        model.element([model.block((100, 100, 100))], placement=own)
        text = model.text()
        self.refused(3, (self.path("loop.ifc", text), self.path("loop.out.ifc")), "placements that never end")


def main() -> int:
    program, house, place = given(__doc__, "ifc2grid", "house", "folder")
    folder = Path(place)
    folder.mkdir(parents=True, exist_ok=True)
    words = Words(program, house, folder)
    checks = [
        words.wrong_words,
        words.not_readable,
        words.not_writable,
        words.help,
        words.left_out,
        words.rounding,
        words.same_identifier,
        words.classes_by_type,
        words.storeys,
        words.never_ending,
    ]
    return run_rows("words", {check.__name__: check for check in checks})


if __name__ == "__main__":
    sys.exit(main())
