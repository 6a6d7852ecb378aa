#!/usr/bin/python3
"""A made building of two trades, as IFC4 files that the server takes.

sample.py arch|mep|mep-next prints one. `arch` is an office of three storeys, `mep` its ducts and pipes,
and `mep-next` the next revision of those: the duct of the first floor is lower, a riser is moved, a branch is added.
"""
import argparse
import hashlib
import math
import sys
from collections.abc import Callable

BAYS = 4
BAY = 6000
DEPTH = 12000
HEIGHT = 3400
STOREYS = ["Ground floor", "First floor", "Second floor"]
ROOF = "Roof"
LETTERS = "0123456789ABCDEFGHIJKLMNOPQRSTUVWXYZabcdefghijklmnopqrstuvwxyz_$"
BOX_FACES = [
    (1, 3, 2),
    (2, 3, 4),
    (5, 6, 7),
    (6, 8, 7),
    (1, 2, 5),
    (2, 6, 5),
    (3, 7, 4),
    (4, 7, 8),
    (1, 5, 3),
    (3, 5, 7),
    (2, 4, 6),
    (4, 8, 6),
]

Point = tuple[int, int, int]


class File:
    """A file of the profile: elements are added, `text` is the whole."""

    def __init__(self, prefix: str) -> None:
        self.prefix = prefix
        self.lines: list[str] = []
        self.count = 9
        self.storeys: dict[str, list[str]] = {name: [] for name in [*STOREYS, ROOF]}

    def add(self, text: str) -> str:
        """Adds an instance; its name."""
        self.count += 1
        self.lines.append(f"#{self.count}={text};")
        return f"#{self.count}"

    def guid(self, of: str) -> str:
        """An identifier of 22 characters, which stays from revision to revision."""
        digits = hashlib.sha256(of.encode()).digest()[: 22 - len(self.prefix)]
        return self.prefix + "".join(LETTERS[digit % 64] for digit in digits)

    def mesh(
        self,
        kind: str,
        name: str,
        storey: str,
        points: list[Point],
        faces: list[tuple[int, int, int]],
    ) -> None:
        """An element with one face set."""
        corners = ",".join("(%d.,%d.,%d.)" % p for p in points)
        indices = ",".join("(%d,%d,%d)" % f for f in faces)
        at = self.add(f"IFCCARTESIANPOINTLIST3D(({corners}))")
        item = self.add(f"IFCTRIANGULATEDFACESET({at},$,.T.,({indices}),$)")
        body = self.add(f"IFCSHAPEREPRESENTATION($,'Body','Tessellation',({item}))")
        shape = self.add(f"IFCPRODUCTDEFINITIONSHAPE($,$,({body}))")
        more = 6 if kind in ("IFCDOOR", "IFCWINDOW") else 2
        rest = ",$" * more
        one = self.add(f"{kind}('{self.guid(storey + name)}',$,'{name}',$,$,$,{shape}{rest})")
        self.storeys[storey].append(one)

    def box(self, kind: str, name: str, storey: str, low: Point, high: Point) -> None:
        """An element that is a box."""
        ends = (low, high)
        points = [(ends[n & 1][0], ends[n >> 1 & 1][1], ends[n >> 2][2]) for n in range(8)]
        self.mesh(kind, name, storey, points, BOX_FACES)

    def pipe(self, name: str, storey: str, begin: Point, end: Point, radius: int) -> None:
        """A pipe along one axis, with eight sides."""
        axis = next(k for k in range(3) if begin[k] != end[k])
        one, two = [k for k in range(3) if k != axis]
        points: list[Point] = []
        for at in (begin, end):
            for n in range(8):
                angle = math.pi * (n + 0.5) / 4
                corner = list(at)
                corner[one] += round(radius * math.cos(angle))
                corner[two] += round(radius * math.sin(angle))
                points.append((corner[0], corner[1], corner[2]))
        faces = []
        for n in range(8):
            m = (n + 1) % 8
            faces += [(n + 1, m + 1, n + 9), (m + 1, m + 9, n + 9)]
        for n in range(1, 7):
            faces += [(1, n + 2, n + 1), (9, n + 9, n + 10)]
        self.mesh("IFCPIPESEGMENT", name, storey, points, faces)

    def tree(self) -> None:
        """The storeys and what is in them."""
        names = [
            self.add(f"IFCBUILDINGSTOREY('{self.guid(name)}',$,'{name}',$,$,$,$,$,.ELEMENT.,{n * HEIGHT}.)")
            for n, name in enumerate(self.storeys)
        ]
        all_names = ",".join(names)
        self.add(f"IFCRELAGGREGATES('{self.guid('tree')}',$,$,$,#1,({all_names}))")
        for name, elements in zip(names, self.storeys.values()):
            if elements:
                inside = ",".join(elements)
                self.add(f"IFCRELCONTAINEDINSPATIALSTRUCTURE('{self.guid(inside)}',$,$,$,({inside}),{name})")

    def text(self) -> str:
        """The whole file."""
        self.tree()
        head = [
            "ISO-10303-21;",
            "HEADER;",
            "FILE_DESCRIPTION((''),'2;1');",
            "FILE_NAME('sample.ifc','2024-05-01T12:00:00',(''),(''),'','','');",
            "FILE_SCHEMA(('IFC4'));",
            "ENDSEC;",
            "DATA;",
            "#1=IFCPROJECT('%s',$,'Sample',$,$,$,$,(),#2);" % (self.prefix + "P" * (22 - len(self.prefix))),
            "#2=IFCUNITASSIGNMENT((#3));",
            "#3=IFCSIUNIT(*,.LENGTHUNIT.,.MILLI.,.METRE.);",
        ]
        return "\n".join([*head, *self.lines, "ENDSEC;", "END-ISO-10303-21;", ""])


def facade(out: File, storey: str, base: int, bay: int) -> None:
    """Below and above the window of one bay, on both long sides."""
    x = bay * BAY
    for side, y in (("south", 0), ("north", DEPTH - 300)):
        low, high = x + 200, x + BAY - 200
        name = f"{side} {bay + 1}"
        top = base + HEIGHT - 250
        out.box("IFCWALL", f"Parapet {name}", storey, (low, y, base), (high, y + 300, base + 900))
        out.box(
            "IFCWINDOW",
            f"Window {name}",
            storey,
            (low, y + 110, base + 900),
            (high, y + 190, base + 2500),
        )
        out.box("IFCWALL", f"Lintel {name}", storey, (low, y, base + 2500), (high, y + 300, top))


def rooms(out: File, storey: str, base: int) -> None:
    """Walls of the corridor with doors, and those of the ends."""
    top = base + HEIGHT - 250
    for side, y in (("south", 5000), ("north", 6850)):
        for bay in range(BAYS):
            x = bay * BAY + 200
            name = f"{side} {bay + 1}"
            out.box("IFCWALL", f"Corridor wall {name}", storey, (x, y, base), (x + 4400, y + 150, top))
            out.box(
                "IFCDOOR",
                f"Door {name}",
                storey,
                (x + 4400, y + 40, base),
                (x + 5400, y + 110, base + 2100),
            )
    for side, x in (("west", -100), ("east", BAYS * BAY - 200)):
        out.box("IFCWALL", f"End wall {side}", storey, (x, 300, base), (x + 300, DEPTH - 300, top))


def frame(out: File, storey: str, base: int) -> None:
    """Columns, and the beams that lie on them across the building."""
    top = base + HEIGHT - 250
    for n in range(BAYS + 1):
        x = n * BAY
        for m, y in enumerate((200, 5075, 6925, DEPTH - 200)):
            out.box(
                "IFCCOLUMN",
                f"Column {n + 1}{'ABCD'[m]}",
                storey,
                (x - 175, y - 175, base),
                (x + 175, y + 175, top - 450),
            )
        out.box(
            "IFCBEAM",
            f"Beam {n + 1}",
            storey,
            (x - 150, 0, top - 450),
            (x + 150, DEPTH, top),
        )


def arch() -> str:
    """The building: slabs, columns, beams, walls, windows, doors."""
    out = File("1ARCH")
    for n, storey in enumerate([*STOREYS, ROOF]):
        low = (-300, -200, n * HEIGHT - 250)
        out.box("IFCSLAB", f"Slab {storey}", storey, low, (BAYS * BAY + 300, DEPTH + 200, n * HEIGHT))
    for n, storey in enumerate(STOREYS):
        base = n * HEIGHT
        frame(out, storey, base)
        rooms(out, storey, base)
        for bay in range(BAYS):
            facade(out, storey, base, bay)
    return out.text()


def air(out: File, storey: str, base: int, lower: int, branches: int) -> None:
    """The duct of the corridor, with branches into the rooms."""
    z = base + HEIGHT - 640 - lower
    for bay in range(BAYS):
        x = bay * BAY
        out.box(
            "IFCDUCTSEGMENT",
            f"Main duct {bay + 1}",
            storey,
            (x + 40, 5700, z),
            (x + BAY - 40, 6300, z + 300),
        )
        for side, y in (("south", 3200), ("north", 6300)) if bay < branches else ():
            name = f"{side} {bay + 1}"
            out.box(
                "IFCDUCTSEGMENT",
                f"Branch duct {name}",
                storey,
                (x + 2800, y, z + 40),
                (x + 3050, y + 2500, z + 240),
            )
            end = y - 300 if side == "south" else y + 2500
            out.box(
                "IFCAIRTERMINAL",
                f"Outlet {name}",
                storey,
                (x + 2725, end, z + 20),
                (x + 3125, end + 300, z + 120),
            )


def water(out: File, storey: str, base: int, moved: int) -> None:
    """Risers, and pipes along the south front."""
    for n, x in enumerate((1200, 7400 + moved, 13200, 19400)):
        low = (x, 4750, base + 100)
        out.pipe(f"Riser {n + 1}", storey, low, (x, 4750, base + HEIGHT + 100), 55)
    for bay in range(BAYS):
        x = bay * BAY
        begin = (x + 250, 420, base + 160)
        out.pipe(f"Heating pipe {bay + 1}", storey, begin, (x + BAY + 240, 420, base + 160), 24)


def mep(later: bool) -> str:
    """Ducts and pipes; the later revision differs as the first lines of this file say."""
    out = File("1MEPS")
    for n, storey in enumerate(STOREYS):
        base = n * HEIGHT
        lower = 520 if later and n == 1 else 0
        air(out, storey, base, lower, BAYS if later and n == 2 else BAYS - 1)
        water(out, storey, base, 290 if later else 0)
    return out.text()


def main() -> int:
    """Prints the file that is named."""
    made: dict[str, Callable[[], str]] = {"arch": arch, "mep": lambda: mep(False), "mep-next": lambda: mep(True)}
    parser = argparse.ArgumentParser(description=__doc__)
    parser.add_argument("file", choices=made)
    sys.stdout.write(made[parser.parse_args().file]())
    return 0


if __name__ == "__main__":
    sys.exit(main())
