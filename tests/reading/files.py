"""The files that are read: of about 4 MB, times so much."""

import os
import sys
from collections.abc import Callable

from tests.ifc import crowds, polygons, solids

SIZES = {"1": 0.25, "4": 1, "11": 2.5, "28": 6.3}  # with no more triangles than a model may have


def boxes(times: float) -> bytes:
    return solids.boxes(round(8000 * times))


def chains(times: float) -> bytes:
    """Boxes in chains of ten placements."""
    return solids.boxes(round(6000 * times), 10)


def inches(times: float) -> bytes:
    """Boxes whose lengths are whole inches."""
    file = solids.boxes(round(8000 * times), room=(20000, 20000, 12000))
    return file.replace(
        b"#2=IFCUNITASSIGNMENT((#3));\n",
        b"#2=IFCUNITASSIGNMENT((#4));\n"
        b"#4=IFCCONVERSIONBASEDUNIT($,.LENGTHUNIT.,'INCH',#5);\n"
        b"#5=IFCMEASUREWITHUNIT(IFCLENGTHMEASURE(25.4),#3);\n",
    )


def combs(times: float) -> bytes:
    return polygons.combs(min(round(165 * times), 1000), 1000)


def shared(times: float) -> bytes:
    """Walls that share one shape of one triangle."""
    return crowds.walls(round(68000 * times))


def refused(times: float) -> bytes:
    """Boxes of which the last has a bad index."""
    file = boxes(times)
    at = file.rindex(b"(4,8,6)")
    return file[:at] + b"(4,8,9)" + file[at + 7 :]


def property_sets(times: float) -> bytes:
    """Boxes, each with two sets of eight properties that nothing of a surface refers to; no more
    than may be uploaded."""
    count = round(2400 * min(times, 6))
    return solids.property_sets(solids.boxes(count), count)


def tubes(times: float) -> bytes:
    """Tubes of 32 sides in one to three lengths."""
    return solids.tubes(min(round(950 * times), 5000))


KINDS: dict[str, Callable[[float], bytes]] = {
    "boxes": boxes,
    "tubes": tubes,
    "property_sets": property_sets,
    "shared": shared,
    "chains": chains,
    "inches": inches,
    "combs": combs,
    "refused": refused,
}


def write(path: str, kind: str, size: str) -> None:
    """Makes a file in a process of its own, so that this one stays small."""
    child = os.fork()
    if child == 0:
        with open(path, "wb") as file:
            file.write(KINDS[kind](SIZES[size]))
        os._exit(0)
    if os.waitpid(child, 0)[1]:
        sys.exit("can't make " + path)
