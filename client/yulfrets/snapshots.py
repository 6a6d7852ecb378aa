"""Pictures of elements, drawn from their boxes."""

from __future__ import annotations

import importlib.util
import io
from collections.abc import Sequence
from dataclasses import dataclass

from .bcf_topics import Box
from .cameras import METRE, Camera, corners, joined, size

WIDTH, HEIGHT, FINE, MOST_COLORS = 640, 480, 2, 128
Color = tuple[int, int, int]
BACKGROUND: Color = (250, 250, 250)
SURROUNDINGS: Color = (222, 226, 230)
PALE_EDGE: Color = (190, 196, 202)
EDGE: Color = (40, 40, 40)
SHINING = 215
"""How opaque all but the largest solid are, of 255."""
COLORS: list[Color] = [(200, 60, 50), (50, 100, 190), (60, 150, 80), (200, 150, 40)]
SHADES = {0: 0.80, 1: 0.92, 2: 1.08}
"""How bright a face is, by the axis that it stands on."""
MOST_NEAR = 300
LEAST_REACH = 3.0 * METRE
"""How far around the chosen boxes others are drawn at least, in millimetres."""
FACES = [
    (0, 0, (0, 2, 6, 4)),
    (0, 1, (1, 3, 7, 5)),
    (1, 0, (0, 1, 5, 4)),
    (1, 1, (2, 3, 7, 6)),
    (2, 0, (0, 1, 3, 2)),
    (2, 1, (4, 5, 7, 6)),
]
"""Each face of a box: its axis, which end of it, and its corners in their order round."""


def has_pil() -> bool:
    """Whether the package that draws pictures is there; it is loaded when one is drawn."""
    return importlib.util.find_spec("PIL") is not None


@dataclass(frozen=True)
class Solid:
    """A box with its color."""

    box: Box
    color: Color


def color_of(text: str) -> Color | None:
    """The color of 6 or 8 hexadecimal digits; of 8 the first two say how opaque it is."""
    digits = text.lstrip("#")[-6:]
    try:
        return int(digits[:2], 16), int(digits[2:4], 16), int(digits[4:6], 16)
    except ValueError:
        return None


def shaded(color: Color, axis: int) -> Color:
    """The color of a face that stands on an axis."""
    red, green, blue = (min(255, round(part * SHADES[axis])) for part in color)
    return red, green, blue


def near(boxes: Sequence[Box], chosen: Sequence[Box]) -> list[Box]:
    """The boxes around the chosen ones, as far as these are large, and three metres at least."""
    box = joined(chosen)
    reach = max(LEAST_REACH, *(box[axis + 3] - box[axis] for axis in range(3)))
    low = [box[axis] - reach for axis in range(3)]
    high = [box[axis + 3] + reach for axis in range(3)]
    left_out = set(chosen)
    found = [
        one
        for one in boxes
        if one[0] <= high[0]
        and one[1] <= high[1]
        and one[2] <= high[2]
        and one[3] >= low[0]
        and one[4] >= low[1]
        and one[5] >= low[2]
        and one not in left_out
    ]
    return found[:MOST_NEAR]


@dataclass(frozen=True)
class Face:
    """A face of a box as the camera sees it: how far it is, its corners in pixels, its color."""

    depth: float
    points: list[tuple[float, float]]
    color: Color


def faces_of(solid: Solid, camera: Camera) -> list[Face]:
    """The faces of a box that are turned to the camera, the farthest first; none behind it."""
    seen = [camera.seen(point) for point in corners(solid.box)]
    if min(depth for _, _, depth in seen) <= 0.05:
        return []
    found: list[Face] = []
    for axis, end, places in FACES:
        level = solid.box[axis + 3 * end] / METRE
        if (camera.eye[axis] - level) * (1 if end else -1) <= 0:
            continue
        depth = sum(seen[place][2] for place in places) / 4
        points = [
            ((seen[p][0] + 1) / 2 * WIDTH * FINE, (1 - seen[p][1]) / 2 * HEIGHT * FINE)
            for p in places
        ]
        found.append(Face(depth, points, shaded(solid.color, axis)))
    return sorted(found, key=lambda face: -face.depth)


def snapshot(solids: Sequence[Solid], around: Sequence[Box], camera: Camera) -> bytes | None:
    """A PNG of the solids over their pale surroundings; None where the package PIL isn't there.

    The largest is drawn first and the others shine through, so that none hides another.
    """
    if not has_pil():
        return None
    from PIL import Image, ImageDraw

    image = Image.new("RGB", (WIDTH * FINE, HEIGHT * FINE), BACKGROUND)
    draw = ImageDraw.Draw(image, "RGBA")
    pale = [face for box in around for face in faces_of(Solid(box, SURROUNDINGS), camera)]
    for face in sorted(pale, key=lambda face: -face.depth):
        draw.polygon(face.points, fill=face.color, outline=PALE_EDGE)
    for place, solid in enumerate(sorted(solids, key=lambda solid: -size(solid.box))):
        for face in faces_of(solid, camera):
            draw.polygon(face.points, fill=(*face.color, 255 if place == 0 else SHINING))
            draw.line([*face.points, face.points[0]], fill=EDGE, width=FINE)
    stored = io.BytesIO()
    # with a palette a picture has a third of the bytes
    smaller = image.resize((WIDTH, HEIGHT), Image.LANCZOS).quantize(MOST_COLORS)
    smaller.save(stored, "PNG", optimize=True)
    return stored.getvalue()


def solids_of(boxes: Sequence[tuple[Box, str | None]]) -> list[Solid]:
    """Boxes with the colors that they were given, or one after the other."""
    return [
        Solid(box, (color_of(color) if color else None) or COLORS[place % len(COLORS)])
        for place, (box, color) in enumerate(boxes)
    ]
