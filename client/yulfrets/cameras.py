"""Cameras that look at boxes, and where a camera sees a point."""

from __future__ import annotations

import math
from collections.abc import Iterable
from dataclasses import dataclass

from .bcf_topics import Box

Vector = tuple[float, float, float]
FIELD_OF_VIEW = 60.0
"""Degrees, from the lower edge of the picture to the upper; BCF 2.1 allows 45 to 60."""
ASPECT_RATIO = 4 / 3
MARGIN = 1.15
NEAREST = 1.0
METRE = 1000
"""Millimetres of a metre: boxes are in the one, cameras in the other."""
NOWHERE: Box = (-5000.0, -5000.0, 0.0, 5000.0, 5000.0, 3000.0)
"""Stands for the box of elements that aren't in the version."""


@dataclass(frozen=True)
class Camera:
    """A camera in perspective: metres, and vectors of length one."""

    eye: Vector
    direction: Vector
    up: Vector
    field_of_view: float = FIELD_OF_VIEW
    aspect_ratio: float = ASPECT_RATIO

    @property
    def right(self) -> Vector:
        """The vector to the right of the picture."""
        return cross(self.direction, self.up)

    def seen(self, point: Vector) -> tuple[float, float, float]:
        """Where a point (metres) is in the picture, and its depth.

        The picture goes from -1 to 1 on both axes, to the right and upwards; what is behind the
        camera has a depth of zero or less.
        """
        way = (point[0] - self.eye[0], point[1] - self.eye[1], point[2] - self.eye[2])
        depth = dot(way, self.direction)
        if depth <= 0:
            return 0.0, 0.0, depth
        half = math.tan(math.radians(self.field_of_view) / 2) * depth
        return dot(way, self.right) / (half * self.aspect_ratio), dot(way, self.up) / half, depth


def dot(a: Vector, b: Vector) -> float:
    """The scalar product."""
    return a[0] * b[0] + a[1] * b[1] + a[2] * b[2]


def cross(a: Vector, b: Vector) -> Vector:
    """The vector product."""
    return a[1] * b[2] - a[2] * b[1], a[2] * b[0] - a[0] * b[2], a[0] * b[1] - a[1] * b[0]


def joined(boxes: Iterable[Box]) -> Box:
    """The least box around boxes; one around zero where there are none."""
    found = list(boxes)
    if not found:
        return NOWHERE
    lows = [min(box[axis] for box in found) for axis in range(3)]
    highs = [max(box[axis + 3] for box in found) for axis in range(3)]
    return lows[0], lows[1], lows[2], highs[0], highs[1], highs[2]


def corners(box: Box) -> list[Vector]:
    """The eight corners of a box in metres; the bits of a place say which end of x, y and z."""
    ends = [value / METRE for value in box]
    return [
        (ends[3 * (place & 1)], ends[1 + 3 * (place >> 1 & 1)], ends[2 + 3 * (place >> 2)])
        for place in range(8)
    ]


def size(box: Box) -> float:
    """The sum of a box's sides, by which boxes are larger or smaller."""
    return box[3] - box[0] + box[4] - box[1] + box[5] - box[2]


def middle_of(box: Box) -> Vector:
    """The middle of a box in metres."""
    x, y, z = ((box[axis] + box[axis + 3]) / 2 / METRE for axis in range(3))
    return x, y, z


def side_of(boxes: list[Box]) -> Vector:
    """Where the camera stands, by the signs of x, y and z: where the largest box hides no other.

    That is on the side of the others; from the south-west and above where there is no such side,
    and from below only where they lie beneath the largest one, as pipes under a slab.
    """
    largest = max(boxes, key=size)
    others = [box for box in boxes if box is not largest]
    if not others:
        return -1.0, -1.0, 1.0
    around = joined(others)
    way = [a - b for a, b in zip(middle_of(around), middle_of(largest), strict=True)]
    below = around[5] <= largest[2]
    return 1.0 if way[0] > 0 else -1.0, 1.0 if way[1] > 0 else -1.0, -1.0 if below else 1.0


def distance(points: Iterable[Vector], camera: Camera) -> float:
    """How far behind its eye a camera has to stand to see all points within the margin."""
    half = math.tan(math.radians(camera.field_of_view) / 2) / MARGIN
    far = NEAREST
    for point in points:
        way = (point[0] - camera.eye[0], point[1] - camera.eye[1], point[2] - camera.eye[2])
        across = abs(dot(way, camera.right)) / camera.aspect_ratio
        wanted = max(across, abs(dot(way, camera.up))) / half
        far = max(far, wanted - dot(way, camera.direction))
    return far


def camera_for(boxes: Iterable[Box]) -> Camera:
    """A camera that looks at the middle of boxes, and stands where all of them fill its picture."""
    found = list(boxes) or [NOWHERE]
    box, side = joined(found), side_of(found)
    middle = middle_of(box)
    third, sixth = 1 / math.sqrt(3), 1 / math.sqrt(6)
    direction = (-side[0] * third, -side[1] * third, -side[2] * third)
    up = (-side[0] * side[2] * sixth, -side[1] * side[2] * sixth, 2 * sixth)
    points = [corner for one in found for corner in corners(one)]
    far = distance(points, Camera(middle, direction, up))
    eye = (
        middle[0] - far * direction[0],
        middle[1] - far * direction[1],
        middle[2] - far * direction[2],
    )
    return Camera(eye, direction, up)
