"""Whether two surfaces come within a distance, by whole numbers and fractions alone."""

from fractions import Fraction

from tests.oracle.model_file import Element

Vector = tuple[int, int, int]
Triangle = tuple[Vector, Vector, Vector]


def minus(a: Vector, b: Vector) -> Vector:
    return a[0] - b[0], a[1] - b[1], a[2] - b[2]


def dot(a: Vector, b: Vector) -> int:
    return a[0] * b[0] + a[1] * b[1] + a[2] * b[2]


def cross(a: Vector, b: Vector) -> Vector:
    return a[1] * b[2] - a[2] * b[1], a[2] * b[0] - a[0] * b[2], a[0] * b[1] - a[1] * b[0]


def point_to_edge(p: Vector, a: Vector, b: Vector) -> Fraction:
    """The squared distance of a point from a closed segment, which may be a point."""
    along, from_a = minus(b, a), minus(p, a)
    length, part = dot(along, along), dot(from_a, along)
    if part <= 0 or length == 0:
        return Fraction(dot(from_a, from_a))
    if part >= length:
        from_b = minus(p, b)
        return Fraction(dot(from_b, from_b))
    return dot(from_a, from_a) - Fraction(part * part, length)


def edge_to_edge(a: Vector, b: Vector, p: Vector, q: Vector) -> Fraction:
    """The squared distance of two closed segments."""
    u, v, w = minus(b, a), minus(q, p), minus(p, a)
    ends = min(
        point_to_edge(a, p, q),
        point_to_edge(b, p, q),
        point_to_edge(p, a, b),
        point_to_edge(q, a, b),
    )
    n = cross(u, v)
    size = dot(n, n)
    if size == 0:
        return ends
    # where the lines come nearest: w + t v - s u is along n
    s, t = dot(cross(w, v), n), dot(cross(w, u), n)
    if 0 <= s <= size and 0 <= t <= size:
        return min(ends, Fraction(dot(w, n) ** 2, size))
    return ends


def is_over(p: Vector, scale: int, triangle: Triangle, n: Vector) -> bool:
    """Whether the foot of the point p divided by a scale above zero lies in the closed triangle,
    whose normal is n."""
    a, b, c = triangle
    for one, other in ((a, b), (b, c), (c, a)):
        x, y, z = one
        away = minus(p, (x * scale, y * scale, z * scale))
        if dot(n, cross(minus(other, one), away)) < 0:
            return False
    return True


def normal(triangle: Triangle) -> Vector:
    a, b, c = triangle
    return cross(minus(b, a), minus(c, a))


def crosses(p: Vector, q: Vector, triangle: Triangle, n: Vector) -> bool:
    """Whether the closed segment meets the face of a triangle at one point between its ends."""
    from_p, from_q = dot(n, minus(p, triangle[0])), dot(n, minus(q, triangle[0]))
    if from_p * from_q > 0 or from_p == from_q:
        return False
    scale, sign = abs(from_p - from_q), 1 if from_p > from_q else -1
    x, y, z = (sign * (from_p * b - from_q * a) for a, b in zip(p, q, strict=True))
    return is_over((x, y, z), scale, triangle, n)


def edges(triangle: Triangle) -> list[tuple[Vector, Vector]]:
    a, b, c = triangle
    return [(a, b), (b, c), (c, a)]


def faces_within(one: Triangle, other: Triangle, square: int) -> bool:
    """Whether the face of one is met by an edge of the other, or one of its corners is near."""
    n = normal(one)
    size = dot(n, n)
    if size == 0:
        return False
    if any(crosses(p, q, one, n) for p, q in edges(other)):
        return True
    return any(
        dot(n, minus(p, one[0])) ** 2 <= square * size and is_over(p, 1, one, n) for p in other
    )


def near(one: Triangle, other: Triangle, distance: int) -> bool:
    """Whether two closed triangles come within a distance."""
    square = distance * distance
    if faces_within(one, other, square) or faces_within(other, one, square):
        return True
    return any(edge_to_edge(a, b, p, q) <= square for a, b in edges(one) for p, q in edges(other))


def box_of(triangle: Triangle) -> list[int]:
    columns = list(zip(*triangle, strict=True))
    return [min(it) for it in columns] + [max(it) for it in columns]


def boxes_within(one: list[int], other: list[int], distance: int) -> bool:
    """Whether two boxes come within a distance along each axis."""
    return all(
        one[n] <= other[n + 3] + distance and other[n] <= one[n + 3] + distance for n in range(3)
    )


def elements_near(one: Element, other: Element, distance: int) -> bool:
    """Whether two triangles of two elements come within a distance."""
    if not boxes_within(one.box, other.box, distance):
        return False
    boxed = [(it, box_of(it)) for it in other.triangles]
    mine = [(it, box_of(it)) for it in one.triangles]
    return any(
        boxes_within(own, others, distance) and near(a, b, distance)
        for a, own in mine
        if boxes_within(own, other.box, distance)
        for b, others in boxed
    )
