"""Files by shape, each for one of the quick ways of reading, and sessions of their clashes."""

from collections.abc import Callable
from typing import NamedTuple

from tests.hostile.heads import head_of
from tests.ifc.basics import body_of, file_of, pipe, placement, points, shape, triangle, triangles
from tests.ifc.crowds import (
    chain,
    mapped,
    parts,
    placed,
    shared_shape,
    shared_storey,
    sharing,
    sheets,
    two_storeys,
    walls,
)
from tests.ifc.polygons import comb, combs, convex, listed_faces, loop, polygons, strip
from tests.ifc.solids import boxes, boxes_at, heap
from tests.ifc.voids import faces_with_voids, listed_voids, rings, windows
from tests.support.http import coord_of, request, rules, topics_of

MODEL = f"{coord_of()}/models/m"
FIRST_CLASH = f"{coord_of()}/versions/2/clashes?count=1"
MADE = b"HTTP/1.1 201 "
REFUSED = b"HTTP/1.1 422 "
FULL = b"HTTP/1.1 507 "


class Shape(NamedTuple):
    """A session by shape: what it is, how often it may take what a plain session of its kind takes
    for as many bytes, its bytes, and how its last reply begins."""

    name: str
    bound: float
    make: Callable[[], bytes]
    answer: bytes = MADE


def upload(file: bytes) -> bytes:
    return request("PUT", MODEL, file)


def topic(body: bytes) -> bytes:
    return request("POST", topics_of(), body)


def clashes(file: bytes, body: bytes = rules(0)) -> bytes:
    return request("PUT", f"{coord_of()}/rules", body) + upload(file)


PIERCED = b'{"rules":[{"a":"*","b":"*","kind":"pierce"}]}'


def ordered(count: int, times: int) -> bytes:
    """So many topics, their titles falling, and so often the end of their list by title."""
    made = (topic(b'{"title":"%07d"}' % (count - n)) for n in range(count))
    page = request("GET", f"{topics_of()}?%24orderby=title&%24skip={count - 1}")
    return b"".join(made) + page * times


def first_titles(count: int, times: int) -> bytes:
    """So many topics, whose titles differ in their last letters alone, and so often the first three
    by title."""
    made = (topic(b'{"title":"%s%07d"}' % (b"a" * 1000, count - n)) for n in range(count))
    page = request("GET", f"{topics_of()}?%24orderby=title&%24top=3")
    return b"".join(made) + page * times


def searched(count: int, times: int) -> bytes:
    """So many topics with long descriptions, and so often those with a long text that is in none,
    though its front is in each at each place."""
    made = topic(b'{"title":"a","description":"%s"}' % (b"a" * 4096)) * count
    sought = "a" * 3000 + "b"
    page = request("GET", f"{topics_of()}?%24filter=contains(description,'{sought}')")
    return made + page * times


def chunked(body: bytes) -> bytes:
    """A topic whose body comes in chunks of a byte."""
    head = f"POST {topics_of()} HTTP/1.1\r\nHost: h\r\nTransfer-Encoding: chunked\r\n\r\n"
    return head.encode() + b"".join(b"1\r\n%c\r\n" % byte for byte in body) + b"0\r\n\r\n"


def many_rules(first: bytes, count: int = 200) -> bytes:
    """So many rules, of which the last fits any two elements and those before don't fit ours."""
    return b'{"rules":[' + first * (count - 1) + rules(0)[10:]


def one_slot(count: int) -> bytes:
    """Walls whose identifiers differ in their first letters alone, which no hash of them reads."""
    named = (
        f"#{at + 8}=IFCWALL('{at:010d}000000000000',$,'Wall',$,$,$,#7,$,$);\n"
        for at in range(count)
    )
    return file_of(triangle(), shape(), *named)


def too_far(file: bytes) -> bytes:
    """The file with an element more that reaches beyond the greatest model, which is the last that
    is looked for."""
    corners = [(799_950, 0), (800_050, 0), (799_950, 100)]
    more = (
        placement(900_000, (50, 0, 0))
        + points(900_004, [(x - 50, y) for x, y in corners])
        + triangles(900_005, 900_004, "(1,2,3)")
        + body_of(900_006, "#900005")
        + pipe(900_008, "z" * 22, of=900_007, placement="#900002")
    )
    at = file.rindex(b"ENDSEC;")
    return file[:at] + more.encode() + file[at:]


def with_fault(file: bytes) -> bytes:
    """The file with an element more whose set has a bad index, which comes after all others."""
    more = (
        points(900_004, [(0, 0), (100, 0), (0, 100)])
        + triangles(900_005, 900_004, "(1,2,4)")
        + body_of(900_006, "#900005")
        + pipe(900_008, "z" * 22, of=900_007)
    )
    at = file.rindex(b"ENDSEC;")
    return file[:at] + more.encode() + file[at:]


def many_rows(count: int) -> bytes:
    """One set of so many triangles."""
    faces = ",".join(["(1,2,3)"] * count)
    corners = points(4, [(0, 0), (100, 0), (0, 100)])
    return file_of(corners, triangles(5, 4, faces), shape(), pipe(8, "p" * 22))


def far_numbers(count: int) -> bytes:
    """Pipes whose instances have numbers far apart and uneven, of which each is referred to."""
    numbers = [n * n * 3 + 1000 for n in range(count)]
    rows = []
    for at, n in enumerate(numbers):
        rows.append(points(20 * n, [(at, 0), (at + 100, 0), (at, 100)]))
        rows.append(triangles(20 * n + 1, 20 * n, "(1,2,3)"))
        rows.append(body_of(20 * n + 2, f"#{20 * n + 1}"))
        rows.append(pipe(20 * n + 4, f"{at:022}", of=20 * n + 3))
    return file_of(*rows)


def faces_of_sets(sets: int) -> bytes:
    """So many sets that list one convex face of 1,000 corners fifty times each."""
    names = ",".join(["#5"] * 50)
    return file_of(
        points(4, convex()),
        f"#5=IFCINDEXEDPOLYGONALFACE(({loop(1000)}));\n",
        body_of(6, ",".join(f"#{100 + n}" for n in range(sets))),
        pipe(8, "p" * 22),
        *(f"#{100 + n}=IFCPOLYGONALFACESET(#4,$,({names}),$);\n" for n in range(sets)),
    )


def ramps(count: int) -> bytes:
    """Slanted plates of 500 triangles, one above the other, whose boxes meet."""
    corners = [(6 * n, y, 6 * n) for n in range(251) for y in (0, 3000)]
    strips = ((2 * n + 1, 2 * n + 2, 2 * n + 3, 2 * n + 4) for n in range(250))
    faces = ",".join(f"({a},{b},{c}),({b},{d},{c})" for a, b, c, d in strips)
    parts = [points(4, corners), triangles(5, 4, faces), shape()]
    for n in range(count):
        parts.append(placement(10 + 4 * n, (0, 0, 30 * n)))
        parts.append(pipe(13 + 4 * n, f"{n:022}", placement=f"#{12 + 4 * n}"))
    return file_of(*parts)


def again(count: int) -> bytes:
    """A version of long pipes by twos, and seven more, each by a small model at the side."""
    small = boxes_at([(790_000, 0, 0)])
    more = (request("PUT", f"{coord_of()}/models/n{n}", small) for n in range(7))
    return clashes(placed(count, 8000, 15000, 40, 2)) + b"".join(more)


# Uploads, beside boxes.
FILES = [
    Shape("a set mapped 100,000 times", 60, lambda: upload(mapped(100_000))),
    Shape("20,000 placed pipes", 4, lambda: upload(placed(20_000, 100, 300))),
    Shape("a chain of 60,000 placements", 6, lambda: upload(chain(60_000, 100))),
    Shape("20,000 pipes at a chain of 20,000", 5, lambda: upload(chain(20_000, 20_000))),
    Shape("60,000 walls that share a shape", 4, lambda: upload(walls(60_000))),
    Shape("20,000 walls whose identifiers share a slot", 6, lambda: upload(one_slot(20_000))),
    Shape("20,000 walls in a storey", 3.5, lambda: upload(shared_storey(20_000, 10))),
    Shape(
        "5,000 walls in a storey whose name has 100,000 bytes",
        6,
        lambda: upload(shared_storey(5_000, 100_000)),
    ),
    Shape(
        "2,000 walls that share a shape of 2,000 representations, refused",
        25,
        lambda: upload(too_far(shared_shape(2_000))),
        REFUSED,
    ),
    Shape("20 combs", 15, lambda: upload(combs(20, 1000))),
    Shape("a comb, listed 200 times", 150, lambda: upload(polygons(comb(), 1, 200))),
    Shape("a winding strip, listed 200 times", 150, lambda: upload(polygons(strip(), 1, 200))),
    Shape("a convex face, listed 200 times", 150, lambda: upload(polygons(convex(), 1, 200))),
    Shape(
        "20 faces of 1,000 corners in 50 holes",
        35,
        lambda: upload(faces_with_voids(windows(800, 50, 4), 20)),
    ),
    Shape("a face of 20 rings, listed 50 times", 200, lambda: upload(listed_voids(rings(20), 50))),
    Shape("a comb, shared by 900 pipes", 150, lambda: upload(polygons(comb(), 1, 1, 900))),
    Shape("1,000 sets over a list of 50,000 points", 4, lambda: upload(sharing(1000, 50_000))),
    Shape(
        "1,000 sets over a list of 50,000 points, refused",
        8,
        lambda: upload(with_fault(sharing(1000, 50_000))),
        REFUSED,
    ),
    Shape(
        "a face listed 50 times by each of 200 sets, refused",
        400,
        lambda: upload(faces_of_sets(200)),
        REFUSED,
    ),
    Shape(
        "sets of millions of triangles, refused",
        150,
        lambda: upload(listed_faces(40, 1002)),
        REFUSED,
    ),
    Shape("a set of 400,000 triangles", 4, lambda: upload(many_rows(400_000))),
    Shape("5,000 pipes with far numbers", 5, lambda: upload(far_numbers(5_000))),
    Shape("a part of a part, 30,000 deep", 3, lambda: upload(parts(30_000))),
    Shape(
        "a zero of 100,000 digits, read 500 times",
        400,
        lambda: upload(mapped(500, "0" * 100_000 + ".")),
    ),
    Shape(
        "lists in lists, 32 deep",
        3,
        lambda: upload(file_of(*(f"#{n}=A({'(' * 31}{')' * 31});\n" for n in range(10, 30_000)))),
    ),
    Shape(
        "200,000 instances, their numbers falling",
        4,
        lambda: upload(file_of(*(f"#{300_000 - n}=A();\n" for n in range(200_000)))),
    ),
    Shape("20,000 buckets, and seven versions more", 40, lambda: again(2_400)),
]

# The work on clashes, beside that of pipes by twos.
CLASHES = [
    Shape("600 pipes at one place", 60, lambda: clashes(placed(600, 100, 0))),
    Shape("1,500 pipes apart in a few cells", 6, lambda: clashes(placed(1500, 10, 200, 12))),
    Shape("a heap of 600 boxes", 30, lambda: clashes(heap(600))),
    Shape("20 sheets of 1,000 triangles", 600, lambda: clashes(sheets(20))),
    Shape("20 slanted plates of 500 triangles", 90, lambda: clashes(ramps(20))),
    Shape("20 sheets that don't pierce", 600, lambda: clashes(sheets(20), PIERCED)),
    Shape("20 plates that don't pierce", 90, lambda: clashes(ramps(20), PIERCED)),
    Shape("100,000 buckets", 17, lambda: clashes(placed(12_000, 8000, 15000, 40, 2))),
    Shape(
        "300 pipes, by the last of 200 rules",
        200,
        lambda: clashes(
            placed(300, 100, 0), many_rules(b'{"a":"*","b":"IFCPIPESEGMENTS","distance":0},')
        ),
    ),
    Shape(
        "60 pipes in storeys of 10,000 bytes",
        1000,
        lambda: clashes(
            two_storeys(60, 10_000),
            many_rules(b'{"a":"*","b":"*","distance":0,"storey":"different"},'),
        ),
    ),
    Shape(
        "49,770 clashes of many buckets, listed",
        15,
        lambda: clashes(placed(79 * 36, 100, 9000, 9, 36)) + request("GET", FIRST_CLASH),
        b"HTTP/1.1 200 ",
    ),
]

# Changes, beside small topics.
REQUESTS = [
    Shape(
        "a body of 20,000 members",
        4,
        lambda: topic(b'{"title":"a"' + b"".join(b',"%07d":1' % n for n in range(20_000)) + b"}"),
    ),
    Shape(
        "a body of lists, 120 deep",
        4,
        lambda: topic(b'{"title":"a","x":[' + (b"[" * 120 + b"]" * 120 + b",") * 1000 + b"1]}"),
    ),
    Shape(
        "a body of objects, 125 deep",
        6,
        lambda: topic(
            b'{"title":"a","x":[' + (b'{"":' * 125 + b"1" + b"}" * 125 + b",") * 400 + b"1]}"
        ),
    ),
    Shape(
        "a number of 400,000 digits",
        1,
        lambda: topic(b'{"title":"a","x":' + b"1" * 400_000 + b"}"),
        b"HTTP/1.1 400 ",
    ),
    Shape("heads of 16,384 bytes", 1, lambda: head_of(16_384) * 50, b"HTTP/1.1 200 "),
    Shape("2,000 topics, ordered 50 times", 5, lambda: ordered(2_000, 50), b"HTTP/1.1 200 "),
    Shape("the first of 2,000 titles", 3, lambda: first_titles(2_000, 200), b"HTTP/1.1 200 "),
    Shape("300 descriptions, searched", 3, lambda: searched(300, 5), b"HTTP/1.1 200 "),
    Shape("elements in too many cells", 1.6, lambda: upload(placed(2_000, 150_000, 10)), FULL),
]

PLAIN_TOPIC = b'{"title":"a plain topic","description":"of some words"}'

# Changes that come a byte at a time, beside small topics that do.
PIECES = [
    Shape("a long head, byte by byte", 5, lambda: head_of(16_384) * 8, b"HTTP/1.1 200 "),
    Shape("a body in chunks, byte by byte", 5, lambda: chunked(PLAIN_TOPIC + b" " * 20_000)),
]
PLAIN: dict[str, Callable[[], bytes]] = {
    "files": lambda: upload(boxes(4000)),
    "clashes": lambda: clashes(placed(32_000, 100, 9000, 47, 2)),
    "requests": lambda: topic(PLAIN_TOPIC) * 4000,
    "pieces": lambda: topic(PLAIN_TOPIC) * 400,
}
