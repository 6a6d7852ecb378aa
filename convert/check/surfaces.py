"""Advanced breps: faces on planes, cylinders, cones, spheres, tori and B-splines, with and without seams."""

from __future__ import annotations

import math
from typing import Callable, Sequence

from cases import ROUND, Case, of_items
from model import Model, Vector, listed, number, numbers

SURFACES: list[Callable[[], Case]] = []
Way = tuple[str, bool]
UP, DOWN = (0, 0, 1), (0, 0, -1)


class Shell:
    """A closed shell of advanced faces."""

    def __init__(self, model: Model) -> None:
        self.model = model
        self.vertices: dict[tuple[float, ...], str] = {}
        self.faces: list[str] = []

    def vertex(self, at: Vector) -> str:
        key = tuple(at)
        if key not in self.vertices:
            self.vertices[key] = self.model.add(f"IFCVERTEXPOINT({self.model.point(*at)})")
        return self.vertices[key]

    def edge(self, start: Vector, end: Vector, curve: str, same: bool = True) -> str:
        sense = ".T." if same else ".F."
        return self.model.add(f"IFCEDGECURVE({self.vertex(start)},{self.vertex(end)},{curve},{sense})")

    def line(self, start: Vector, end: Vector) -> str:
        way = [b - a for a, b in zip(start, end)]
        length = math.sqrt(sum(x * x for x in way))
        direction = self.model.direction(*[x / length for x in way])
        vector = self.model.add(f"IFCVECTOR({direction},1.)")
        return self.edge(start, end, self.model.add(f"IFCLINE({self.model.point(*start)},{vector})"))

    def circle(self, centre: Vector, z: Vector, x: Vector, radius: float, start: Vector, end: Vector) -> str:
        axes = self.model.axes(centre, z, x)
        return self.edge(start, end, self.model.add(f"IFCCIRCLE({axes},{number(radius)})"))

    def plane(self, at: Vector, z: Vector, x: Vector) -> str:
        return self.model.add(f"IFCPLANE({self.model.axes(at, z, x)})")

    def face(self, surface: str, loops: Sequence[Sequence[Way]], same: bool = True) -> None:
        bounds = []
        for place, ways in enumerate(loops):
            edges = []
            for edge, forward in ways:
                sense = ".T." if forward else ".F."
                edges.append(self.model.add(f"IFCORIENTEDEDGE(*,*,{edge},{sense})"))
            loop = self.model.add(f"IFCEDGELOOP({listed(edges)})")
            kind = "IFCFACEBOUND" if place else "IFCFACEOUTERBOUND"
            bounds.append(self.model.add(f"{kind}({loop},.T.)"))
        sense = ".T." if same else ".F."
        self.faces.append(self.model.add(f"IFCADVANCEDFACE({listed(bounds)},{surface},{sense})"))

    def flat(self, points: Sequence[Vector], edges: Sequence[Way], z: Vector, x: Vector) -> None:
        self.face(self.plane(points[0], z, x), [edges])

    def solid(self) -> str:
        return self.model.add(f"IFCADVANCEDBREP({self.model.add(f'IFCCLOSEDSHELL({listed(self.faces)})')})")


def surface_case(make: Callable[[], Case]) -> Callable[[], Case]:
    SURFACES.append(make)
    return make


@surface_case
def advanced_cube() -> Case:
    from cases import CORNERS, CUBE, FACES

    shell = Shell(Model())
    edges: dict[tuple[int, int], str] = {}
    for (ring,) in FACES:
        ways = []
        for a, b in zip(ring, ring[1:] + ring[:1]):
            key = (min(a, b), max(a, b))
            if key not in edges:
                edges[key] = shell.line(CORNERS[key[0]], CORNERS[key[1]])
            ways.append((edges[key], a < b))
        p, q, r = (CORNERS[k] for k in ring[:3])
        u = [(b - a) / 1000 for a, b in zip(p, q)]
        v = [(b - a) / 1000 for a, b in zip(q, r)]
        z = [u[1] * v[2] - u[2] * v[1], u[2] * v[0] - u[0] * v[2], u[0] * v[1] - u[1] * v[0]]
        shell.flat([p], ways, z, u)
    return of_items("advanced_brep", shell.model, [shell.solid()], 1, CUBE)


def capped(shell: Shell, radius: float, height: float) -> tuple[str, str]:
    """The circles and the flat ends of a cylinder."""
    low = shell.circle((0, 0, 0), UP, (1, 0, 0), radius, (radius, 0, 0), (radius, 0, 0))
    high = shell.circle((0, 0, height), UP, (1, 0, 0), radius, (radius, 0, height), (radius, 0, height))
    shell.face(shell.plane((0, 0, 0), DOWN, (1, 0, 0)), [[(low, False)]])
    shell.face(shell.plane((0, 0, height), UP, (1, 0, 0)), [[(high, True)]])
    return low, high


CYLINDER_BOX = [-500, -500, 0, 500, 500, 1000]


def cylinder(name: str, seam: bool, turned: bool = False) -> None:
    def make() -> Case:
        shell = Shell(Model())
        low, high = capped(shell, 500, 1000)
        surface = shell.model.add(f"IFCCYLINDRICALSURFACE({shell.model.axes((0, 0, 0))},500.)")
        if seam:
            line = shell.line((500, 0, 0), (500, 0, 1000))
            shell.face(surface, [[(low, True), (line, True), (high, False), (line, False)]])
        else:
            shell.face(surface, [[(low, True)], [(high, False)]])
        return of_items(name, shell.model, [shell.solid()], math.pi / 4, CYLINDER_BOX, ROUND)

    SURFACES.append(make)


cylinder("cylinder_with_seam", True)
cylinder("cylinder_without_seam", False)


@surface_case
def half_cylinder() -> Case:
    shell = Shell(Model())
    ends = [(500, 0, 0), (-500, 0, 0), (500, 0, 1000), (-500, 0, 1000)]
    arcs = [shell.circle((0, 0, z), UP, (1, 0, 0), 500, (500, 0, z), (-500, 0, z)) for z in (0, 1000)]
    chords = [shell.line(ends[1], ends[0]), shell.line(ends[3], ends[2])]
    sides = [shell.line(ends[0], ends[2]), shell.line(ends[1], ends[3])]
    shell.face(shell.plane((0, 0, 0), DOWN, (1, 0, 0)), [[(chords[0], False), (arcs[0], False)]])
    shell.face(shell.plane((0, 0, 1000), UP, (1, 0, 0)), [[(arcs[1], True), (chords[1], True)]])
    front = [(chords[0], True), (sides[0], True), (chords[1], False), (sides[1], False)]
    shell.face(shell.plane((0, 0, 0), (0, -1, 0), (1, 0, 0)), [front])
    surface = shell.model.add(f"IFCCYLINDRICALSURFACE({shell.model.axes((0, 0, 0))},500.)")
    shell.face(surface, [[(arcs[0], True), (sides[1], True), (arcs[1], False), (sides[0], False)]])
    box = [-500, 0, 0, 500, 500, 1000]
    return of_items("half_cylinder", shell.model, [shell.solid()], math.pi / 8, box, ROUND)


@surface_case
def drilled_block() -> Case:
    """A block with a round hole, whose wall is seen from the cylinder's inside."""
    shell = Shell(Model())
    corners = [(-1000, -1000), (1000, -1000), (1000, 1000), (-1000, 1000)]
    rims = [[(x, y, z) for x, y in corners] for z in (0, 500)]
    rings = [[shell.line(rim[k], rim[(k + 1) % 4]) for k in range(4)] for rim in rims]
    posts = [shell.line(rims[0][k], rims[1][k]) for k in range(4)]
    circles = [shell.circle((0, 0, z), UP, (1, 0, 0), 300, (300, 0, z), (300, 0, z)) for z in (0, 500)]
    down = [(edge, False) for edge in reversed(rings[0])]
    shell.face(shell.plane((0, 0, 0), DOWN, (1, 0, 0)), [down, [(circles[0], True)]])
    shell.face(shell.plane((0, 0, 500), UP, (1, 0, 0)), [[(e, True) for e in rings[1]], [(circles[1], False)]])
    outs = [((0, -1, 0), (1, 0, 0)), ((1, 0, 0), (0, 1, 0)), ((0, 1, 0), (-1, 0, 0)), ((-1, 0, 0), (0, -1, 0))]
    for k, (z, x) in enumerate(outs):
        ways = [(rings[0][k], True), (posts[(k + 1) % 4], True), (rings[1][k], False), (posts[k], False)]
        shell.face(shell.plane(rims[0][k], z, x), [ways])
    surface = shell.model.add(f"IFCCYLINDRICALSURFACE({shell.model.axes((0, 0, 0))},300.)")
    shell.face(surface, [[(circles[0], False)], [(circles[1], True)]], same=False)
    volume = 2 - math.pi * 0.09 * 0.5
    return of_items("drilled_block", shell.model, [shell.solid()], volume, [-1000, -1000, 0, 1000, 1000, 500], ROUND)


def cone(name: str, seam: bool) -> None:
    def make() -> Case:
        shell = Shell(Model())
        model = shell.model
        low = shell.circle((0, 0, 0), UP, (1, 0, 0), 500, (500, 0, 0), (500, 0, 0))
        shell.face(shell.plane((0, 0, 0), DOWN, (1, 0, 0)), [[(low, False)]])
        side = model.add(f"IFCARBITRARYOPENPROFILEDEF(.CURVE.,$,{model.polyline([(500, 0, 0), (0, 0, 1000)])})")
        axis = model.add(f"IFCAXIS1PLACEMENT({model.origin},{model.up})")
        surface = model.add(f"IFCSURFACEOFREVOLUTION({side},$,{axis})")
        ways: list[Way] = [(low, True)]
        if seam:
            line = shell.line((500, 0, 0), (0, 0, 1000))
            ways += [(line, True), (line, False)]
        shell.face(surface, [ways])
        return of_items(name, model, [shell.solid()], math.pi / 12, CYLINDER_BOX, ROUND)

    SURFACES.append(make)


cone("revolved_cone_with_seam", True)
cone("revolved_cone_without_seam", False)


@surface_case
def half_ball() -> Case:
    shell = Shell(Model())
    rim = shell.circle((0, 0, 0), UP, (1, 0, 0), 500, (500, 0, 0), (500, 0, 0))
    shell.face(shell.plane((0, 0, 0), DOWN, (1, 0, 0)), [[(rim, False)]])
    surface = shell.model.add(f"IFCSPHERICALSURFACE({shell.model.axes((0, 0, 0))},500.)")
    shell.face(surface, [[(rim, True)]])
    box = [-500, -500, 0, 500, 500, 500]
    return of_items("half_ball", shell.model, [shell.solid()], math.pi / 12, box, ROUND)


@surface_case
def ball_with_seam() -> Case:
    shell = Shell(Model())
    seam = shell.circle((0, 0, 0), (0, -1, 0), (1, 0, 0), 500, (0, 0, -500), (0, 0, 500))
    surface = shell.model.add(f"IFCSPHERICALSURFACE({shell.model.axes((0, 0, 0))},500.)")
    shell.face(surface, [[(seam, True), (seam, False)]])
    box = [-500, -500, -500, 500, 500, 500]
    return of_items("ball_with_seam", shell.model, [shell.solid()], math.pi / 6, box, ROUND)


def elbow(name: str, seam: bool) -> None:
    """A quarter of a torus: a pipe's elbow of radius 100 about an axis 500 away."""

    def make() -> Case:
        shell = Shell(Model())
        first = shell.circle((500, 0, 0), (0, 1, 0), (1, 0, 0), 100, (600, 0, 0), (600, 0, 0))
        last = shell.circle((0, 500, 0), (-1, 0, 0), (0, 1, 0), 100, (0, 600, 0), (0, 600, 0))
        # The circles run about the way round the axis: from outside through below to inside.
        shell.face(shell.plane((500, 0, 0), (0, -1, 0), (1, 0, 0)), [[(first, False)]])
        shell.face(shell.plane((0, 500, 0), (-1, 0, 0), (0, 1, 0)), [[(last, True)]])
        surface = shell.model.add(f"IFCTOROIDALSURFACE({shell.model.axes((0, 0, 0))},500.,100.)")
        if seam:
            arc = shell.circle((0, 0, 0), UP, (1, 0, 0), 600, (600, 0, 0), (0, 600, 0))
            shell.face(surface, [[(first, True), (arc, True), (last, False), (arc, False)]])
        else:
            shell.face(surface, [[(first, True)], [(last, False)]])
        volume = math.pi / 2 * 0.5 * math.pi * 0.01
        return of_items(name, shell.model, [shell.solid()], volume, [0, 0, -100, 600, 600, 100], 0.02)

    SURFACES.append(make)


elbow("elbow_with_seam", True)
elbow("elbow_without_seam", False)


@surface_case
def whole_torus() -> Case:
    shell = Shell(Model())
    small = shell.circle((500, 0, 0), (0, -1, 0), (1, 0, 0), 100, (600, 0, 0), (600, 0, 0))
    great = shell.circle((0, 0, 0), UP, (1, 0, 0), 600, (600, 0, 0), (600, 0, 0))
    surface = shell.model.add(f"IFCTOROIDALSURFACE({shell.model.axes((0, 0, 0))},500.,100.)")
    shell.face(surface, [[(great, True), (small, True), (great, False), (small, False)]])
    volume = 2 * math.pi * 0.5 * math.pi * 0.01
    return of_items("whole_torus", shell.model, [shell.solid()], volume, [-600, -600, -100, 600, 600, 100], 0.02)


def quarter_points(height: float) -> list[Vector]:
    return [(1000, 0, height), (1000, 1000, height), (0, 1000, height)]


def quarter_curve(model: Model, height: float) -> str:
    """A quarter of a circle as a rational B-spline."""
    points = [model.point(*p) for p in quarter_points(height)]
    weights = numbers([1, math.sqrt(0.5), 1])
    knots = "(3,3),(0.,1.),.UNSPECIFIED."
    text = f"IFCRATIONALBSPLINECURVEWITHKNOTS(2,{listed(points)},.CIRCULAR_ARC.,.F.,.F.,{knots},{weights})"
    return model.add(text)


def quarter(name: str, surface_of: Callable[[Model], str]) -> None:
    """A quarter of a cylinder whose round side is on a surface; its edges are B-splines."""

    def make() -> Case:
        shell = Shell(Model())
        starts, ends, middles = ([(p[0], p[1], z) for z in (0, 1000)] for p in ((1000, 0), (0, 1000), (0, 0)))
        arcs = [shell.edge(starts[k], ends[k], quarter_curve(shell.model, 1000 * k)) for k in (0, 1)]
        outs = [shell.line(middles[k], starts[k]) for k in (0, 1)]
        backs = [shell.line(ends[k], middles[k]) for k in (0, 1)]
        posts = [shell.line(low, high) for low, high in (starts, ends, middles)]
        down = [(backs[0], False), (arcs[0], False), (outs[0], False)]
        shell.face(shell.plane((0, 0, 0), DOWN, (1, 0, 0)), [down])
        shell.face(shell.plane((0, 0, 1000), UP, (1, 0, 0)), [[(outs[1], True), (arcs[1], True), (backs[1], True)]])
        front = [(outs[0], True), (posts[0], True), (outs[1], False), (posts[2], False)]
        shell.face(shell.plane((0, 0, 0), (0, -1, 0), (1, 0, 0)), [front])
        side = [(backs[0], True), (posts[2], True), (backs[1], False), (posts[1], False)]
        shell.face(shell.plane((0, 0, 0), (-1, 0, 0), (0, -1, 0)), [side])
        ways = [(arcs[0], True), (posts[1], True), (arcs[1], False), (posts[0], False)]
        shell.face(surface_of(shell.model), [ways])
        box = [0, 0, 0, 1000, 1000, 1000]
        return of_items(name, shell.model, [shell.solid()], math.pi / 4, box, ROUND)

    SURFACES.append(make)


def spline_surface(model: Model) -> str:
    rows = []
    for low, high in zip(quarter_points(0), quarter_points(1000)):
        rows.append(listed([model.point(*low), model.point(*high)]))
    root = number(math.sqrt(0.5))
    knots = "(3,3),(2,2),(0.,1.),(0.,1.),.UNSPECIFIED."
    weights = f"((1.,1.),({root},{root}),(1.,1.))"
    kind = "IFCRATIONALBSPLINESURFACEWITHKNOTS"
    return model.add(f"{kind}(2,1,{listed(rows)},.UNSPECIFIED.,.F.,.F.,.F.,{knots},{weights})")


def extruded_surface(model: Model) -> str:
    profile = model.add(f"IFCARBITRARYOPENPROFILEDEF(.CURVE.,$,{quarter_curve(model, 0)})")
    return model.add(f"IFCSURFACEOFLINEAREXTRUSION({profile},{model.identity},{model.up},1000.)")


quarter("quarter_on_a_spline_surface", spline_surface)
quarter("quarter_on_an_extruded_surface", extruded_surface)
quarter("quarter_on_a_cylinder", lambda model: model.add(f"IFCCYLINDRICALSURFACE({model.identity},1000.)"))


@surface_case
def vault_on_a_spline_surface() -> Case:
    """A block of 1 m with a top z = 1000 + 800 (1 - u) u + 800 (1 - v) v, a surface of degrees 2 and 2."""
    shell = Shell(Model())
    model = shell.model
    # Control heights of (1 - t) t of degree 2 are 0, a half and 0.
    half = [0.0, 0.5, 0.0]

    def control(i: int, j: int) -> Vector:
        return (500 * i, 500 * j, 1000 + 800 * (half[i] + half[j]))

    rows = [listed([model.point(*control(i, j)) for j in range(3)]) for i in range(3)]
    knots = "(3,3),(3,3),(0.,1.),(0.,1.),.UNSPECIFIED."
    top = model.add(f"IFCBSPLINESURFACEWITHKNOTS(2,2,{listed(rows)},.UNSPECIFIED.,.F.,.F.,.F.,{knots})")

    def rim(spots: Sequence[Vector]) -> str:
        points = [model.point(*p) for p in spots]
        text = f"IFCBSPLINECURVEWITHKNOTS(2,{listed(points)},.UNSPECIFIED.,.F.,.F.,(3,3),(0.,1.),.UNSPECIFIED.)"
        return shell.edge(spots[0], spots[2], model.add(text))

    low = [(0, 0, 0), (1000, 0, 0), (1000, 1000, 0), (0, 1000, 0)]
    high = [(x, y, 1000) for x, y, _ in low]
    rims = [
        rim([control(i, 0) for i in range(3)]),
        rim([control(2, j) for j in range(3)]),
        rim([control(i, 2) for i in (2, 1, 0)]),
        rim([control(0, j) for j in (2, 1, 0)]),
    ]
    base = [shell.line(low[k], low[(k + 1) % 4]) for k in range(4)]
    posts = [shell.line(low[k], high[k]) for k in range(4)]
    shell.face(shell.plane((0, 0, 0), DOWN, (1, 0, 0)), [[(edge, False) for edge in reversed(base)]])
    outs = [((0, -1, 0), (1, 0, 0)), ((1, 0, 0), (0, 1, 0)), ((0, 1, 0), (-1, 0, 0)), ((-1, 0, 0), (0, -1, 0))]
    for k, (z, x) in enumerate(outs):
        ways = [(base[k], True), (posts[(k + 1) % 4], True), (rims[k], False), (posts[k], False)]
        shell.face(shell.plane(low[k], z, x), [ways])
    shell.face(top, [[(edge, True) for edge in rims]])
    # The integral of 0.8 (1 - t) t over 0 to 1 is 0.8 / 6, and it counts twice; the top's middle is 1400.
    box = [0, 0, 0, 1000, 1000, 1400]
    return of_items("vault_on_a_spline_surface", model, [shell.solid()], 1 + 2 * 0.8 / 6, box, ROUND)
