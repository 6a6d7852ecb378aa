"""Files of one element each, with one feature: the volume (m3) and the box (mm) are worked out by hand formula."""

from __future__ import annotations

import math
from dataclasses import dataclass
from typing import Callable, Optional, Sequence

from model import METRE, Model, conversion, listed, number, numbers

Box = Optional[Sequence[float]]

WALL = [0, 0, 0, 4000, 200, 3000]
WALL_VOLUME = 2.4
CUBE = [0, 0, 0, 1000, 1000, 1000]
# How far a volume may be off, as a part of it: by rounding, and by chords of round shapes.
EXACT = 0.0002
ROUND = 0.012
# How far a chord lies from its arc, and a corner from its grid point on an axis, with some room for doubles: in mm.
CHORD = 0.5
HALF = 0.0501
RADIAN = "IFCSIUNIT(*,.PLANEANGLEUNIT.,$,.RADIAN.)"


@dataclass
class Case:
    name: str
    text: str
    volume: Optional[float]
    box: Box
    off: float = EXACT
    status: int = 0
    keyword: str = "IFCWALL"
    box_off: float = -1

    def __post_init__(self) -> None:
        if self.box_off < 0:
            self.box_off = HALF if self.off == EXACT else CHORD + HALF


def chords_of(radius: float) -> float:
    """The greatest part of a circle's area (radius in mm) that is lost by chords: by the least number of corners."""
    angle = 2 * math.acos(1 - CHORD / radius)
    return 1 - math.sin(angle) / angle


CASES: list[Callable[[], Case]] = []


def case(make: Callable[[], Case]) -> Callable[[], Case]:
    CASES.append(make)
    return make


def of_items(name: str, model: Model, items: Sequence[str], volume: float, box: Box, off: float = EXACT) -> Case:
    model.element(items)
    return Case(name, model.text(), volume, box, off)


def wall(model: Model) -> str:
    return model.block((4000, 200, 3000))


def unit_model(name: str, metres: float) -> Model:
    lines: list[str] = []
    return with_front(lines, conversion(lines, name, metres))


def with_front(lines: list[str], unit: str) -> Model:
    """A model whose first instances are given."""

    class Fronted(Model):
        def add(self, text: str) -> str:
            if not self.lines:
                self.lines.extend(lines)
            return super().add(text)

    return Fronted(unit=unit)


# Placements and units


@case
def extrusion() -> Case:
    model = Model()
    return of_items("extrusion", model, [wall(model)], WALL_VOLUME, WALL)


@case
def extrusion_2x3() -> Case:
    model = Model("IFC2X3")
    return of_items("extrusion_2x3", model, [wall(model)], WALL_VOLUME, WALL)


@case
def extrusion_4x3() -> Case:
    model = Model("IFC4X3_ADD2")
    return of_items("extrusion_4x3", model, [wall(model)], WALL_VOLUME, WALL)


@case
def oblique_placement() -> Case:
    model = Model()
    place = model.placed((0, 0, 0), (0, 0, 1), (0.8, 0.6, 0))
    model.element([wall(model)], placement=place)
    return Case("oblique_placement", model.text(), WALL_VOLUME, [-120, 0, 0, 3200, 2560, 3000])


@case
def unit_inch() -> Case:
    model = unit_model("INCH", 0.0254)
    solid = model.extruded(model.rectangle(40, 10, at=(20, 5)), 100)
    return of_items("unit_inch", model, [solid], 40000 * 0.0254**3, [0, 0, 0, 1016, 254, 2540])


@case
def unit_foot() -> Case:
    model = unit_model("FOOT", 0.3048)
    solid = model.extruded(model.rectangle(4, 2, at=(2, 1)), 10)
    return of_items("unit_foot", model, [solid], 80 * 0.3048**3, [0, 0, 0, 1219.2, 609.6, 3048])


@case
def unit_metre() -> Case:
    model = Model(unit=METRE)
    solid = model.extruded(model.rectangle(4, 0.2, at=(2, 0.1)), 3)
    return of_items("unit_metre", model, [solid], WALL_VOLUME, WALL)


@case
def several_length_units() -> Case:
    model = Model()
    model.units.append(model.add(METRE))
    made = of_items("several_length_units", model, [wall(model)], WALL_VOLUME, WALL)
    made.status = 1
    return made


@case
def angles_in_degrees() -> Case:
    front = [f"#1={RADIAN};\n"]
    front.append(f"#2=IFCMEASUREWITHUNIT(IFCPLANEANGLEMEASURE({number(math.pi / 180)}),#1);\n")
    front.append("#3=IFCDIMENSIONALEXPONENTS(0,0,0,0,0,0,0);\n")
    model = with_front(front, "IFCSIUNIT(*,.LENGTHUNIT.,.MILLI.,.METRE.)")
    model.units.append(model.add("IFCCONVERSIONBASEDUNIT(#3,.PLANEANGLEUNIT.,'DEGREE',#2)"))
    axis = model.add(f"IFCAXIS1PLACEMENT({model.origin},{model.direction(0, 1, 0)})")
    profile = model.rectangle(100, 100, at=(500, 0))
    solid = model.add(f"IFCREVOLVEDAREASOLID({profile},{model.identity},{axis},90.)")
    volume = math.pi / 2 * 0.5 * 0.01
    return of_items("angles_in_degrees", model, [solid], volume, [0, -50, -550, 550, 50, 0], ROUND)


@case
def world_coordinate_system() -> Case:
    model = Model()
    model.world = model.axes((1000, 2000, 0), (0, 0, 1), (0, 1, 0))
    box = [800, 2000, 0, 1000, 6000, 3000]
    return of_items("world_coordinate_system", model, [wall(model)], WALL_VOLUME, box)


@case
def grid_placement() -> Case:
    model = Model()
    across = [model.polyline([(x, 0), (x, 9000)]) for x in (0, 3000)]
    along = [model.polyline([(0, y), (9000, y)]) for y in (0, 5000)]
    axes = [model.add(f"IFCGRIDAXIS('{k}',{curve},.T.)") for k, curve in enumerate(along + across)]
    place = model.placed((100, 200, 0))
    lists = f"{listed(axes[:2])},{listed(axes[2:])}"
    model.add(f"IFCGRID({model.guid()},$,'G',$,$,{place},$,{lists},$,$)")
    met = model.add(f"IFCVIRTUALGRIDINTERSECTION(({axes[1]},{axes[3]}),(10.,0.,50.))")
    model.element([wall(model)], placement=model.add(f"IFCGRIDPLACEMENT({met},$)"))
    box = [3100, 5210, 50, 7100, 5410, 3050]
    return Case("grid_placement", model.text(), WALL_VOLUME, box)


@case
def linear_placement() -> Case:
    model = Model("IFC4X3_ADD2")
    line = model.polyline([(0, 0, 0), (10000, 0, 0), (10000, 10000, 0)])
    measure = "IFCLENGTHMEASURE(12000.)"
    spot = model.add(f"IFCPOINTBYDISTANCEEXPRESSION({measure},300.,100.,$,{line})")
    along = model.add(f"IFCAXIS2PLACEMENTLINEAR({spot},$,$)")
    model.element([wall(model)], placement=model.add(f"IFCLINEARPLACEMENT($,{along},$)"))
    # 2000 mm up the second leg, 300 to its left, 100 up; the wall runs along the leg, its width to the left.
    box = [9500, 2000, 100, 9700, 6000, 3100]
    return Case("linear_placement", model.text(), WALL_VOLUME, box)


@case
def linear_placement_on_an_arc() -> Case:
    model = Model("IFC4X3_ADD2")
    circle = model.add(f"IFCCIRCLE({model.axes2()},10000.)")
    start = model.add(f"IFCAXIS2PLACEMENT2D({model.point(0, 0)},{model.direction(1, 0)})")
    length = math.pi / 2 * 10000
    sizes = f"IFCLENGTHMEASURE(0.),IFCLENGTHMEASURE({number(length)})"
    segment = model.add(f"IFCCURVESEGMENT(.CONTINUOUS.,{start},{sizes},{circle})")
    curve = model.add(f"IFCCOMPOSITECURVE(({segment}),.F.)")
    spot = model.add(f"IFCPOINTBYDISTANCEEXPRESSION(IFCLENGTHMEASURE({number(length)}),$,$,$,{curve})")
    along = model.add(f"IFCAXIS2PLACEMENTLINEAR({spot},$,$)")
    model.element([model.block((200, 200, 200))], placement=model.add(f"IFCLINEARPLACEMENT($,{along},$)"))
    # A quarter to the left: from (0, 0) along x to (10000, 10000), where it runs along y. A chord's slope is near.
    box = [9800, 10000, 0, 10000, 10200, 200]
    return Case("linear_placement_on_an_arc", model.text(), 0.008, box, box_off=6)


# Curves and profiles


def indexed(model: Model, points: Sequence[Sequence[float]], segments: str) -> str:
    rows = "(" + ",".join(numbers(p) for p in points) + ")"
    spots = model.add(f"IFCCARTESIANPOINTLIST2D({rows})")
    return model.add(f"IFCINDEXEDPOLYCURVE({spots},({segments}),.F.)")


@case
def indexed_polycurve() -> Case:
    model = Model()
    points = [(0, 0), (4000, 0), (4000, 200), (0, 200)]
    curve = indexed(model, points, "IFCLINEINDEX((1,2,3,4,1))")
    solid = model.extruded(model.profile(curve), 3000)
    return of_items("indexed_polycurve", model, [solid], WALL_VOLUME, WALL)


@case
def indexed_polycurve_arc() -> Case:
    model = Model()
    curve = indexed(model, [(1000, 0), (0, 1000), (-1000, 0)], "IFCARCINDEX((1,2,3)),IFCLINEINDEX((3,1))")
    solid = model.extruded(model.profile(curve), 1000)
    box = [-1000, 0, 0, 1000, 1000, 1000]
    return of_items("indexed_polycurve_arc", model, [solid], math.pi / 2, box, ROUND)


@case
def polyline() -> Case:
    model = Model()
    profile = model.profile(model.ring([(0, 0), (4000, 0), (4000, 200), (0, 200)]))
    return of_items("polyline", model, [model.extruded(profile, 3000)], WALL_VOLUME, WALL)


@case
def composite_trimmed_arc() -> Case:
    model = Model()
    circle = model.add(f"IFCCIRCLE({model.axes2()},1000.)")
    ends = f"(IFCPARAMETERVALUE(0.)),(IFCPARAMETERVALUE({number(math.pi)}))"
    arc = model.add(f"IFCTRIMMEDCURVE({circle},{ends},.T.,.PARAMETER.)")
    line = model.polyline([(-1000, 0), (1000, 0)])
    parts = [model.add(f"IFCCOMPOSITECURVESEGMENT(.CONTINUOUS.,.T.,{curve})") for curve in (arc, line)]
    curve = model.add(f"IFCCOMPOSITECURVE({listed(parts)},.F.)")
    solid = model.extruded(model.profile(curve), 1000)
    box = [-1000, 0, 0, 1000, 1000, 1000]
    return of_items("composite_trimmed_arc", model, [solid], math.pi / 2, box, ROUND)


def spline_circle(model: Model, radius: float) -> str:
    """A circle as a rational B-spline of degree 2: nine points, weights 1 and the root of a half."""
    square = [(1, 0), (1, 1), (0, 1), (-1, 1), (-1, 0), (-1, -1), (0, -1), (1, -1), (1, 0)]
    points = [model.point(radius * x, radius * y) for x, y in square]
    weights = [1.0 if k % 2 == 0 else math.sqrt(0.5) for k in range(9)]
    knots = "(3,2,2,2,3),(0.,1.,2.,3.,4.),.UNSPECIFIED."
    text = f"IFCRATIONALBSPLINECURVEWITHKNOTS(2,{listed(points)},.CIRCULAR_ARC.,.T.,.F.,{knots},{numbers(weights)})"
    return model.add(text)


@case
def spline_circle_profile() -> Case:
    model = Model()
    solid = model.extruded(model.profile(spline_circle(model, 500)), 1000)
    box = [-500, -500, 0, 500, 500, 1000]
    return of_items("spline_circle_profile", model, [solid], math.pi / 4, box, ROUND)


@case
def spline_of_degree_three() -> Case:
    model = Model()
    # A Bézier curve y = 3 * (1 - t) * t * 1000 over x = 3000 t, and back along y = 0: the area is 1000 * 3000 / 2.
    points = [model.point(x, y) for x, y in ((0, 0), (1000, 1000), (2000, 1000), (3000, 0))]
    knots = "(4,4),(0.,1.),.UNSPECIFIED."
    spline = model.add(f"IFCBSPLINECURVEWITHKNOTS(3,{listed(points)},.UNSPECIFIED.,.F.,.F.,{knots})")
    line = model.polyline([(3000, 0), (0, 0)])
    parts = [model.add(f"IFCCOMPOSITECURVESEGMENT(.CONTINUOUS.,.T.,{curve})") for curve in (spline, line)]
    profile = model.profile(model.add(f"IFCCOMPOSITECURVE({listed(parts)},.F.)"))
    box = [0, 0, 0, 3000, 750, 1000]
    return of_items("spline_of_degree_three", model, [model.extruded(profile, 1000)], 1.5, box, ROUND)


@case
def profile_voids() -> Case:
    model = Model()
    outer = model.ring([(0, 0), (1000, 0), (1000, 1000), (0, 1000)])
    inner = model.ring([(300, 300), (600, 300), (600, 600), (300, 600)])
    solid = model.extruded(model.profile(outer, [inner]), 1000)
    return of_items("profile_voids", model, [solid], 1 - 0.09, CUBE)


def measured(
    name: str,
    kind: str,
    sizes: Sequence[float],
    area: float,
    half: tuple[float, float],
    missing: int = 0,
    off: float = EXACT,
    schema: str = "IFC4",
) -> None:
    """A profile by its measures, raised by a metre; area in square metres, half its box in millimetres."""

    def make() -> Case:
        model = Model(schema)
        solid = model.extruded(model.measured(kind, *sizes, missing=missing), 1000)
        box = [-half[0], -half[1], 0, half[0], half[1], 1000]
        return of_items(name, model, [solid], area, box, off)

    CASES.append(make)


I_AREA = 2 * 0.2 * 0.02 + 0.36 * 0.01
measured("circle", "IFCCIRCLEPROFILEDEF", [500], math.pi / 4, (500, 500), off=ROUND)
measured("circle_hollow", "IFCCIRCLEHOLLOWPROFILEDEF", [500, 100], math.pi * 0.09, (500, 500), off=ROUND)
measured("ellipse", "IFCELLIPSEPROFILEDEF", [500, 200], math.pi * 0.1, (500, 200), off=ROUND)
measured("i_shape", "IFCISHAPEPROFILEDEF", [200, 400, 10, 20], I_AREA, (100, 200), 1, schema="IFC2X3")
measured("i_shape_ifc4", "IFCISHAPEPROFILEDEF", [200, 400, 10, 20], I_AREA, (100, 200), 3)
# Four fillets of 20 mm add what a square has beyond a quarter of a circle.
FILLETS = 4 * 0.02**2 * (1 - math.pi / 4)
measured("i_shape_fillets", "IFCISHAPEPROFILEDEF", [200, 400, 10, 20, 20], I_AREA + FILLETS, (100, 200), 2, ROUND)
measured("l_shape", "IFCLSHAPEPROFILEDEF", [200, 100, 10], 0.2 * 0.01 + 0.09 * 0.01, (50, 100), 3)
measured("t_shape", "IFCTSHAPEPROFILEDEF", [200, 100, 10, 20], 0.1 * 0.02 + 0.18 * 0.01, (50, 100), 5)
measured("u_shape", "IFCUSHAPEPROFILEDEF", [200, 100, 10, 20], 2 * 0.1 * 0.02 + 0.16 * 0.01, (50, 100), 3)
measured("c_shape", "IFCCSHAPEPROFILEDEF", [200, 100, 10, 30], 0.01 * (0.2 + 2 * 0.09 + 2 * 0.02), (50, 100), 1)
measured("z_shape", "IFCZSHAPEPROFILEDEF", [200, 100, 10, 20], 2 * 0.1 * 0.02 + 0.16 * 0.01, (95, 100), 2)
measured("trapezium", "IFCTRAPEZIUMPROFILEDEF", [400, 200, 100, 100], 0.03, (200, 50))
measured("rectangle_hollow", "IFCRECTANGLEHOLLOWPROFILEDEF", [200, 100, 10], 0.02 - 0.18 * 0.08, (100, 50), 2)
measured(
    "rounded_rectangle", "IFCROUNDEDRECTANGLEPROFILEDEF", [200, 100, 50], 0.01 + math.pi * 0.0025, (100, 50), off=ROUND
)


@case
def centre_line_profile() -> Case:
    model = Model()
    curve = model.polyline([(0, 0), (1000, 0), (1000, 1000)])
    profile = model.add(f"IFCCENTERLINEPROFILEDEF(.AREA.,$,{curve},100.)")
    # Two legs of 1000 by 100, mitred: the corner is filled.
    box = [0, -50, 0, 1050, 1000, 1000]
    return of_items("centre_line_profile", model, [model.extruded(profile, 1000)], 0.2, box)


@case
def mirrored_profile() -> Case:
    model = Model()
    base = model.profile(model.ring([(0, 0), (1000, 0), (0, 500)]))
    profile = model.add(f"IFCMIRROREDPROFILEDEF(.AREA.,$,{base},*,$)")
    box = [-1000, 0, 0, 0, 500, 1000]
    return of_items("mirrored_profile", model, [model.extruded(profile, 1000)], 0.25, box)


# Sweeps


@case
def tapered() -> Case:
    model = Model()
    low, high = model.rectangle(100, 100), model.rectangle(400, 400)
    text = f"IFCEXTRUDEDAREASOLIDTAPERED({low},{model.identity},{model.up},1000.,{high})"
    box = [-200, -200, 0, 200, 200, 1000]
    return of_items("tapered", model, [model.add(text)], (0.01 + 0.16 + 0.04) / 3, box)


def revolved(name: str, angle: float, box: Sequence[float]) -> None:
    def make() -> Case:
        model = Model()
        axis = model.add(f"IFCAXIS1PLACEMENT({model.origin},{model.direction(0, 1, 0)})")
        profile = model.rectangle(100, 100, at=(500, 0))
        solid = model.add(f"IFCREVOLVEDAREASOLID({profile},{model.identity},{axis},{number(angle)})")
        return of_items(name, model, [solid], angle * 0.5 * 0.01, box, ROUND)

    CASES.append(make)


revolved("revolved_full", 2 * math.pi, [-550, -50, -550, 550, 50, 550])
revolved("revolved_quarter", math.pi / 2, [0, -50, -550, 550, 50, 0])


def disk(
    name: str,
    points: Sequence[Sequence[float]],
    rest: str,
    length: float,
    box: Sequence[float],
    kind: str = "IFCSWEPTDISKSOLID",
    area: float = math.pi * 0.0025,
) -> None:
    def make() -> Case:
        model = Model()
        solid = model.add(f"{kind}({model.polyline(points)},50.,{rest})")
        return of_items(name, model, [solid], area * length, box, chords_of(50))

    CASES.append(make)


BENT = [(0, 0, 0), (0, 0, 1000), (1000, 0, 1000)]
disk("swept_disk_upright", BENT, "$,$,$", 2, [-50, -50, 0, 1000, 50, 1050])
disk("swept_disk_level", [(0, 0, 0), (1000, 0, 0)], "$,$,$", 1, [0, -50, -50, 1000, 50, 50])
disk("swept_disk_part", BENT, "$,0.5,1.5", 1, [-50, -50, 500, 500, 50, 1050])
disk("swept_disk_hollow", BENT, "30.,$,$", 2, [-50, -50, 0, 1000, 50, 1050], area=math.pi * (0.0025 - 0.0009))
# The corner is rounded by 200 mm: the way is shorter by 400 mm less a quarter of a circle.
disk(
    "swept_disk_polygonal",
    BENT,
    "$,$,$,200.",
    2 - 0.4 + math.pi / 2 * 0.2,
    [-50, -50, 0, 1000, 50, 1050],
    "IFCSWEPTDISKSOLIDPOLYGONAL",
)


@case
def fixed_reference_sweep() -> Case:
    model = Model()
    line = model.polyline([(0, 0, 0), (2000, 0, 0), (2000, 1000, 0)])
    profile = model.rectangle(300, 100)
    up = model.direction(0, 0, 1)
    text = f"IFCFIXEDREFERENCESWEPTAREASOLID({profile},{model.identity},{line},$,$,{up})"
    # The profile's x, 300 wide, is upright; 3 m of way with a mitre.
    box = [0, -50, -150, 2050, 1000, 150]
    return of_items("fixed_reference_sweep", model, [model.add(text)], 3 * 0.03, box)


@case
def surface_curve_sweep() -> Case:
    model = Model()
    line = model.polyline([(0, 0, 0), (2000, 0, 0), (2000, 1000, 0)])
    plane = model.add(f"IFCPLANE({model.identity})")
    profile = model.rectangle(300, 100)
    text = f"IFCSURFACECURVESWEPTAREASOLID({profile},{model.identity},{line},0.,1.,{plane})"
    return of_items("surface_curve_sweep", model, [model.add(text)], 2 * 0.03, [0, -50, -150, 2000, 50, 150])


@case
def sectioned_spine() -> Case:
    model = Model()
    line = model.polyline([(0, 0, 0), (0, 0, 1000)])
    spine = model.add(f"IFCCOMPOSITECURVE(({model.add(f'IFCCOMPOSITECURVESEGMENT(.CONTINUOUS.,.T.,{line})')}),.F.)")
    sections = [model.rectangle(100, 100), model.rectangle(400, 400)]
    places = [model.axes((0, 0, 0)), model.axes((0, 0, 1000))]
    text = f"IFCSECTIONEDSPINE({spine},{listed(sections)},{listed(places)})"
    box = [-200, -200, 0, 200, 200, 1000]
    return of_items("sectioned_spine", model, [model.add(text)], (0.01 + 0.16 + 0.04) / 3, box)


# Breps and tessellations

CORNERS = [
    (0, 0, 0),
    (1000, 0, 0),
    (1000, 1000, 0),
    (0, 1000, 0),
    (0, 0, 1000),
    (1000, 0, 1000),
    (1000, 1000, 1000),
    (0, 1000, 1000),
]
FACES = [[[0, 3, 2, 1]], [[4, 5, 6, 7]], [[0, 1, 5, 4]], [[1, 2, 6, 5]], [[2, 3, 7, 6]], [[3, 0, 4, 7]]]
TUNNEL = CORNERS + [
    (300, 300, 0),
    (700, 300, 0),
    (700, 700, 0),
    (300, 700, 0),
    (300, 300, 1000),
    (700, 300, 1000),
    (700, 700, 1000),
    (300, 700, 1000),
]
TUNNEL_FACES = [
    [[0, 3, 2, 1], [8, 9, 10, 11]],
    [[4, 5, 6, 7], [15, 14, 13, 12]],
    [[0, 1, 5, 4]],
    [[1, 2, 6, 5]],
    [[2, 3, 7, 6]],
    [[3, 0, 4, 7]],
    [[8, 12, 13, 9]],
    [[9, 13, 14, 10]],
    [[10, 14, 15, 11]],
    [[11, 15, 12, 8]],
]


def brep(name: str, kind: str, shell: str, schema: str = "IFC4", tunnel: bool = False) -> None:
    def make() -> Case:
        model = Model(schema)
        points, faces = (TUNNEL, TUNNEL_FACES) if tunnel else (CORNERS, FACES)
        solid = model.brep(kind, shell, points, faces)
        return of_items(name, model, [solid], 0.84 if tunnel else 1, CUBE)

    CASES.append(make)


brep("brep", "IFCFACETEDBREP", "IFCCLOSEDSHELL")
brep("brep_2x3", "IFCFACETEDBREP", "IFCCLOSEDSHELL", schema="IFC2X3")
brep("brep_face_with_hole", "IFCFACETEDBREP", "IFCCLOSEDSHELL", tunnel=True)
brep("shell_model", "IFCSHELLBASEDSURFACEMODEL", "IFCOPENSHELL")
brep("face_model", "IFCFACEBASEDSURFACEMODEL", "IFCCONNECTEDFACESET")


def point_list(model: Model, points: Sequence[Sequence[float]]) -> str:
    rows = "(" + ",".join(numbers(p) for p in points) + ")"
    return model.add(f"IFCCARTESIANPOINTLIST3D({rows})")


@case
def triangulated() -> Case:
    model = Model()
    triangles = []
    for (ring,) in FACES:
        a, b, c, d = (k + 1 for k in ring)
        triangles += [f"({a},{b},{c})", f"({a},{c},{d})"]
    text = f"IFCTRIANGULATEDFACESET({point_list(model, CORNERS)},$,.T.,{listed(triangles)},$)"
    return of_items("triangulated", model, [model.add(text)], 1, CUBE)


@case
def polygonal_voids() -> Case:
    model = Model()
    points = point_list(model, TUNNEL)
    faces = []
    for rings in TUNNEL_FACES:
        spelled = ["(" + ",".join(str(k + 1) for k in ring) + ")" for ring in rings]
        if len(rings) > 1:
            faces.append(model.add(f"IFCINDEXEDPOLYGONALFACEWITHVOIDS({spelled[0]},{listed(spelled[1:])})"))
        else:
            faces.append(model.add(f"IFCINDEXEDPOLYGONALFACE({spelled[0]})"))
    text = f"IFCPOLYGONALFACESET({points},.T.,{listed(faces)},$)"
    return of_items("polygonal_voids", model, [model.add(text)], 0.84, CUBE)


# Booleans and openings


def sloping_half(model: Model, kind: str, rest: str = "") -> str:
    """What is above the plane z = 2000 + x / 2, cut off a wall."""
    root = math.sqrt(5)
    axes = model.axes((0, 0, 2000), (-1 / root, 0, 2 / root), (2 / root, 0, 1 / root))
    half = model.add(f"{kind}({model.add(f'IFCPLANE({axes})')},.F.{rest})")
    return model.add(f"IFCBOOLEANCLIPPINGRESULT(.DIFFERENCE.,{wall(model)},{half})")


@case
def clipping_half_space() -> Case:
    model = Model()
    volume = 0.2 * (2 * 2 + 0.5 * 2 * 1 + 2 * 3)
    return of_items("clipping_half_space", model, [sloping_half(model, "IFCHALFSPACESOLID")], volume, WALL)


@case
def clipping_polygonal() -> Case:
    model = Model()
    ring = model.ring([(-100, -100), (1000, -100), (1000, 500), (-100, 500)])
    item = sloping_half(model, "IFCPOLYGONALBOUNDEDHALFSPACE", f",{model.identity},{ring}")
    return of_items("clipping_polygonal", model, [item], 0.2 * (12 - (1 - 0.25)), WALL)


def boolean(
    name: str,
    operator: str,
    first: Sequence[float],
    second: Sequence[float],
    at: Sequence[float],
    volume: float,
    box: Sequence[float],
) -> None:
    def make() -> Case:
        model = Model()
        a, b = model.block(first), model.block(second, at=at)
        return of_items(name, model, [model.add(f"IFCBOOLEANRESULT(.{operator}.,{a},{b})")], volume, box)

    CASES.append(make)


KILO = (1000, 1000, 1000)
boolean("boolean_difference", "DIFFERENCE", (4000, 200, 3000), (1000, 400, 1000), (1000, -100, 1000), 2.2, WALL)
boolean("boolean_union", "UNION", KILO, KILO, (500, 0, 0), 1.5, [0, 0, 0, 1500, 1000, 1000])
boolean("boolean_intersection", "INTERSECTION", KILO, KILO, (500, 0, 0), 0.5, [500, 0, 0, 1000, 1000, 1000])

Hole = tuple[Sequence[float], Sequence[float]]


def opening(name: str, holes: Sequence[Hole], volume: float, schema: str = "IFC4") -> None:
    def make() -> Case:
        model = Model(schema)
        host = model.element([wall(model)])
        for size, at in holes:
            model.opening(host, [model.block(size, at=at)])
        return Case(name, model.text(), volume, WALL)

    CASES.append(make)


THROUGH: Hole = ((1000, 400, 1000), (1000, -100, 1000))
opening("opening", [THROUGH], 2.2)
opening("opening_2x3", [THROUGH], 2.2, "IFC2X3")
opening("opening_flush", [((1000, 200, 1000), (1000, 0, 1000))], 2.2)
opening("opening_to_the_floor", [((1000, 200, 2100), (1000, 0, 0))], 2.4 - 0.42)
opening("two_openings_that_meet", [THROUGH, ((1000, 400, 1000), (2000, -100, 1000))], 2.0)


@case
def opening_round() -> Case:
    model = Model()
    host = model.element([wall(model)])
    frame = model.axes((2000, 300, 1500), (0, -1, 0), (1, 0, 0))
    circle = model.measured("IFCCIRCLEPROFILEDEF", 500)
    hole = model.add(f"IFCEXTRUDEDAREASOLID({circle},{frame},{model.up},400.)")
    model.opening(host, [hole])
    return Case("opening_round", model.text(), 2.4 - math.pi * 0.25 * 0.2, WALL, ROUND)


@case
def opening_of_the_whole() -> Case:
    model = Model()
    part = model.element([wall(model)], keyword="IFCBUILDINGELEMENTPART")
    whole = model.add(f"IFCWALL({model.guid()},$,'whole',$,$,{model.placement},$,$,$)")
    model.aggregate(whole, [part])
    model.opening(whole, [model.block((1000, 400, 1000), at=(1000, -100, 1000))])
    return Case("opening_of_the_whole", model.text(), 2.2, WALL, keyword="IFCBUILDINGELEMENTPROXY")


@case
def projection() -> Case:
    model = Model()
    host = model.element([wall(model)])
    shape = model.shape([model.block((1000, 200, 1000), at=(1000, 200, 1000))])
    text = f"IFCPROJECTIONELEMENT({model.guid()},$,'P',$,$,{model.placement},{shape},$,$)"
    more = model.add(text)
    model.add(f"IFCRELPROJECTSELEMENT({model.guid()},$,$,$,{host},{more})")
    return Case("projection", model.text(), 2.6, [0, 0, 0, 4000, 400, 3000])


# Mapped items


def mapped(name: str, operator: Callable[[Model], str], volume: float, box: Box, at: Sequence[float] = ()) -> None:
    def make() -> Case:
        model = Model()
        body = f"IFCSHAPEREPRESENTATION({model.context},'Body','SweptSolid',({wall(model)}))"
        shape = model.add(body)
        origin = model.axes(at) if at else model.identity
        source = model.add(f"IFCREPRESENTATIONMAP({origin},{shape})")
        item = model.add(f"IFCMAPPEDITEM({source},{model.add(operator(model))})")
        return of_items(name, model, [item], volume, box)

    CASES.append(make)


OPERATOR = "IFCCARTESIANTRANSFORMATIONOPERATOR3D"
mapped("mapped", lambda m: f"{OPERATOR}($,$,{m.point(1000, 0, 0)},$,$)", 2.4, [1000, 0, 0, 5000, 200, 3000])
mapped("mapped_scale", lambda m: f"{OPERATOR}($,$,{m.origin},0.5,$)", 0.3, [0, 0, 0, 2000, 100, 1500])
mapped(
    "mapped_nonuniform", lambda m: f"{OPERATOR}NONUNIFORM($,$,{m.origin},1.,$,2.,0.5)", 2.4, [0, 0, 0, 4000, 400, 1500]
)
mapped(
    "mapped_mirror", lambda m: f"{OPERATOR}($,{m.direction(0, -1, 0)},{m.origin},$,$)", 2.4, [0, -200, 0, 4000, 0, 3000]
)
mapped("mapped_origin", lambda m: f"{OPERATOR}($,$,{m.origin},$,$)", 2.4, [1000, 0, 0, 5000, 200, 3000], (1000, 0, 0))


@case
def several_items() -> Case:
    model = Model()
    items = [model.block(KILO), model.block(KILO, at=(2000, 0, 0))]
    return of_items("several_items", model, items, 2, [0, 0, 0, 3000, 1000, 1000])


# Origins


@case
def far_placement() -> Case:
    model = Model()
    place = model.placed((458123456, 5427123456, 112000))
    model.element([wall(model)], placement=place)
    # Moved by whole metres of the wall's middle: 458125 and 5427123.
    box = [-1544, 456, 112000, 2456, 656, 115000]
    return Case("far_placement", model.text(), WALL_VOLUME, box, status=1)


@case
def map_conversion() -> Case:
    model = Model()
    crs = model.add(f"IFCPROJECTEDCRS('EPSG:25832',$,$,$,$,$,{model.add(METRE)})")
    numbers_of = "458123.456,5427123.456,112.,0.8,0.6,1."
    model.add(f"IFCMAPCONVERSION({model.context},{crs},{numbers_of})")
    return of_items("map_conversion", model, [wall(model)], WALL_VOLUME, WALL)


# Primitives


def primitive(name: str, text: str, volume: float, box: Sequence[float], off: float = EXACT) -> None:
    def make() -> Case:
        model = Model()
        solid = model.add(text.format(axes=model.identity))
        return of_items(name, model, [model.add(f"IFCCSGSOLID({solid})")], volume, box, off)

    CASES.append(make)


ROUND_BOX = [-500, -500, 0, 500, 500, 1000]
primitive("csg_block", "IFCBLOCK({axes},1000.,1000.,1000.)", 1, CUBE)
primitive("csg_pyramid", "IFCRECTANGULARPYRAMID({axes},1000.,1000.,900.)", 0.3, [0, 0, 0, 1000, 1000, 900])
primitive("csg_cylinder", "IFCRIGHTCIRCULARCYLINDER({axes},1000.,500.)", math.pi / 4, ROUND_BOX, ROUND)
primitive("csg_cone", "IFCRIGHTCIRCULARCONE({axes},1000.,500.)", math.pi / 12, ROUND_BOX, ROUND)
primitive("csg_sphere", "IFCSPHERE({axes},500.)", math.pi / 6, [-500, -500, -500, 500, 500, 500], ROUND)


@case
def facetation_only() -> Case:
    model = Model()
    model.element([wall(model)], identifier="$")
    return Case("facetation_only", model.text(), WALL_VOLUME, WALL, status=1)


@case
def cut_off() -> Case:
    text = extrusion().text
    return Case("cut_off", text[: len(text) * 2 // 3], None, None, status=3)
