//! Shells of faces: flat ones by their bounds, curved ones of advanced breps by their surfaces.

use crate::curves::{join, onward, Path};
use crate::fault::Result;
use crate::polygons::cut_face;
use crate::shaper::{Shape, Shaper};
use crate::surfaces::CurvedFace;
use crate::trigonometry::angle_of;
use crate::vector::{area_vector, Point3, Polygon};

/// A bound of a face: its loop, directed as the face sees it.
struct Bound {
    ring: Polygon,
    outer: bool,
}

impl<'a> Shaper<'a> {
    /// The faces of a shell or a connected face set.
    pub(crate) fn shell(&mut self, id: u64, out: &mut Shape) -> Result<()> {
        match self.keyword(id) {
            "IFCCLOSEDSHELL" | "IFCOPENSHELL" | "IFCCONNECTEDFACESET" => {}
            _ => return self.unknown(id),
        }
        let values = self.arguments(id)?;
        for face in values.references(0) {
            self.face(face, out).map_err(|fault| fault.at(face))?;
            self.check_size(&out.surface)?;
        }
        Ok(())
    }

    fn face(&mut self, id: u64, out: &mut Shape) -> Result<()> {
        let keyword = self.keyword(id);
        let values = self.arguments(id)?;
        let flat = match keyword {
            "IFCFACE" => true,
            "IFCFACESURFACE" | "IFCADVANCEDFACE" => {
                matches!(self.keyword(values.reference(1)), "IFCPLANE" | "")
            }
            _ => return self.unknown(id),
        };
        let mut bounds = Vec::new();
        for bound in values.references(0) {
            bounds.extend(self.bound(bound)?);
        }
        if !flat {
            let rings = bounds.into_iter().map(|bound| bound.ring).collect();
            let same = !values.get(2).is_false();
            return self.curved_face(values.reference(1), rings, same, out);
        }
        bounds.retain(|bound| bound.ring.len() >= 3);
        if let Some(place) = outer_place(&bounds) {
            bounds.swap(0, place);
        }
        let rings: Vec<Polygon> = bounds.into_iter().map(|bound| bound.ring).collect();
        let corners: usize = rings.iter().map(Vec::len).sum();
        self.work.spend(corners * corners / 4)?;
        if !rings.is_empty() && !cut_face(&rings, &mut out.surface)? {
            out.crossed += 1;
        }
        Ok(())
    }

    fn curved_face(
        &mut self,
        surface: u64,
        rings: Vec<Polygon>,
        same: bool,
        out: &mut Shape,
    ) -> Result<()> {
        let form = self.curved_surface(surface)?;
        let corners: usize = rings.iter().map(Vec::len).sum();
        self.work.spend(corners * 1000)?;
        let face = CurvedFace::new(&form, &rings, same);
        let before = out.surface.len();
        face.cut(&mut out.surface)
            .map_err(|fault| fault.at(surface))?;
        self.work.spend((out.surface.len() - before) * 20)
    }

    fn bound(&mut self, id: u64) -> Result<Option<Bound>> {
        let values = self.arguments(id)?;
        let outer = self.keyword(id) == "IFCFACEOUTERBOUND";
        let mut ring = self.loop_points(values.reference(0))?;
        if ring.is_empty() {
            return Ok(None);
        }
        if values.get(1).is_false() {
            ring.reverse();
        }
        Ok(Some(Bound { ring, outer }))
    }

    /// The points of a loop; none of one that is a single vertex.
    fn loop_points(&mut self, id: u64) -> Result<Polygon> {
        let values = self.arguments(id)?;
        let mut ring = Polygon::new();
        match self.keyword(id) {
            "IFCPOLYLOOP" => {
                for corner in values.references(0) {
                    let point = self.point(corner)?;
                    if ring.last().map_or(true, |last| *last != point) {
                        ring.push(point);
                    }
                }
            }
            "IFCEDGELOOP" => {
                for edge in values.references(0) {
                    let points = self.edge(edge)?;
                    join(&mut ring, &points);
                }
                while ring.len() > 1 && ring[0].distance(ring[ring.len() - 1]) < 1e-6 {
                    ring.pop();
                }
            }
            "IFCVERTEXLOOP" => {}
            _ => return self.unknown(id),
        }
        while ring.len() > 1 && ring[0] == ring[ring.len() - 1] {
            ring.pop();
        }
        Ok(ring)
    }

    fn vertex(&mut self, id: u64) -> Result<Point3> {
        let values = self.arguments(id)?;
        self.point(values.reference(0))
    }

    /// The points of an oriented edge, its ends at its vertices.
    fn edge(&mut self, id: u64) -> Result<Vec<Point3>> {
        let oriented = self.arguments(id)?;
        let (edge, backwards) = match self.keyword(id) {
            "IFCORIENTEDEDGE" => (oriented.reference(2), oriented.get(3).is_false()),
            _ => (id, false),
        };
        let values = self.arguments(edge)?;
        let start = self.vertex(values.reference(0))?;
        let end = self.vertex(values.reference(1))?;
        let curve = match self.keyword(edge) {
            "IFCEDGECURVE" => self.basis_curve(values.reference(2))?,
            _ => 0,
        };
        let forward = !values.get(3).is_false();
        let mut points = match self.keyword(curve) {
            "" | "IFCLINE" => vec![start, end],
            "IFCCIRCLE" | "IFCELLIPSE" => self.conic_edge(curve, start, end, forward)?,
            _ => {
                let path = self.path(curve)?;
                piece_between(path, start, end, forward)
            }
        };
        if let Some(first) = points.first_mut() {
            *first = start;
        }
        if let Some(last) = points.last_mut() {
            *last = end;
        }
        if backwards {
            points.reverse();
        }
        Ok(points)
    }

    /// The curve in space behind a curve on a surface.
    fn basis_curve(&mut self, id: u64) -> Result<u64> {
        match self.keyword(id) {
            "IFCSURFACECURVE" | "IFCINTERSECTIONCURVE" | "IFCSEAMCURVE" => {
                Ok(self.arguments(id)?.reference(0))
            }
            _ => Ok(id),
        }
    }

    fn conic_edge(
        &mut self,
        id: u64,
        start: Point3,
        end: Point3,
        forward: bool,
    ) -> Result<Vec<Point3>> {
        let (frame, a, b) = self.conic_frame(id)?;
        let angle = |point: Point3| {
            let own = frame.local(point);
            angle_of(own.y / b, own.x / a)
        };
        let from = angle(start);
        let closed = start.distance(end) < 1e-6;
        let to = if closed { from } else { angle(end) };
        let to = onward(from, to, forward);
        Ok(self.arc(&frame, a, b, from, to).points)
    }
}

/// The outer bound: the one that says so, else the widest one.
fn outer_place(bounds: &[Bound]) -> Option<usize> {
    if let Some(place) = bounds.iter().position(|bound| bound.outer) {
        return Some(place);
    }
    let size = |bound: &Bound| area_vector(&bound.ring).length();
    let mut best = 0;
    for place in 1..bounds.len() {
        if size(&bounds[place]) > size(&bounds[best]) {
            best = place;
        }
    }
    (!bounds.is_empty()).then_some(best)
}

/// The piece of a curve between two points on it; through its start where it is closed.
fn piece_between(path: Path, start: Point3, end: Point3, forward: bool) -> Vec<Point3> {
    let mut points = path.points;
    if points.len() < 2 {
        return vec![start, end];
    }
    if !forward {
        points.reverse();
    }
    let closed = points[0].distance(points[points.len() - 1]) < 1e-3;
    if closed && start.distance(end) < 1e-6 {
        return whole_from(points, start);
    }
    let (from, to) = (place_on(&points, start), place_on(&points, end));
    let inside = |low: f64, high: f64| {
        let within =
            move |place: &usize| (*place as f64) > low + 1e-6 && (*place as f64) < high - 1e-6;
        (0..points.len()).filter(within).map(|place| points[place])
    };
    let mut piece = vec![start];
    if from <= to {
        piece.extend(inside(from, to));
    } else if closed {
        piece.extend(inside(from, points.len() as f64));
        piece.extend(inside(-1.0, to).skip(1));
    } else {
        let mut back: Vec<Point3> = inside(to, from).collect();
        back.reverse();
        piece.append(&mut back);
    }
    piece.push(end);
    piece
}

/// A closed curve, begun at one of its points.
fn whole_from(mut points: Vec<Point3>, start: Point3) -> Vec<Point3> {
    points.pop();
    let place = place_on(&points, start);
    let first = (place + 0.5) as usize % points.len();
    points.rotate_left(first);
    let again = points[0];
    points.push(again);
    points
}

/// Where on a chain of points another one lies nearest, counted in points.
fn place_on(points: &[Point3], point: Point3) -> f64 {
    let mut best = (f64::INFINITY, 0.0);
    for k in 1..points.len() {
        let (a, b) = (points[k - 1], points[k]);
        let way = b - a;
        let square = way.dot(way);
        let part = if square > 0.0 {
            ((point - a).dot(way) / square).clamp(0.0, 1.0)
        } else {
            0.0
        };
        let distance = a.towards(b, part).distance(point);
        if distance < best.0 - 1e-9 {
            best = (distance, (k - 1) as f64 + part);
        }
    }
    best.1
}
