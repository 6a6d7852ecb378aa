//! Curves as chains of points, each with its parameter.

use crate::fault::{fail, Result};
use crate::part21::{Arguments, Value};
use crate::shaper::Shaper;
use crate::splines::Spline;
use crate::trigonometry::{angle_of, sine_cosine, TURN};
use crate::vector::{is_positive, Frame, Point2, Point3};

/// Points nearer than this are one, in millimetres.
pub(crate) const SAME: f64 = 1e-6;

/// A curve's points, with the parameter of each (rising), as the file counts it.
#[derive(Clone, Debug, Default)]
pub struct Path {
    pub points: Vec<Point3>,
    pub parameters: Vec<f64>,
}

impl Path {
    /// Points that count from 0.
    pub fn counted(points: Vec<Point3>) -> Path {
        let parameters = (0..points.len()).map(|k| k as f64).collect();
        Path { points, parameters }
    }

    fn span(&self) -> (f64, f64) {
        match (self.parameters.first(), self.parameters.last()) {
            (Some(&first), Some(&last)) => (first, last),
            _ => (0.0, 0.0),
        }
    }

    /// The same run backwards; parameters rise as before.
    fn reversed(mut self) -> Path {
        let (first, last) = self.span();
        self.points.reverse();
        self.parameters.reverse();
        for parameter in &mut self.parameters {
            *parameter = first + last - *parameter;
        }
        self
    }

    /// Puts another path behind this one, whose parameters go on.
    fn append(&mut self, next: Path) {
        let (_, end) = self.span();
        let (start, _) = next.span();
        for (point, parameter) in next.points.into_iter().zip(next.parameters) {
            let met = self
                .points
                .last()
                .map_or(false, |last| last.distance(point) <= SAME);
            if !met {
                self.points.push(point);
                self.parameters.push(end + parameter - start);
            } else if let Some(last) = self.parameters.last_mut() {
                *last = end + parameter - start;
            }
        }
    }

    /// The piece between two parameters.
    pub fn between(&self, first: f64, last: f64) -> Result<Path> {
        let (low, high) = self.span();
        let (from, to) = (first.min(last).max(low), first.max(last).min(high));
        if self.points.len() < 2 || !is_positive(to - from) {
            return fail("a piece of a curve that has no length");
        }
        let mut piece = Path::default();
        piece.push(self.at_parameter(from)?.0, from);
        for (&point, &parameter) in self.points.iter().zip(&self.parameters) {
            if parameter > from + 1e-9 && parameter < to - 1e-9 {
                piece.push(point, parameter);
            }
        }
        piece.push(self.at_parameter(to)?.0, to);
        Ok(if first <= last {
            piece
        } else {
            piece.reversed()
        })
    }

    fn push(&mut self, point: Point3, parameter: f64) {
        self.points.push(point);
        self.parameters.push(parameter);
    }

    /// The point at a parameter, and the way of the chord there.
    pub fn at_parameter(&self, parameter: f64) -> Result<(Point3, Point3)> {
        if self.points.len() < 2 {
            return fail("a curve without length");
        }
        let behind = self.parameters.partition_point(|&own| own <= parameter);
        let k = behind.clamp(1, self.points.len() - 1);
        let (a, b) = (self.parameters[k - 1], self.parameters[k]);
        let part = if b > a {
            (parameter - a) / (b - a)
        } else {
            0.0
        };
        Ok(self.on_chord(k, part))
    }

    /// The point at a length from the start in millimetres, and the way of the chord there.
    pub fn at_length(&self, length: f64) -> Result<(Point3, Point3)> {
        if self.points.len() < 2 {
            return fail("a curve without length");
        }
        let mut passed = 0.0;
        for k in 1..self.points.len() {
            let own = self.points[k].distance(self.points[k - 1]);
            if passed + own >= length || k + 1 == self.points.len() {
                let part = if own > 0.0 {
                    (length - passed) / own
                } else {
                    0.0
                };
                return Ok(self.on_chord(k, part));
            }
            passed += own;
        }
        fail("a curve without length")
    }

    fn on_chord(&self, k: usize, part: f64) -> (Point3, Point3) {
        let (a, b) = (self.points[k - 1], self.points[k]);
        (a.towards(b, part), b - a)
    }
}

/// Adds points but those that repeat the last one.
pub(crate) fn join(points: &mut Vec<Point3>, more: &[Point3]) {
    for &point in more {
        if points
            .last()
            .map_or(true, |last| last.distance(point) > SAME)
        {
            points.push(point);
        }
    }
}

/// One end of a trimmed curve.
#[derive(Default)]
struct Trim {
    point: Option<Point3>,
    parameter: Option<f64>,
}

impl<'a> Shaper<'a> {
    /// A curve's points.
    pub(crate) fn curve(&mut self, id: u64) -> Result<Vec<Point3>> {
        Ok(self.path(id)?.points)
    }

    /// A curve's points with their parameters.
    pub(crate) fn path(&mut self, id: u64) -> Result<Path> {
        self.nested(|shaper| shaper.path_of(id))
    }

    fn path_of(&mut self, id: u64) -> Result<Path> {
        let values = self.arguments(id)?;
        match self.keyword(id) {
            "IFCPOLYLINE" => {
                let ids: Vec<u64> = values.references(0).collect();
                let points = ids.into_iter().map(|id| self.point(id));
                Ok(Path::counted(points.collect::<Result<_>>()?))
            }
            "IFCINDEXEDPOLYCURVE" => self.indexed_curve(&values),
            "IFCCOMPOSITECURVE"
            | "IFC2DCOMPOSITECURVE"
            | "IFCCOMPOSITECURVEONSURFACE"
            | "IFCBOUNDARYCURVE"
            | "IFCOUTERBOUNDARYCURVE" => self.composite(&values),
            "IFCGRADIENTCURVE" => self.gradient(&values),
            "IFCCIRCLE" | "IFCELLIPSE" => self.conic(id, 0.0, TURN),
            "IFCTRIMMEDCURVE" => self.trimmed(&values),
            "IFCSURFACECURVE" | "IFCINTERSECTIONCURVE" | "IFCSEAMCURVE" => {
                self.path(values.reference(0))
            }
            "IFCBSPLINECURVEWITHKNOTS"
            | "IFCRATIONALBSPLINECURVEWITHKNOTS"
            | "IFCBEZIERCURVE"
            | "IFCRATIONALBEZIERCURVE" => {
                let spline = self.spline(id)?;
                let chord = self.chord;
                let path = spline.path(chord);
                self.work.spend(path.points.len() * 20)?;
                Ok(path)
            }
            "IFCCURVESEGMENT" => self.curve_segment(&values),
            _ => self.unknown(id),
        }
    }

    fn indexed_curve(&mut self, values: &Arguments<'a>) -> Result<Path> {
        let points = self.points(values.reference(0))?;
        if !values.has(1) {
            return Ok(Path::counted(points));
        }
        let mut path = Path::default();
        for segment in values.list(1) {
            let mut corners = Vec::new();
            for value in segment.list() {
                match points.get(value.index()?.wrapping_sub(1)) {
                    Some(&point) => corners.push(point),
                    None => return fail("an index of a curve that counts nothing"),
                }
            }
            let is_arc = matches!(segment, Value::Typed(word, _)
                if word.eq_ignore_ascii_case(b"IFCARCINDEX"));
            if is_arc && corners.len() == 3 {
                corners = self.arc_through(corners[0], corners[1], corners[2]);
            }
            path.append(Path::counted(corners));
        }
        Ok(path)
    }

    /// An arc through three points; the points themselves where they lie on a line.
    fn arc_through(&self, a: Point3, b: Point3, c: Point3) -> Vec<Point3> {
        let (u, v) = (b - a, c - a);
        let across = u.cross(v);
        let square = across.dot(across);
        if square < 1e-12 {
            return vec![a, b, c];
        }
        let centre =
            a + (across.cross(u) * v.dot(v) + v.cross(across) * u.dot(u)) * (1.0 / (2.0 * square));
        let x = (a - centre).unit();
        let z = across.unit();
        let frame = Frame {
            x,
            y: z.cross(x),
            z,
            origin: centre,
        };
        let way = frame.local(c);
        let mut angle = angle_of(way.y, way.x);
        if angle <= 0.0 {
            angle += TURN;
        }
        let radius = a.distance(centre);
        let mut points = self.arc(&frame, radius, radius, 0.0, angle).points;
        if let Some(last) = points.last_mut() {
            *last = c;
        }
        points
    }

    /// An arc of a circle or ellipse between two angles, by chords; parameters are the angles in radians.
    pub(crate) fn arc(&self, frame: &Frame, a: f64, b: f64, from: f64, to: f64) -> Path {
        let count = self.chords(a.max(b), to - from);
        let mut path = Path::default();
        for k in 0..=count {
            let angle = from + (to - from) * k as f64 / count as f64;
            let (sine, cosine) = sine_cosine(angle);
            let point = frame.flat(Point2::new(a * cosine, b * sine));
            path.push(point, angle);
        }
        path
    }

    /// The frame and the two radii of a circle or an ellipse.
    pub(crate) fn conic_frame(&mut self, id: u64) -> Result<(Frame, f64, f64)> {
        let values = self.arguments(id)?;
        let frame = self.axes(values.reference(0))?;
        let a = self.length_at(&values, 1)?;
        let b = if self.keyword(id) == "IFCELLIPSE" {
            self.length_at(&values, 2)?
        } else {
            a
        };
        if !(is_positive(a) && is_positive(b)) {
            return fail("a circle or an ellipse without a radius");
        }
        Ok((frame, a, b))
    }

    /// An arc of a conic; parameters are in the file's angle unit.
    fn conic(&mut self, id: u64, from: f64, to: f64) -> Result<Path> {
        let (frame, a, b) = self.conic_frame(id)?;
        let mut path = self.arc(&frame, a, b, from, to);
        let radians = self.units.radians;
        for parameter in &mut path.parameters {
            *parameter /= radians;
        }
        if from > to {
            path.parameters.iter_mut().for_each(|own| *own = -*own);
        }
        Ok(path)
    }

    /// A line's point, and the vector of one parameter.
    pub(crate) fn line(&mut self, id: u64) -> Result<(Point3, Point3)> {
        let values = self.arguments(id)?;
        let start = self.point(values.reference(0))?;
        let vector = self.arguments(values.reference(1))?;
        let way = self.direction(vector.reference(0))?.unit();
        Ok((start, way * self.length_at(&vector, 1)?))
    }

    fn composite(&mut self, values: &Arguments<'a>) -> Result<Path> {
        let mut path = Path::default();
        for segment in values.references(0).collect::<Vec<u64>>() {
            let next = self.composite_part(segment)?;
            let next = match (path.points.last(), next.points.first(), next.points.last()) {
                // A segment that says the wrong sense is turned where it fits the other way round.
                (Some(end), Some(first), Some(last))
                    if end.distance(*first) > 1.0 && end.distance(*last) < 1e-3 =>
                {
                    next.reversed()
                }
                _ => next,
            };
            path.append(next);
        }
        Ok(path)
    }

    fn composite_part(&mut self, segment: u64) -> Result<Path> {
        match self.keyword(segment) {
            "IFCCOMPOSITECURVESEGMENT" | "IFCREPARAMETRISEDCOMPOSITECURVESEGMENT" => {
                let parts = self.arguments(segment)?;
                let path = self.path(parts.reference(2))?;
                Ok(if parts.get(1).is_false() {
                    path.reversed()
                } else {
                    path
                })
            }
            _ => self.path(segment),
        }
    }

    fn trim(&mut self, value: &Value<'a>) -> Result<Trim> {
        let mut trim = Trim::default();
        for choice in value.list() {
            match choice {
                Value::Reference(id) => trim.point = Some(self.point(*id)?),
                other => trim.parameter = Some(other.number()?),
            }
        }
        Ok(trim)
    }

    fn trimmed(&mut self, values: &Arguments<'a>) -> Result<Path> {
        let basis = values.reference(0);
        let (from, to) = (self.trim(values.get(1))?, self.trim(values.get(2))?);
        let forward = !values.get(3).is_false();
        let by_parameter = values.get(4).enumeration() == b"PARAMETER"
            && from.parameter.is_some()
            && to.parameter.is_some();
        match self.keyword(basis) {
            "IFCLINE" => self.trimmed_line(basis, &from, &to, by_parameter),
            "IFCCIRCLE" | "IFCELLIPSE" => {
                self.trimmed_conic(basis, &from, &to, by_parameter, forward)
            }
            _ => {
                let path = self.path(basis)?;
                let start = trim_place(&path, &from, by_parameter)?;
                let end = trim_place(&path, &to, by_parameter)?;
                let piece = path.between(start.min(end), start.max(end))?;
                Ok(if forward { piece } else { piece.reversed() })
            }
        }
    }

    fn trimmed_line(
        &mut self,
        id: u64,
        from: &Trim,
        to: &Trim,
        by_parameter: bool,
    ) -> Result<Path> {
        let (start, way) = self.line(id)?;
        let step = way.length();
        let end = |trim: &Trim| match (trim.point, trim.parameter) {
            (Some(point), _) if !by_parameter => Ok(point),
            (_, Some(parameter)) => Ok(start + way * parameter),
            (Some(point), None) => Ok(point),
            (None, None) => fail("a trimmed line without an end"),
        };
        let (a, b) = (end(from)?, end(to)?);
        let length = a.distance(b);
        let span = if step > 0.0 { length / step } else { length };
        Ok(Path {
            points: vec![a, b],
            parameters: vec![0.0, span],
        })
    }

    fn trimmed_conic(
        &mut self,
        id: u64,
        from: &Trim,
        to: &Trim,
        by_parameter: bool,
        forward: bool,
    ) -> Result<Path> {
        let (frame, a, b) = self.conic_frame(id)?;
        let radians = self.units.radians;
        let angle = |trim: &Trim| match (trim.point, trim.parameter) {
            (Some(point), parameter) if parameter.is_none() || !by_parameter => {
                let own = frame.local(point);
                Ok(angle_of(own.y / b, own.x / a))
            }
            (_, Some(parameter)) => Ok(parameter * radians),
            _ => fail("a trimmed circle without an end"),
        };
        let (start, end) = (angle(from)?, angle(to)?);
        self.conic(id, start, onward(start, end, forward))
    }

    /// A segment of an alignment: a piece of its parent curve, moved so that it begins at its placement.
    fn curve_segment(&mut self, values: &Arguments<'a>) -> Result<Path> {
        let placed = self.axes(values.reference(1))?;
        let start = self.length_at(values, 2)?;
        let length = self.length_at(values, 3)?;
        let parent = values.reference(4);
        let (own, mut path) = match self.keyword(parent) {
            "IFCLINE" => {
                let (origin, way) = self.line(parent)?;
                let way = way.unit();
                let first = origin + way * start;
                let points = vec![first, first + way * length];
                (Frame::of_axes(first, Point3::Z, Some(way)), points)
            }
            "IFCCIRCLE" => self.circle_piece(parent, start, length)?,
            "IFCCLOTHOID" => self.clothoid_piece(parent, start, length)?,
            _ => return self.unknown(parent),
        };
        for point in &mut path {
            *point = placed.point(own.local(*point));
        }
        let mut parameters = vec![0.0];
        for pair in path.windows(2) {
            let last = parameters[parameters.len() - 1];
            parameters.push(last + pair[0].distance(pair[1]) / self.units.millimetres);
        }
        Ok(Path {
            points: path,
            parameters,
        })
    }

    fn circle_piece(&mut self, id: u64, start: f64, length: f64) -> Result<(Frame, Vec<Point3>)> {
        let (frame, radius, _) = self.conic_frame(id)?;
        let (from, to) = (start / radius, (start + length) / radius);
        let points = self.arc(&frame, radius, radius, from, to).points;
        let (sine, cosine) = sine_cosine(from);
        let tangent = frame.direction(Point3::new(-sine, cosine, 0.0));
        // Where it is run backwards the tangent is that of the way back.
        let tangent = if length < 0.0 { -tangent } else { tangent };
        let own = Frame::of_axes(points[0], frame.z, Some(tangent));
        Ok((own, points))
    }

    /// A clothoid's piece: its curvature grows with the length, by the constant A as A / |A|³.
    fn clothoid_piece(&mut self, id: u64, start: f64, length: f64) -> Result<(Frame, Vec<Point3>)> {
        let values = self.arguments(id)?;
        let frame = self.axes(values.reference(0))?;
        let constant = self.length_at(&values, 1)?;
        if constant == 0.0 {
            return fail("a clothoid without a constant");
        }
        let growth = constant / (constant.abs() * constant.abs() * constant.abs());
        let heading = |s: f64| growth * s * s / 2.0;
        const STEPS: usize = 64;
        let step = length / STEPS as f64;
        let mut at = Point3::ZERO;
        let mut points = vec![at];
        for k in 0..STEPS {
            let s = start + step * k as f64;
            let mut mean = Point3::ZERO;
            for (part, weight) in [(0.0, 1.0), (0.5, 4.0), (1.0, 1.0)] {
                let (sine, cosine) = sine_cosine(heading(s + step * part));
                mean = mean + Point3::new(cosine, sine, 0.0) * (weight / 6.0);
            }
            at = at + mean * step;
            points.push(at);
        }
        let (sine, cosine) = sine_cosine(heading(start));
        let sign = if length < 0.0 { -1.0 } else { 1.0 };
        let tangent = Point3::new(cosine, sine, 0.0) * sign;
        let placed = Frame::of_axes(Point3::ZERO, Point3::Z, Some(tangent));
        let own = frame.then(&placed);
        let points = points.into_iter().map(|p| frame.point(p)).collect();
        Ok((own, points))
    }

    /// A level curve and a height along it: the parameter is the level distance in the file's unit.
    fn gradient(&mut self, values: &Arguments<'a>) -> Result<Path> {
        let base = self.path(values.reference(2))?;
        let heights = self.composite(values)?;
        let profile: Vec<Point3> = heights.points;
        if base.points.len() < 2 || profile.len() < 2 {
            return fail("a gradient curve without length");
        }
        let start = profile[0].x;
        let mut distances = vec![0.0];
        for pair in base.points.windows(2) {
            distances.push(distances[distances.len() - 1] + pair[0].distance(pair[1]));
        }
        let total = distances[distances.len() - 1];
        let mut stops = distances;
        stops.extend(profile.iter().map(|p| p.x - start));
        stops.retain(|&d| d >= 0.0 && d <= total + SAME);
        stops.sort_by(f64::total_cmp);
        stops.dedup_by(|a, b| (*a - *b).abs() < SAME);
        let mut path = Path::default();
        for distance in stops {
            let (mut point, _) = base.at_length(distance)?;
            point.z += height_at(&profile, start + distance);
            path.push(point, distance / self.units.millimetres);
        }
        Ok(path)
    }

    pub(crate) fn spline(&mut self, id: u64) -> Result<Spline> {
        let values = self.arguments(id)?;
        let keyword = self.keyword(id);
        let degree = values.get(0).index()?;
        let ids: Vec<u64> = values.references(1).collect();
        let points = ids.into_iter().map(|id| self.point(id));
        let points: Vec<Point3> = points.collect::<Result<_>>()?;
        let bezier = keyword.ends_with("BEZIERCURVE");
        let weights_at = if bezier { 5 } else { 8 };
        let weights = if keyword.starts_with("IFCRATIONAL") {
            numbers(values.list(weights_at))?
        } else {
            vec![1.0; points.len()]
        };
        let knots = if bezier {
            Spline::bezier_knots(degree, points.len())
        } else {
            repeated_knots(&values, 5, 6)?
        };
        Spline::new(degree, points, weights, knots)
    }
}

/// The height of a profile of distances and heights at a distance.
fn height_at(profile: &[Point3], distance: f64) -> f64 {
    let behind = profile.partition_point(|p| p.x <= distance);
    let k = behind.clamp(1, profile.len() - 1);
    let (a, b) = (profile[k - 1], profile[k]);
    if b.x > a.x {
        a.y + (b.y - a.y) * (distance - a.x) / (b.x - a.x)
    } else {
        a.y
    }
}

/// The parameter where a path is trimmed.
fn trim_place(path: &Path, trim: &Trim, by_parameter: bool) -> Result<f64> {
    match (trim.point, trim.parameter) {
        (Some(point), parameter) if parameter.is_none() || !by_parameter => {
            Ok(nearest_parameter(path, point))
        }
        (_, Some(parameter)) => Ok(parameter),
        _ => fail("a trimmed curve without an end"),
    }
}

fn nearest_parameter(path: &Path, point: Point3) -> f64 {
    let mut best = (f64::INFINITY, 0.0);
    for k in 1..path.points.len() {
        let (a, b) = (path.points[k - 1], path.points[k]);
        let way = b - a;
        let square = way.dot(way);
        let part = if square > 0.0 {
            ((point - a).dot(way) / square).clamp(0.0, 1.0)
        } else {
            0.0
        };
        let distance = a.towards(b, part).distance(point);
        if distance < best.0 {
            let (s, t) = (path.parameters[k - 1], path.parameters[k]);
            best = (distance, s + (t - s) * part);
        }
    }
    best.1
}

/// The end angle of an arc: the next one after the start, or before it.
pub(crate) fn onward(start: f64, end: f64, forward: bool) -> f64 {
    if !(start.is_finite() && end.is_finite()) {
        return start;
    }
    let mut way = (end - start) % TURN;
    if forward && way <= 1e-12 {
        way += TURN;
    }
    if !forward && way >= -1e-12 {
        way -= TURN;
    }
    start + way
}

pub(crate) fn numbers(values: &[Value<'_>]) -> Result<Vec<f64>> {
    values.iter().map(Value::number).collect()
}

/// Knots, each as often as its multiplicity says.
pub(crate) fn repeated_knots(
    values: &Arguments<'_>,
    counts: usize,
    knots: usize,
) -> Result<Vec<f64>> {
    let knots = numbers(values.list(knots))?;
    let mut repeated = Vec::new();
    for (knot, count) in knots.iter().zip(values.list(counts)) {
        let count = count.index()?;
        if count > 64 {
            return fail("a knot that is repeated too often");
        }
        repeated.extend(std::iter::repeat(*knot).take(count));
    }
    Ok(repeated)
}

#[cfg(test)]
mod tests {
    use super::*;

    #[test]
    fn pieces_of_a_path() {
        let points = [0.0, 1.0, 3.0, 6.0].map(|x| Point3::new(x, 0.0, 0.0));
        let path = Path::counted(points.to_vec());
        let piece = path.between(0.5, 2.5).unwrap();
        assert_eq!(piece.points.len(), 4);
        assert!((piece.points[0].x - 0.5).abs() < 1e-12);
        assert!((piece.points[3].x - 4.5).abs() < 1e-12);
        assert!((path.at_length(4.0).unwrap().0.x - 4.0).abs() < 1e-12);
        assert!(path.between(2.0, 2.0).is_err());
    }

    #[test]
    fn arcs_go_on() {
        assert!((onward(3.0, 1.0, true) - (1.0 + TURN)).abs() < 1e-12);
        assert!((onward(1.0, 3.0, false) - (3.0 - TURN)).abs() < 1e-12);
        assert!((onward(0.0, 0.0, true) - TURN).abs() < 1e-12);
    }
}
