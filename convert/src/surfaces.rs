//! Curved surfaces, and faces that are bounded on them.
//!
//! Each surface has two parameters, p and q. A face is cut along lines of p through all corners of its bounds, so that
//! between two lines each bound runs from the one to the other; what lies between two bounds becomes a strip, which is
//! cut along q where the surface is curved that way too. Seams run along lines of p and so don't matter.

use crate::curves::{numbers, repeated_knots};
use crate::fault::{fail, Result};
use crate::part21::Arguments;
use crate::shaper::Shaper;
use crate::splines::{chords_between, SplineSurface};
use crate::trigonometry::{angle_of, sine_cosine, PI, TURN};
use crate::vector::{is_positive, Frame, Point2, Point3, Polygon, Surface};

/// Corners whose lines of p lie nearer than this (in millimetres on the surface) lie on one line.
const SAME_LINE: f64 = 0.01;

/// How a surface gives a point for its parameters.
enum Form {
    /// By a radius and a height above the frame's plane: p is the angle about the frame's z.
    Revolved { frame: Frame, side: Side },
    /// p is the minor angle and q the major one, about the frame's z.
    Torus {
        frame: Frame,
        major: f64,
        minor: f64,
    },
    /// A chain of points moved along a direction: p is the length along the chain, q that along the direction.
    Extruded {
        chain: Vec<Point3>,
        lengths: Vec<f64>,
        way: Point3,
    },
    Spline {
        surface: SplineSurface,
        swapped: bool,
        samples: Vec<(f64, f64, Point3)>,
    },
}

/// What is turned about an axis.
enum Side {
    /// A line: the radius at height 0, and its growth with the height, which is q.
    Line { radius: f64, growth: f64 },
    /// A circle about the axis' origin: q is the latitude.
    Sphere { radius: f64 },
    /// A chain of radii and heights: q is the length along it.
    Chain {
        points: Vec<Point2>,
        lengths: Vec<f64>,
    },
}

/// A surface with what is needed to cut faces on it.
pub(crate) struct CurvedSurface {
    form: Form,
    /// Whether p and q come round again, and after how much.
    period: [Option<f64>; 2],
    /// Where q ends in a point, below and above.
    poles: [Option<f64>; 2],
    /// Whether p and q, in this order, turn left about the surface's normal.
    left: bool,
    /// Millimetres of p at most.
    size: f64,
    /// Lines of p and q between which the surface is as good as straight.
    lines: [Lines; 2],
}

enum Lines {
    /// No further apart than this.
    Step(f64),
    /// At these.
    At(Vec<f64>),
    None,
}

impl<'a> Shaper<'a> {
    pub(crate) fn curved_surface(&mut self, id: u64) -> Result<CurvedSurface> {
        let values = self.arguments(id)?;
        match self.keyword(id) {
            "IFCCYLINDRICALSURFACE" => {
                let frame = self.axes(values.reference(0))?;
                let radius = self.length_at(&values, 1)?;
                self.turned_line(frame, radius, 0.0)
            }
            "IFCCONICALSURFACE" => {
                let frame = self.axes(values.reference(0))?;
                let radius = self.length_at(&values, 1)?;
                let (sine, cosine) = sine_cosine(values.number(2)? * self.units.radians);
                self.turned_line(frame, radius, sine / cosine.max(1e-9))
            }
            "IFCSPHERICALSURFACE" => self.sphere(&values),
            "IFCTOROIDALSURFACE" => self.torus(&values),
            "IFCSURFACEOFREVOLUTION" => self.revolution(&values),
            "IFCSURFACEOFLINEAREXTRUSION" => self.extrusion(&values),
            "IFCBSPLINESURFACEWITHKNOTS" | "IFCRATIONALBSPLINESURFACEWITHKNOTS" => {
                self.spline_surface(id, &values)
            }
            _ => self.unknown(id),
        }
    }

    fn angle_step(&self, radius: f64) -> Lines {
        Lines::Step(TURN / self.chords(radius, TURN) as f64)
    }

    fn turned_line(&self, frame: Frame, radius: f64, growth: f64) -> Result<CurvedSurface> {
        if radius < 0.0 || !radius.is_finite() || (radius == 0.0 && growth == 0.0) {
            return fail("a cylinder or cone without a radius");
        }
        let pole = (growth != 0.0).then(|| -radius / growth);
        let poles = if growth > 0.0 {
            [pole, None]
        } else {
            [None, pole]
        };
        let size = radius.max(1.0);
        Ok(CurvedSurface {
            form: Form::Revolved {
                frame,
                side: Side::Line { radius, growth },
            },
            period: [Some(TURN), None],
            poles,
            left: true,
            size,
            lines: [self.angle_step(radius.max(100.0)), Lines::None],
        })
    }

    fn sphere(&mut self, values: &Arguments<'a>) -> Result<CurvedSurface> {
        let frame = self.axes(values.reference(0))?;
        let radius = self.length_at(values, 1)?;
        if !is_positive(radius) {
            return fail("a sphere without a radius");
        }
        Ok(CurvedSurface {
            form: Form::Revolved {
                frame,
                side: Side::Sphere { radius },
            },
            period: [Some(TURN), None],
            poles: [Some(-PI / 2.0), Some(PI / 2.0)],
            left: true,
            size: radius,
            lines: [self.angle_step(radius), self.angle_step(radius)],
        })
    }

    fn torus(&mut self, values: &Arguments<'a>) -> Result<CurvedSurface> {
        let frame = self.axes(values.reference(0))?;
        let major = self.length_at(values, 1)?;
        let minor = self.length_at(values, 2)?;
        if !(is_positive(major) && is_positive(minor)) {
            return fail("a torus without a radius");
        }
        Ok(CurvedSurface {
            form: Form::Torus {
                frame,
                major,
                minor,
            },
            period: [Some(TURN), Some(TURN)],
            poles: [None, None],
            left: false,
            size: minor,
            lines: [self.angle_step(minor), self.angle_step(major + minor)],
        })
    }

    /// The curve of a swept surface: that of an open profile, or a curve.
    fn swept_curve(&mut self, id: u64) -> Result<Vec<Point3>> {
        if self.keyword(id).ends_with("PROFILEDEF") {
            let values = self.arguments(id)?;
            if self.keyword(id).starts_with("IFCARBITRARY") {
                if self.keyword(values.reference(2)) == "IFCLINE" {
                    return self.long_line(values.reference(2));
                }
                return self.curve(values.reference(2));
            }
            let profile = match self.profiles(id)?.pop() {
                Some(profile) => profile,
                None => return fail("a swept surface without a curve"),
            };
            let mut ring = profile.outline;
            ring.extend(ring.first().copied());
            return Ok(ring.iter().map(|p| Point3::new(p.x, p.y, 0.0)).collect());
        }
        self.curve(id)
    }

    /// A line without ends, as far as a building reaches.
    fn long_line(&mut self, id: u64) -> Result<Vec<Point3>> {
        let (start, way) = self.line(id)?;
        let way = way.unit() * 1e6;
        Ok(vec![start - way, start + way])
    }

    fn revolution(&mut self, values: &Arguments<'a>) -> Result<CurvedSurface> {
        let curve = self.swept_curve(values.reference(0))?;
        let placed = self.axes(values.reference(1))?;
        let axis = self.axes(values.reference(2))?;
        let frame = placed.then(&axis);
        let mut points: Vec<Point2> = Vec::new();
        for point in curve {
            let own = axis.local(point);
            let radius = (own.x * own.x + own.y * own.y).sqrt();
            points.push(Point2::new(radius, own.z));
        }
        if points.len() < 2 {
            return fail("a surface of revolution without a curve");
        }
        let lengths = lengths_of(points.windows(2).map(|pair| pair[0].distance(pair[1])));
        let last = points.len() - 1;
        let radius = points
            .iter()
            .fold(1.0_f64, |most, p| most.max(p.x.min(1e6)));
        let pole = |place: usize| (points[place].x < 1e-6).then(|| lengths[place]);
        Ok(CurvedSurface {
            period: [Some(TURN), None],
            poles: [pole(0), pole(last)],
            left: true,
            size: radius,
            lines: [self.angle_step(radius), Lines::At(lengths.clone())],
            form: Form::Revolved {
                frame,
                side: Side::Chain { points, lengths },
            },
        })
    }

    fn extrusion(&mut self, values: &Arguments<'a>) -> Result<CurvedSurface> {
        let curve = self.swept_curve(values.reference(0))?;
        let frame = self.axes(values.reference(1))?;
        let way = frame.direction(self.direction(values.reference(2))?).unit();
        let chain: Vec<Point3> = curve.into_iter().map(|p| frame.point(p)).collect();
        if chain.len() < 2 {
            return fail("a swept surface without a curve");
        }
        let lengths = lengths_of(chain.windows(2).map(|pair| pair[0].distance(pair[1])));
        let closed = chain[0].distance(chain[chain.len() - 1]) < 1e-3;
        let whole = lengths[lengths.len() - 1];
        Ok(CurvedSurface {
            period: [closed.then_some(whole), None],
            poles: [None, None],
            left: true,
            size: 1.0,
            lines: [Lines::At(lengths.clone()), Lines::None],
            form: Form::Extruded {
                chain,
                lengths,
                way,
            },
        })
    }

    fn spline_surface(&mut self, id: u64, values: &Arguments<'a>) -> Result<CurvedSurface> {
        let degrees = [values.get(0).index()?, values.get(1).index()?];
        let mut rows = Vec::new();
        for row in values.list(2) {
            let points = row.list().iter().map(|point| self.point(point.reference()));
            rows.push(points.collect::<Result<Vec<Point3>>>()?);
        }
        let knots = [
            repeated_knots(values, 7, 9)?,
            repeated_knots(values, 8, 10)?,
        ];
        let weights = if self.keyword(id).starts_with("IFCRATIONAL") {
            let rows = values.list(12).iter();
            rows.map(|row| numbers(row.list())).collect::<Result<_>>()?
        } else {
            rows.iter().map(|row| vec![1.0; row.len()]).collect()
        };
        let surface = SplineSurface::new(degrees, rows, weights, knots)?;
        self.work.spend(100_000)?;
        Ok(CurvedSurface::of_spline(surface, self.chord))
    }
}

fn lengths_of(steps: impl Iterator<Item = f64>) -> Vec<f64> {
    let mut lengths = vec![0.0];
    for step in steps {
        lengths.push(lengths[lengths.len() - 1] + step);
    }
    lengths
}

/// Where a length lies in a chain: the place behind it, and the part of the way there.
fn place_in(lengths: &[f64], length: f64) -> (usize, f64) {
    let behind = lengths.partition_point(|&own| own <= length);
    let place = behind.clamp(1, lengths.len() - 1);
    let (a, b) = (lengths[place - 1], lengths[place]);
    let part = if b > a { (length - a) / (b - a) } else { 0.0 };
    (place, part)
}

impl CurvedSurface {
    fn of_spline(surface: SplineSurface, chord: f64) -> CurvedSurface {
        let ranges = [surface.range(0), surface.range(1)];
        let closed = |side: usize| {
            let (low, high) = ranges[side];
            let (start, end) = ranges[1 - side];
            [0.0, 0.3, 0.7].iter().all(|part| {
                let other = start + (end - start) * part;
                let at = |own: f64| {
                    if side == 0 {
                        surface.at(own, other)
                    } else {
                        surface.at(other, own)
                    }
                };
                at(low).distance(at(high)) < 1e-3
            })
        };
        let swapped = closed(1) && !closed(0);
        let (p, q) = if swapped { (1, 0) } else { (0, 1) };
        let lines = [
            spline_lines(&surface, p, chord),
            spline_lines(&surface, q, chord),
        ];
        let period = |side: usize| closed(side).then(|| ranges[side].1 - ranges[side].0);
        let periods = [period(p), period(q)];
        let mut samples = Vec::new();
        for &p in &sample_places(&lines[0]) {
            for &q in &sample_places(&lines[1]) {
                let at = if swapped {
                    surface.at(q, p)
                } else {
                    surface.at(p, q)
                };
                samples.push((p, q, at));
            }
        }
        let mut size = 1e-9_f64;
        for pair in samples.windows(2) {
            let step = (pair[1].0 - pair[0].0).abs();
            if step > 0.0 {
                size = size.max(pair[0].2.distance(pair[1].2) / step);
            }
        }
        let width = ranges[p].1 - ranges[p].0;
        let reach = samples.iter().fold(0.0_f64, |far, sample| {
            far.max(sample.2.distance(samples[0].2))
        });
        CurvedSurface {
            period: periods,
            poles: [None, None],
            left: !swapped,
            size: (reach / width).max(1e-9).min(size.max(1e-9)),
            lines,
            form: Form::Spline {
                surface,
                swapped,
                samples,
            },
        }
    }

    fn at(&self, p: f64, q: f64) -> Point3 {
        match &self.form {
            Form::Revolved { frame, side } => {
                let (radius, height) = side.at(q);
                let (sine, cosine) = sine_cosine(p);
                frame.point(Point3::new(radius * cosine, radius * sine, height))
            }
            Form::Torus {
                frame,
                major,
                minor,
            } => {
                let ((sine, cosine), (across, along)) = (sine_cosine(p), sine_cosine(q));
                let radius = major + minor * cosine;
                frame.point(Point3::new(radius * along, radius * across, minor * sine))
            }
            Form::Extruded {
                chain,
                lengths,
                way,
            } => {
                let (place, part) = place_in(lengths, self.wrapped(p));
                chain[place - 1].towards(chain[place], part) + *way * q
            }
            Form::Spline {
                surface, swapped, ..
            } => {
                let p = self.wrapped(p);
                if *swapped {
                    surface.at(q, p)
                } else {
                    surface.at(p, q)
                }
            }
        }
    }

    /// p within the first period of a chain or a spline, whose parameters have a beginning.
    fn wrapped(&self, p: f64) -> f64 {
        match (&self.form, self.period[0]) {
            (Form::Extruded { .. }, Some(period)) if p > period => p - period,
            (
                Form::Spline {
                    surface, swapped, ..
                },
                Some(period),
            ) => {
                let high = surface.range(usize::from(*swapped)).1;
                if p > high {
                    p - period
                } else {
                    p
                }
            }
            _ => p,
        }
    }

    /// The parameters of a point on the surface; p is none where the point is a pole.
    fn locate(&self, point: Point3) -> (Option<f64>, f64) {
        match &self.form {
            Form::Revolved { frame, side } => {
                let own = frame.local(point);
                let radius = (own.x * own.x + own.y * own.y).sqrt();
                let angle = (radius > 1e-4).then(|| angle_of(own.y, own.x));
                (angle, side.locate(radius, own.z))
            }
            Form::Torus { frame, major, .. } => {
                let own = frame.local(point);
                let radius = (own.x * own.x + own.y * own.y).sqrt();
                (
                    Some(angle_of(own.z, radius - major)),
                    angle_of(own.y, own.x),
                )
            }
            Form::Extruded {
                chain,
                lengths,
                way,
            } => locate_on_chain(chain, lengths, *way, point),
            Form::Spline { samples, .. } => {
                let (p, q) = self.locate_on_spline(samples, point);
                (Some(p), q)
            }
        }
    }

    /// The nearest sample, then steps towards the point by the slopes there.
    fn locate_on_spline(&self, samples: &[(f64, f64, Point3)], point: Point3) -> (f64, f64) {
        let mut best = (f64::INFINITY, 0.0, 0.0);
        for &(p, q, at) in samples {
            let distance = at.distance(point);
            if distance < best.0 {
                best = (distance, p, q);
            }
        }
        let ((low_p, high_p), (low_q, high_q)) = self.spline_ranges();
        let (mut p, mut q) = (best.1, best.2);
        let (small_p, small_q) = ((high_p - low_p) * 1e-5, (high_q - low_q) * 1e-5);
        for _ in 0..20 {
            // Slopes by differences that stay inside of the ranges.
            let next_p = if p + small_p > high_p {
                p - small_p
            } else {
                p + small_p
            };
            let next_q = if q + small_q > high_q {
                q - small_q
            } else {
                q + small_q
            };
            let here = self.at(p, q);
            let by_p = (self.at(next_p, q) - here) * (1.0 / (next_p - p));
            let by_q = (self.at(p, next_q) - here) * (1.0 / (next_q - q));
            let off = point - here;
            let (a, b, c) = (by_p.dot(by_p), by_p.dot(by_q), by_q.dot(by_q));
            let determinant = a * c - b * b;
            if determinant.is_nan() || determinant <= 1e-12 * a * c {
                break;
            }
            let (e, f) = (off.dot(by_p), off.dot(by_q));
            let step_p = (c * e - b * f) / determinant;
            let step_q = (a * f - b * e) / determinant;
            p = (p + step_p).clamp(low_p, high_p);
            q = (q + step_q).clamp(low_q, high_q);
            if step_p.abs() <= (high_p - low_p) * 1e-9 && step_q.abs() <= (high_q - low_q) * 1e-9 {
                break;
            }
        }
        if self.at(p, q).distance(point) <= best.0 {
            (p, q)
        } else {
            (best.1, best.2)
        }
    }

    fn spline_ranges(&self) -> ((f64, f64), (f64, f64)) {
        match &self.form {
            Form::Spline {
                surface, swapped, ..
            } => {
                let side = usize::from(*swapped);
                (surface.range(side), surface.range(1 - side))
            }
            _ => ((0.0, 1.0), (0.0, 1.0)),
        }
    }
}

fn spline_lines(surface: &SplineSurface, side: usize, chord: f64) -> Lines {
    let knots = surface.knots_within(side);
    let (start, end) = surface.range(1 - side);
    let mut lines = vec![knots[0]];
    for pair in knots.windows(2) {
        let mut count = 1;
        for part in [0.0, 0.25, 0.5, 0.75, 1.0] {
            let other = start + (end - start) * part;
            let at = |own: f64| {
                if side == 0 {
                    surface.at(own, other)
                } else {
                    surface.at(other, own)
                }
            };
            count = count.max(chords_between(
                pair[0],
                pair[1],
                chord,
                surface.degree(side),
                at,
            ));
        }
        let count = count.min(32);
        lines.extend((1..=count).map(|k| pair[0] + (pair[1] - pair[0]) * k as f64 / count as f64));
    }
    Lines::At(lines)
}

/// The places where a spline is looked at first: its lines, or some of them where there are many, and their middles.
fn sample_places(lines: &Lines) -> Vec<f64> {
    let at = match lines {
        Lines::At(at) => at,
        _ => return Vec::new(),
    };
    let step = (at.len() / 48).max(1);
    let mut places: Vec<f64> = at.iter().copied().step_by(step).collect();
    places.extend(
        at.windows(2)
            .step_by(step)
            .map(|pair| (pair[0] + pair[1]) / 2.0),
    );
    places.sort_by(f64::total_cmp);
    places
}

fn locate_on_chain(
    chain: &[Point3],
    lengths: &[f64],
    way: Point3,
    point: Point3,
) -> (Option<f64>, f64) {
    let mut best = (f64::INFINITY, 0.0, 0.0);
    for k in 1..chain.len() {
        let (a, b) = (chain[k - 1], chain[k]);
        let flat = |v: Point3| v - way * v.dot(way);
        let (along, off) = (flat(b - a), flat(point - a));
        let square = along.dot(along);
        let part = if square > 0.0 {
            (off.dot(along) / square).clamp(0.0, 1.0)
        } else {
            0.0
        };
        let distance = (off - along * part).length();
        if distance < best.0 {
            let foot = a.towards(b, part);
            let length = lengths[k - 1] + (lengths[k] - lengths[k - 1]) * part;
            best = (distance, length, (point - foot).dot(way));
        }
    }
    (Some(best.1), best.2)
}

impl Side {
    /// The radius and the height at q.
    fn at(&self, q: f64) -> (f64, f64) {
        match self {
            Side::Line { radius, growth } => (radius + growth * q, q),
            Side::Sphere { radius } => {
                let (sine, cosine) = sine_cosine(q);
                (radius * cosine, radius * sine)
            }
            Side::Chain { points, lengths } => {
                let (place, part) = place_in(lengths, q);
                let (a, b) = (points[place - 1], points[place]);
                (a.x + (b.x - a.x) * part, a.y + (b.y - a.y) * part)
            }
        }
    }

    fn locate(&self, radius: f64, height: f64) -> f64 {
        match self {
            Side::Line { .. } => height,
            Side::Sphere { .. } => angle_of(height, radius),
            Side::Chain { points, lengths } => {
                let flat: Vec<Point3> = points.iter().map(|p| Point3::new(p.x, p.y, 0.0)).collect();
                let place = Point3::new(radius, height, 0.0);
                locate_on_chain(&flat, lengths, Point3::Z, place)
                    .0
                    .unwrap_or(0.0)
            }
        }
    }
}

/// A point of a bound: its q, and where it is.
#[derive(Clone, Copy)]
struct Stop {
    q: f64,
    at: Point3,
}

/// A piece of a bound between two values of p.
struct Piece {
    from: f64,
    to: f64,
    ends: [Stop; 2],
    /// Whether the face lies on the side of greater q.
    opens: bool,
}

/// A bound where it crosses a strip between two lines of p.
#[derive(Clone, Copy)]
struct Crossing {
    ends: [Stop; 2],
    opens: bool,
}

impl Crossing {
    fn middle(&self) -> f64 {
        (self.ends[0].q + self.ends[1].q) / 2.0
    }

    fn moved(mut self, by: f64) -> Crossing {
        self.ends[0].q += by;
        self.ends[1].q += by;
        self
    }
}

/// A face on a curved surface.
pub(crate) struct CurvedFace<'s> {
    surface: &'s CurvedSurface,
    pieces: Vec<Piece>,
    /// Whether the face is seen from the surface's other side.
    turned: bool,
}

fn nearest_turn(difference: f64, period: Option<f64>) -> f64 {
    match period {
        Some(period) => difference - (difference / period).round() * period,
        None => difference,
    }
}

impl<'s> CurvedFace<'s> {
    /// The rings run so that the face lies to their left.
    pub(crate) fn new(surface: &'s CurvedSurface, rings: &[Polygon], same: bool) -> Self {
        let mut face = CurvedFace {
            surface,
            pieces: Vec::new(),
            turned: surface.left != same,
        };
        for ring in rings {
            let located: Vec<(Option<f64>, f64)> =
                ring.iter().map(|&p| surface.locate(p)).collect();
            for k in 0..ring.len() {
                let next = (k + 1) % ring.len();
                face.add(located[k], located[next], ring[k], ring[next]);
            }
        }
        face
    }

    fn add(
        &mut self,
        from: (Option<f64>, f64),
        to: (Option<f64>, f64),
        start: Point3,
        end: Point3,
    ) {
        let (p, next) = match (from.0, to.0) {
            (Some(p), Some(next)) => (p, next),
            _ => return, // from or to a pole: along a line of p
        };
        let way = nearest_turn(next - p, self.surface.period[0]);
        if way.abs() * self.surface.size <= SAME_LINE {
            return;
        }
        let q = from.1;
        let end_q = q + nearest_turn(to.1 - q, self.surface.period[1]);
        let mut ends = [Stop { q, at: start }, Stop { q: end_q, at: end }];
        let (mut low, mut high) = (p, p + way);
        if way < 0.0 {
            ends.swap(0, 1);
            std::mem::swap(&mut low, &mut high);
        }
        let opens = (way > 0.0) != self.turned;
        let piece = Piece {
            from: low,
            to: high,
            ends,
            opens,
        };
        self.push(piece);
    }

    /// Adds a piece within the first period, in two where it goes beyond.
    fn push(&mut self, mut piece: Piece) {
        let period = match self.surface.period[0] {
            Some(period) => period,
            None => return self.pieces.push(piece),
        };
        let start = self.surface.first_p();
        let shift = ((piece.from - start) / period).floor() * period;
        piece.from -= shift;
        piece.to -= shift;
        let end = start + period;
        let slack = SAME_LINE / self.surface.size;
        if end - piece.from <= slack {
            piece.from -= period;
            piece.to -= period;
            piece.from = piece.from.max(start);
        }
        if piece.to <= end + slack {
            piece.to = piece.to.min(end);
            return self.pieces.push(piece);
        }
        let stop = piece.stop(end);
        self.pieces.push(Piece {
            from: start,
            to: piece.to - period,
            ends: [stop, piece.ends[1]],
            opens: piece.opens,
        });
        self.pieces.push(Piece {
            from: piece.from,
            to: end,
            ends: [piece.ends[0], stop],
            opens: piece.opens,
        });
    }

    /// The lines of p that the face is cut along.
    fn cuts(&self) -> Vec<f64> {
        let mut cuts: Vec<f64> = self
            .pieces
            .iter()
            .flat_map(|piece| [piece.from, piece.to])
            .collect();
        let slack = SAME_LINE / self.surface.size;
        if self.pieces.is_empty() {
            if let Some(period) = self.surface.period[0] {
                let start = self.surface.first_p();
                cuts.extend([start, start + period]);
            }
        }
        cuts.sort_by(f64::total_cmp);
        cuts.dedup_by(|next, own| *next - *own <= slack);
        let (first, last) = match (cuts.first(), cuts.last()) {
            (Some(&first), Some(&last)) => (first, last),
            _ => return cuts,
        };
        match &self.surface.lines[0] {
            Lines::Step(step) => with_steps(&cuts, *step),
            Lines::At(lines) => {
                let between = |line: &&f64| **line > first && **line < last;
                let free = |line: &&f64| cuts.iter().all(|cut| (cut - **line).abs() > slack);
                let more: Vec<f64> = lines.iter().filter(between).filter(free).copied().collect();
                cuts.extend(more);
                cuts.sort_by(f64::total_cmp);
                cuts
            }
            Lines::None => cuts,
        }
    }

    /// The face's polygons.
    pub(crate) fn cut(&self, out: &mut Surface) -> Result<()> {
        let cuts = self.cuts();
        if cuts.len() < 2 {
            return fail("a curved face without bounds");
        }
        let strips: Vec<Vec<Crossing>> = cuts
            .windows(2)
            .map(|pair| self.crossings(pair[0], pair[1]))
            .collect();
        let fits = |turn: bool| {
            let lines = cuts.windows(2).zip(&strips);
            let fit =
                lines.filter(|(pair, strip)| self.pairs([pair[0], pair[1]], strip, turn).is_some());
            fit.count()
        };
        let turn = fits(true) > fits(false);
        for (pair, strip) in cuts.windows(2).zip(&strips) {
            let pairs = match self.pairs([pair[0], pair[1]], strip, turn) {
                Some(pairs) => pairs,
                None => self.even_pairs(strip)?,
            };
            for (low, high) in pairs {
                self.fill(pair[0], pair[1], &low, &high, out);
            }
        }
        Ok(())
    }

    /// The bounds that cross a strip, by rising q.
    fn crossings(&self, from: f64, to: f64) -> Vec<Crossing> {
        let slack = SAME_LINE / self.surface.size;
        let mut strip: Vec<Crossing> = Vec::new();
        for piece in &self.pieces {
            if piece.from <= from + slack && piece.to >= to - slack {
                let ends = [piece.stop(from), piece.stop(to)];
                let crossing = Crossing {
                    ends,
                    opens: piece.opens,
                };
                let shift = match self.surface.period[1] {
                    Some(period) => -(crossing.middle() / period + 1e-9).floor() * period,
                    None => 0.0,
                };
                strip.push(crossing.moved(shift));
            }
        }
        let round = self.surface.period[1].is_some();
        let place = |crossing: &Crossing| (crossing.middle() * 1e8).round();
        strip.sort_by(|a, b| {
            let order = place(a).total_cmp(&place(b));
            order.then((a.opens == round).cmp(&(b.opens == round)))
        });
        strip
    }

    /// The crossings in pairs between which the face lies; none where they don't fit so.
    fn pairs(
        &self,
        lines: [f64; 2],
        strip: &[Crossing],
        turn: bool,
    ) -> Option<Vec<(Crossing, Crossing)>> {
        let opens = |crossing: &Crossing| crossing.opens != turn;
        let mut bounds = strip.to_vec();
        if strip.is_empty() {
            let whole = self.pieces.is_empty();
            return if whole {
                self.whole_strip(lines)
            } else {
                Some(Vec::new())
            };
        }
        if let Some(period) = self.surface.period[1] {
            if !opens(&bounds[0]) {
                let first = bounds.remove(0);
                bounds.push(first.moved(period));
            }
        } else {
            if !opens(&bounds[0]) {
                bounds.insert(0, self.pole(0, lines)?);
            }
            if bounds.len() % 2 == 1 {
                bounds.push(self.pole(1, lines)?);
            }
        }
        if bounds.len() % 2 == 1 {
            return None;
        }
        let inner = &bounds[1..bounds.len() - 1];
        let fit = inner
            .iter()
            .enumerate()
            .all(|(k, own)| opens(own) == (k % 2 == 1));
        if !fit {
            return None;
        }
        Some(bounds.chunks(2).map(|pair| (pair[0], pair[1])).collect())
    }

    fn whole_strip(&self, lines: [f64; 2]) -> Option<Vec<(Crossing, Crossing)>> {
        if let Some(period) = self.surface.period[1] {
            let start = self.level(0.0, lines);
            return Some(vec![(start, start.moved(period))]);
        }
        Some(vec![(self.pole(0, lines)?, self.pole(1, lines)?)])
    }

    /// The end of q below (0) or above (1), where it is a point.
    fn pole(&self, end: usize, lines: [f64; 2]) -> Option<Crossing> {
        self.surface.poles[end].map(|q| self.level(q, lines))
    }

    /// A crossing at one value of q.
    fn level(&self, q: f64, lines: [f64; 2]) -> Crossing {
        Crossing {
            ends: lines.map(|p| Stop {
                q,
                at: self.surface.at(p, q),
            }),
            opens: true,
        }
    }

    /// The crossings two by two, whatever they say of their sides.
    fn even_pairs(&self, strip: &[Crossing]) -> Result<Vec<(Crossing, Crossing)>> {
        if strip.len() % 2 == 1 {
            return fail("a curved face whose bounds don't close");
        }
        Ok(strip.chunks(2).map(|pair| (pair[0], pair[1])).collect())
    }

    /// The polygons of a strip between two bounds.
    fn fill(&self, from: f64, to: f64, low: &Crossing, high: &Crossing, out: &mut Surface) {
        let left = self.chain(from, low.ends[0], high.ends[0]);
        let right = self.chain(to, low.ends[1], high.ends[1]);
        let (mut k, mut n) = (0, 0);
        while k + 1 < left.len() || n + 1 < right.len() {
            let on_right = n + 1 < right.len()
                && (k + 1 >= left.len() || right[n + 1].q <= left[k + 1].q + 1e-12);
            let on_left =
                k + 1 < left.len() && (!on_right || left[k + 1].q <= right[n + 1].q + 1e-12);
            let mut polygon = vec![left[k].at, right[n].at];
            if on_right {
                n += 1;
                polygon.push(right[n].at);
            }
            if on_left {
                k += 1;
                polygon.push(left[k].at);
            }
            if self.turned {
                polygon.reverse();
            }
            push_flat(&polygon, out);
        }
    }

    /// The points of a line of p between two bounds, by rising q.
    fn chain(&self, p: f64, low: Stop, high: Stop) -> Vec<Stop> {
        let mut chain = vec![low];
        let mut add = |q: f64| {
            let slack = (high.q - low.q) * 1e-6;
            if q > low.q + slack && q < high.q - slack {
                let at = self.surface.at(p, q);
                chain.push(Stop { q, at });
            }
        };
        match &self.surface.lines[1] {
            Lines::Step(step) => {
                let first = (low.q / step).floor() as i64;
                let last = (high.q / step).ceil() as i64;
                (first..=last.min(first + 100_000)).for_each(|k| add(k as f64 * step));
            }
            Lines::At(lines) => lines.iter().for_each(|&q| add(q)),
            Lines::None => {}
        }
        chain.push(high);
        chain
    }
}

impl CurvedSurface {
    /// Where the first period of p begins.
    fn first_p(&self) -> f64 {
        match &self.form {
            Form::Spline { .. } => self.spline_ranges().0 .0,
            _ => 0.0,
        }
    }
}

impl Piece {
    /// Where the piece is at a value of p.
    fn stop(&self, p: f64) -> Stop {
        let part = ((p - self.from) / (self.to - self.from)).clamp(0.0, 1.0);
        let [a, b] = self.ends;
        // The ends as they are, so that neighbours share them.
        if part < 1e-9 {
            return a;
        }
        if part > 1.0 - 1e-9 {
            return b;
        }
        Stop {
            q: a.q + (b.q - a.q) * part,
            at: a.at.towards(b.at, part),
        }
    }
}

fn with_steps(cuts: &[f64], step: f64) -> Vec<f64> {
    let mut lines = vec![cuts[0]];
    for pair in cuts.windows(2) {
        let gap = pair[1] - pair[0];
        let count = ((gap / step - 1e-6).ceil()).clamp(1.0, 1000.0) as usize;
        lines.extend((1..=count).map(|k| pair[0] + gap * k as f64 / count as f64));
    }
    lines
}

/// A triangle or a quadrangle, without corners that meet and in two where it isn't flat.
fn push_flat(polygon: &[Point3], out: &mut Surface) {
    match *polygon {
        [a, b, c, d] => crate::sweeps::add_quad([a, b, c, d], out),
        [a, b, c] => {
            let meet = a.distance(b) < 1e-9 || b.distance(c) < 1e-9 || c.distance(a) < 1e-9;
            if !meet {
                out.push(vec![a, b, c]);
            }
        }
        _ => {}
    }
}
