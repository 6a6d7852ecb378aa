//! Solids that a profile makes when it is moved: extruded, revolved, along a curve.

use crate::curves::{join, Path};
use crate::fault::{fail, Result};
use crate::part21::Arguments;
use crate::polygons::triangulate;
use crate::profiles::Profile;
use crate::shaper::{Shape, Shaper, MOST_POLYGONS};
use crate::trigonometry::TURN;
use crate::vector::{turn_over, volume, Frame, Point2, Point3, Polygon, Surface};

/// What turns a profile about the curve that it follows.
enum Guide {
    /// Nothing: it turns as little as it can.
    Free,
    /// Its x is the direction, as seen along the curve.
    Fixed(Point3),
    /// Its x is the direction at each point.
    Each(Vec<Point3>),
}

impl<'a> Shaper<'a> {
    pub(crate) fn extruded(&mut self, values: &Arguments<'a>, out: &mut Shape) -> Result<()> {
        let frame = self.axes(values.reference(1))?;
        let way = self.direction(values.reference(2))?.unit();
        let end = frame.then(&Frame::moved(way * self.length_at(values, 3)?));
        let profiles = self.profiles(values.reference(0))?;
        let ends = self.end_profiles(values.reference(4), &profiles)?;
        for (profile, last) in profiles.into_iter().zip(ends) {
            self.sweep(&[profile, last], &[frame, end], false, out)?;
        }
        Ok(())
    }

    /// The profiles at the end of a tapered solid; those at its start if there are none.
    fn end_profiles(&mut self, id: u64, starts: &[Profile]) -> Result<Vec<Profile>> {
        if id == 0 {
            return Ok(starts.to_vec());
        }
        let ends = self.profiles(id)?;
        if ends.len() != starts.len() {
            return fail("a tapered solid whose ends are unlike");
        }
        Ok(ends)
    }

    pub(crate) fn revolved(&mut self, values: &Arguments<'a>, out: &mut Shape) -> Result<()> {
        let frame = self.axes(values.reference(1))?;
        let axis = self.arguments(values.reference(2))?;
        let origin = self.point(axis.reference(0))?;
        let way = self.direction_or(axis.reference(1), Point3::Z)?.unit();
        let angle = values.number(3)? * self.units.radians;
        if !angle.is_finite() || angle.abs() > 2.0 * TURN {
            return fail("a revolution by more than a turn");
        }
        let whole = angle.abs() > TURN - 1e-6;
        let angle = angle.clamp(-TURN, TURN);
        let profiles = self.profiles(values.reference(0))?;
        let ends = self.end_profiles(values.reference(4), &profiles)?;
        for (profile, last) in profiles.into_iter().zip(ends) {
            let radius = widest(&profile, origin, way);
            let count = self.chords(radius, angle).max(if whole { 3 } else { 1 });
            let stations = if whole { count } else { count + 1 };
            let frames: Vec<Frame> = (0..stations)
                .map(|k| {
                    let part = angle * k as f64 / count as f64;
                    frame.then(&Shaper::turned(origin, way, part))
                })
                .collect();
            let between = |k: usize| profile_between(&profile, &last, k as f64 / count as f64);
            let profiles: Result<Vec<Profile>> = if values.has(4) {
                (0..stations).map(between).collect()
            } else {
                Ok(vec![profile.clone()])
            };
            self.sweep(&profiles?, &frames, whole, out)?;
        }
        Ok(())
    }

    pub(crate) fn swept_disk(
        &mut self,
        id: u64,
        values: &Arguments<'a>,
        out: &mut Shape,
    ) -> Result<()> {
        let mut path = self.piece_of_path(values, 0, 3)?;
        if self.keyword(id) == "IFCSWEPTDISKSOLIDPOLYGONAL" && values.has(5) {
            let radius = self.length_at(values, 5)?;
            let radii = vec![radius; path.points.len()];
            path.points = self.rounded_chain(&path.points, &radii, false);
        }
        let radius = self.length_at(values, 1)?;
        let inner = self.length_or(values, 2, 0.0)?;
        let mut profile = Profile {
            outline: self.oval(radius, radius)?,
            holes: Vec::new(),
        };
        if inner > 0.0 && inner < radius {
            profile.holes.push(self.oval(inner, inner)?);
        }
        self.sweep_along(
            &[profile],
            &path.points,
            &Guide::Free,
            &Frame::IDENTITY,
            out,
        )
    }

    /// A solid swept along a curve by a fixed direction, or by the normals of a surface.
    pub(crate) fn swept_along(
        &mut self,
        id: u64,
        values: &Arguments<'a>,
        out: &mut Shape,
    ) -> Result<()> {
        let frame = self.axes(values.reference(1))?;
        let path = self.piece_of_path(values, 2, 3)?;
        let guide = match self.keyword(id) {
            "IFCSURFACECURVESWEPTAREASOLID" => self.normals(values.reference(5), &path.points)?,
            _ => Guide::Fixed(self.direction_or(values.reference(5), Point3::X)?.unit()),
        };
        let profiles = self.profiles(values.reference(0))?;
        for profile in profiles {
            self.sweep_along(&[profile], &path.points, &guide, &frame, out)?;
        }
        Ok(())
    }

    /// The curve at a place, between the parameters at two further places if they are given.
    fn piece_of_path(
        &mut self,
        values: &Arguments<'a>,
        curve: usize,
        first: usize,
    ) -> Result<Path> {
        let path = self.path(values.reference(curve))?;
        let (low, high) = match (path.parameters.first(), path.parameters.last()) {
            (Some(&low), Some(&high)) => (low, high),
            _ => return fail("a curve without points"),
        };
        let parameter = |place: usize, other: f64| match values.get(place).number() {
            Ok(number) => number,
            Err(_) => other,
        };
        let (from, to) = (parameter(first, low), parameter(first + 1, high));
        let whole = from <= low + 1e-9 && to >= high - 1e-9;
        if whole || from >= to || from >= high || to <= low {
            return Ok(path);
        }
        path.between(from, to)
    }

    /// The directions across a surface at points on it.
    fn normals(&mut self, surface: u64, points: &[Point3]) -> Result<Guide> {
        let values = self.arguments(surface)?;
        match self.keyword(surface) {
            "IFCPLANE" => Ok(Guide::Fixed(self.axes(values.reference(0))?.z)),
            "IFCCYLINDRICALSURFACE" => {
                let frame = self.axes(values.reference(0))?;
                let each = points.iter().map(|&p| {
                    let own = frame.local(p);
                    frame.direction(Point3::new(own.x, own.y, 0.0)).unit()
                });
                Ok(Guide::Each(each.collect()))
            }
            "IFCSURFACEOFLINEAREXTRUSION" => {
                let frame = self.axes(values.reference(1))?;
                let way = frame.direction(self.direction(values.reference(2))?).unit();
                let each = (0..points.len()).map(|k| {
                    let next = (k + 1).min(points.len() - 1);
                    let last = next.saturating_sub(1);
                    (points[next] - points[last]).cross(way).unit()
                });
                Ok(Guide::Each(each.collect()))
            }
            _ => self.unknown(surface),
        }
    }

    /// A solid between profiles that are placed along a spine.
    pub(crate) fn sectioned_spine(
        &mut self,
        values: &Arguments<'a>,
        out: &mut Shape,
    ) -> Result<()> {
        let mut profiles = Vec::new();
        for id in values.references(1).collect::<Vec<u64>>() {
            match self.profiles(id)?.pop() {
                Some(profile) => profiles.push(profile),
                None => return fail("a section without a profile"),
            }
        }
        let mut frames = Vec::new();
        for id in values.references(2).collect::<Vec<u64>>() {
            frames.push(self.axes(id)?);
        }
        if profiles.len() != frames.len() || frames.len() < 2 {
            return fail("a spine whose sections and places differ in number");
        }
        self.sweep(&profiles, &frames, false, out)
    }

    fn sweep_along(
        &mut self,
        profiles: &[Profile],
        points: &[Point3],
        guide: &Guide,
        frame: &Frame,
        out: &mut Shape,
    ) -> Result<()> {
        let mut chain = Vec::new();
        join(&mut chain, points);
        if chain.len() < 2 {
            return fail("a sweep along a point");
        }
        let closed = chain.len() > 3 && chain[0].distance(chain[chain.len() - 1]) < 1e-3;
        if closed {
            chain.pop();
        }
        let stations = stations(&chain, closed, guide);
        let placed: Vec<Frame> = stations.iter().map(|own| frame.then(own)).collect();
        self.sweep(profiles, &placed, closed, out)
    }

    /// The solid between placed profiles: one for all places or one for each. The ends are closed, or joined.
    pub(crate) fn sweep(
        &mut self,
        profiles: &[Profile],
        frames: &[Frame],
        joined: bool,
        out: &mut Shape,
    ) -> Result<()> {
        let profiles: Vec<Profile> = profiles.iter().cloned().map(Profile::directed).collect();
        let first = &profiles[0];
        if first.outline.len() < 3 {
            return fail("a profile without three corners");
        }
        let alike = |other: &Profile| {
            let sizes = other.rings().map(Vec::len);
            sizes.eq(first.rings().map(Vec::len))
        };
        if !profiles.iter().all(alike) {
            return fail("a solid whose profiles have unlike corners");
        }
        let corners: usize = first.rings().map(Vec::len).sum();
        if corners.saturating_mul(frames.len()) > MOST_POLYGONS {
            return fail("more polygons than an element may have");
        }
        self.work.spend(corners * frames.len() * 10)?;
        let mut surface = Surface::with_capacity(corners * frames.len());
        let count = frames.len();
        let own = |k: usize| &profiles[k.min(profiles.len() - 1)];
        for k in 0..(if joined { count } else { count - 1 }) {
            let next = (k + 1) % count;
            add_sides(
                (own(k), &frames[k]),
                (own(next), &frames[next]),
                &mut surface,
            );
        }
        if !joined {
            self.add_cap(own(0), &frames[0], true, &mut surface, out)?;
            self.add_cap(own(count - 1), &frames[count - 1], false, &mut surface, out)?;
        }
        if volume(&surface) < 0.0 {
            turn_over(&mut surface);
        }
        out.surface.append(&mut surface);
        self.check_size(&out.surface)
    }

    fn add_cap(
        &mut self,
        profile: &Profile,
        frame: &Frame,
        first: bool,
        surface: &mut Surface,
        out: &mut Shape,
    ) -> Result<()> {
        let rings: Vec<Vec<Point2>> = profile.rings().cloned().collect();
        let corners: Vec<Point3> = rings.iter().flatten().map(|&p| frame.flat(p)).collect();
        self.work.spend(corners.len() * corners.len() / 4)?;
        let triangles = triangulate(&rings)?;
        if !triangles.fine {
            out.crossed += 1;
        }
        for [a, b, c] in triangles.places {
            let [a, b, c] = [corners[a], corners[b], corners[c]];
            surface.push(if first { vec![c, b, a] } else { vec![a, b, c] });
        }
        Ok(())
    }
}

/// The sides between two placed profiles.
fn add_sides(from: (&Profile, &Frame), to: (&Profile, &Frame), surface: &mut Surface) {
    for (low, high) in from.0.rings().zip(to.0.rings()) {
        for k in 0..low.len() {
            let next = (k + 1) % low.len();
            let quad = [
                from.1.flat(low[k]),
                from.1.flat(low[next]),
                to.1.flat(high[next]),
                to.1.flat(high[k]),
            ];
            add_quad(quad, surface);
        }
    }
}

/// A quadrangle, as two triangles where it isn't flat.
pub(crate) fn add_quad([a, b, c, d]: [Point3; 4], surface: &mut Surface) {
    let (u, v) = (b - a, c - a);
    let off = u.cross(v).dot(d - a).abs();
    let triangle = |p: Point3, q: Point3, r: Point3| -> Option<Polygon> {
        let same = p.distance(q) < 1e-9 || q.distance(r) < 1e-9 || r.distance(p) < 1e-9;
        (!same).then(|| vec![p, q, r])
    };
    let corners_meet = a.distance(b) < 1e-9 || b.distance(c) < 1e-9 || c.distance(d) < 1e-9;
    if off <= 1e-6 * (u.length() * v.length()).max(1.0) && !corners_meet && d.distance(a) >= 1e-9 {
        surface.push(vec![a, b, c, d]);
    } else {
        surface.extend(triangle(a, b, c));
        surface.extend(triangle(a, c, d));
    }
}

fn widest(profile: &Profile, origin: Point3, way: Point3) -> f64 {
    let mut radius: f64 = 0.0;
    for p in &profile.outline {
        let out = Point3::new(p.x, p.y, 0.0) - origin;
        radius = radius.max((out - way * out.dot(way)).length());
    }
    radius
}

fn profile_between(first: &Profile, last: &Profile, part: f64) -> Result<Profile> {
    let (first, last) = (first.clone().directed(), last.clone().directed());
    if !first.rings().map(Vec::len).eq(last.rings().map(Vec::len)) {
        return fail("a tapered solid whose ends have unlike corners");
    }
    let between = |a: &Vec<Point2>, b: &Vec<Point2>| -> Vec<Point2> {
        let pairs = a.iter().zip(b);
        pairs
            .map(|(p, q)| Point2::new(p.x + (q.x - p.x) * part, p.y + (q.y - p.y) * part))
            .collect()
    };
    Ok(Profile {
        outline: between(&first.outline, &last.outline),
        holes: first
            .holes
            .iter()
            .zip(&last.holes)
            .map(|(a, b)| between(a, b))
            .collect(),
    })
}

/// Frames along a chain of points: z is the way in, and at a corner the profile is slid along it onto the mitre.
fn stations(chain: &[Point3], closed: bool, guide: &Guide) -> Vec<Frame> {
    let count = chain.len();
    let way = |k: usize| (chain[(k + 1) % count] - chain[k]).unit();
    let mut x = way(0).across();
    let mut frames = Vec::with_capacity(count);
    for k in 0..count {
        let before = match k {
            0 if closed => way(count - 1),
            0 => way(0),
            _ => way(k - 1),
        };
        let behind = if k + 1 < count || closed {
            way(k)
        } else {
            before
        };
        if k == 0 && closed {
            x = before.across();
        }
        match guide {
            Guide::Free => {}
            Guide::Fixed(direction) => x = *direction,
            Guide::Each(directions) => x = directions[k.min(directions.len() - 1)],
        }
        let flat = x - before * x.dot(before);
        x = if flat.length() > 1e-9 {
            flat.unit()
        } else {
            before.across()
        };
        frames.push(mitred(chain[k], x, before, behind));
        x = carried(x, before, behind);
    }
    frames
}

fn mitred(origin: Point3, x: Point3, before: Point3, behind: Point3) -> Frame {
    let y = before.cross(x);
    let mut middle = (before + behind).unit();
    let mut cosine = before.dot(middle);
    if cosine < 0.2 {
        middle = before;
        cosine = 1.0;
    }
    Frame {
        x: x - before * (x.dot(middle) / cosine),
        y: y - before * (y.dot(middle) / cosine),
        z: before,
        origin,
    }
}

/// A direction turned as the way is turned.
fn carried(x: Point3, before: Point3, behind: Point3) -> Point3 {
    let across = before.cross(behind);
    let (sine, cosine) = (across.length(), before.dot(behind));
    if sine <= 1e-9 {
        return x;
    }
    let axis = across * (1.0 / sine);
    x * cosine + axis.cross(x) * sine + axis * (axis.dot(x) * (1.0 - cosine))
}
