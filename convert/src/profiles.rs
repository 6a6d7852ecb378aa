//! Profiles: closed outlines with holes, in the plane of their x and y.

use crate::curves::{join, SAME};
use crate::fault::{fail, Result};
use crate::part21::Arguments;
use crate::polygons::ring_area;
use crate::shaper::Shaper;
use crate::trigonometry::TURN;
use crate::vector::{is_positive, Frame, Point2, Point3};

/// An outline and its holes.
#[derive(Clone, Debug, Default)]
pub struct Profile {
    pub outline: Vec<Point2>,
    pub holes: Vec<Vec<Point2>>,
}

impl Profile {
    fn of(outline: Vec<Point2>) -> Profile {
        Profile {
            outline,
            holes: Vec::new(),
        }
    }

    pub fn rings(&self) -> impl Iterator<Item = &Vec<Point2>> {
        std::iter::once(&self.outline).chain(&self.holes)
    }

    fn placed(mut self, frame: &Frame) -> Profile {
        let rings = std::iter::once(&mut self.outline).chain(&mut self.holes);
        for point in rings.flatten() {
            let placed = frame.flat(*point);
            *point = Point2::new(placed.x, placed.y);
        }
        self
    }

    /// The outline counter-clockwise, the holes clockwise, rings of fewer than three corners left out.
    pub fn directed(mut self) -> Profile {
        if ring_area(&self.outline) < 0.0 {
            self.outline.reverse();
        }
        self.holes.retain(|hole| hole.len() >= 3);
        for hole in &mut self.holes {
            if ring_area(hole) > 0.0 {
                hole.reverse();
            }
        }
        self
    }
}

/// A corner, and the radius that it is rounded by.
type Corner = (f64, f64, f64);

impl<'a> Shaper<'a> {
    /// The profiles of a profile definition: several of a composite one.
    pub(crate) fn profiles(&mut self, id: u64) -> Result<Vec<Profile>> {
        self.nested(|shaper| shaper.profiles_of(id))
    }

    fn profiles_of(&mut self, id: u64) -> Result<Vec<Profile>> {
        let values = self.arguments(id)?;
        match self.keyword(id) {
            "IFCARBITRARYCLOSEDPROFILEDEF" => {
                let outline = self.ring(values.reference(2))?;
                Ok(vec![Profile::of(outline)])
            }
            "IFCARBITRARYPROFILEDEFWITHVOIDS" => {
                let mut profile = Profile::of(self.ring(values.reference(2))?);
                for hole in values.references(3).collect::<Vec<u64>>() {
                    profile.holes.push(self.ring(hole)?);
                }
                Ok(vec![profile])
            }
            "IFCCENTERLINEPROFILEDEF" => {
                let points = self.curve(values.reference(2))?;
                let half = self.length_at(&values, 3)? / 2.0;
                Ok(vec![Profile::of(thickened(&points, half)?)])
            }
            "IFCCOMPOSITEPROFILEDEF" => {
                let mut all = Vec::new();
                for part in values.references(2).collect::<Vec<u64>>() {
                    all.append(&mut self.profiles(part)?);
                    self.work.spend(all.len())?;
                }
                Ok(all)
            }
            "IFCDERIVEDPROFILEDEF" | "IFCMIRROREDPROFILEDEF" => {
                let mut frame = Frame::IDENTITY;
                frame.x.x = -1.0;
                if values.reference(3) != 0 {
                    frame = self.operator(values.reference(3))?;
                }
                let profiles = self.profiles(values.reference(2))?;
                Ok(profiles.into_iter().map(|own| own.placed(&frame)).collect())
            }
            _ => {
                let profile = self.measured(id, &values)?;
                let frame = self.axes(values.reference(2))?;
                Ok(vec![profile.placed(&frame)])
            }
        }
    }

    /// A closed curve as a ring.
    fn ring(&mut self, curve: u64) -> Result<Vec<Point2>> {
        let ring = flat_ring(&self.curve(curve)?);
        if ring.len() < 3 {
            return fail("a profile without three corners");
        }
        Ok(ring)
    }

    /// A profile that is given by its measures.
    fn measured(&mut self, id: u64, values: &Arguments<'a>) -> Result<Profile> {
        let m: Vec<f64> = (3..14)
            .map(|place| self.length_or(values, place, 0.0))
            .collect::<Result<_>>()?;
        let keyword = self.keyword(id);
        let corners = match keyword {
            "IFCRECTANGLEPROFILEDEF" => rectangle(m[0], m[1], 0.0),
            "IFCROUNDEDRECTANGLEPROFILEDEF" => rectangle(m[0], m[1], m[2]),
            "IFCRECTANGLEHOLLOWPROFILEDEF" => {
                let inner = rectangle(m[0] - 2.0 * m[2], m[1] - 2.0 * m[2], m[3]);
                let mut profile = Profile::of(self.rounded(&rectangle(m[0], m[1], m[4])));
                profile.holes.push(self.rounded(&inner));
                return Ok(profile);
            }
            "IFCCIRCLEPROFILEDEF" => return self.oval(m[0], m[0]).map(Profile::of),
            "IFCELLIPSEPROFILEDEF" => return self.oval(m[0], m[1]).map(Profile::of),
            "IFCCIRCLEHOLLOWPROFILEDEF" => {
                let mut profile = Profile::of(self.oval(m[0], m[0])?);
                profile.holes.push(self.oval(m[0] - m[1], m[0] - m[1])?);
                return Ok(profile);
            }
            "IFCISHAPEPROFILEDEF" => i_shape([m[0], m[0]], m[1], m[2], [m[3], m[3]], [m[4], m[4]]),
            "IFCASYMMETRICISHAPEPROFILEDEF" => {
                let top = if values.has(9) { m[6] } else { m[3] };
                i_shape([m[0], m[5]], m[1], m[2], [m[3], top], [m[4], m[7]])
            }
            "IFCLSHAPEPROFILEDEF" => {
                let width = if values.has(4) { m[1] } else { m[0] };
                l_shape(m[0], width, m[2], m[3], m[4])
            }
            "IFCTSHAPEPROFILEDEF" => t_shape(m[0], m[1], m[2], m[3], m[4]),
            "IFCUSHAPEPROFILEDEF" => u_shape(m[0], m[1], m[2], m[3], m[4], m[5]),
            "IFCCSHAPEPROFILEDEF" => c_shape(m[0], m[1], m[2], m[3], m[4]),
            "IFCZSHAPEPROFILEDEF" => z_shape(m[0], m[1], m[2], m[3], m[4], m[5]),
            "IFCTRAPEZIUMPROFILEDEF" => trapezium(m[0], m[1], m[2], m[3]),
            _ => return self.unknown(id),
        };
        Ok(Profile::of(self.rounded(&corners)))
    }

    pub(crate) fn oval(&self, a: f64, b: f64) -> Result<Vec<Point2>> {
        if !(is_positive(a) && is_positive(b)) {
            return fail("a circle or an ellipse without a radius");
        }
        let points = self.arc(&Frame::IDENTITY, a, b, 0.0, TURN).points;
        Ok(flat_ring(&points))
    }

    fn rounded(&self, corners: &[Corner]) -> Vec<Point2> {
        let points: Vec<Point3> = corners.iter().map(|c| Point3::new(c.0, c.1, 0.0)).collect();
        let radii: Vec<f64> = corners.iter().map(|c| c.2).collect();
        flat_ring(&self.rounded_chain(&points, &radii, true))
    }

    /// A chain of points whose corners are rounded by arcs, as far as there is room for them.
    pub(crate) fn rounded_chain(
        &self,
        points: &[Point3],
        radii: &[f64],
        closed: bool,
    ) -> Vec<Point3> {
        let count = points.len();
        let mut out = Vec::new();
        for (k, (&corner, &radius)) in points.iter().zip(radii).enumerate() {
            let ends = !closed && (k == 0 || k + 1 == count);
            if radius <= 0.0 || ends || count < 3 {
                out.push(corner);
                continue;
            }
            let before = points[(k + count - 1) % count];
            let behind = points[(k + 1) % count];
            out.append(&mut self.fillet(before, corner, behind, radius));
        }
        out
    }

    fn fillet(&self, before: Point3, corner: Point3, behind: Point3, radius: f64) -> Vec<Point3> {
        let (back, on) = (before - corner, behind - corner);
        let (u, v) = (back.unit(), on.unit());
        let cosine = u.dot(v).clamp(-1.0, 1.0);
        if cosine.abs() > 1.0 - 1e-9 {
            return vec![corner];
        }
        let half_tangent = ((1.0 - cosine) / (1.0 + cosine)).sqrt();
        let reach = radius / half_tangent;
        if reach > back.length() + SAME || reach > on.length() + SAME {
            return vec![corner];
        }
        let start = corner + u * reach;
        let x = -(v - u * cosine).unit();
        let centre = start - x * radius;
        let frame = Frame {
            x,
            y: -u,
            z: x.cross(-u),
            origin: centre,
        };
        let angle = TURN / 2.0 - crate::trigonometry::arc_cosine(cosine);
        let mut points = self.arc(&frame, radius, radius, 0.0, angle).points;
        if let Some(last) = points.last_mut() {
            *last = corner + v * reach;
        }
        points
    }
}

/// A chain of points as a ring: what repeats the point before, or the first one at the end, is left out.
pub(crate) fn flat_ring(points: &[Point3]) -> Vec<Point2> {
    let mut ring: Vec<Point2> = Vec::with_capacity(points.len());
    for point in points {
        let flat = Point2::new(point.x, point.y);
        if ring.last().map_or(true, |last| last.distance(flat) > SAME) {
            ring.push(flat);
        }
    }
    while ring.len() > 1 && ring[0].distance(ring[ring.len() - 1]) <= SAME {
        ring.pop();
    }
    ring
}

/// The outline of a chain of points of some thickness, its corners mitred.
fn thickened(points: &[Point3], half: f64) -> Result<Vec<Point2>> {
    let mut chain = Vec::new();
    let level: Vec<Point3> = points.iter().map(|p| Point3::new(p.x, p.y, 0.0)).collect();
    join(&mut chain, &level);
    if chain.len() < 2 || !is_positive(half) {
        return fail("a centre line without length or thickness");
    }
    let count = chain.len();
    let way = |k: usize| (chain[k + 1] - chain[k]).unit();
    let mut left = Vec::new();
    let mut right = Vec::new();
    for (k, &corner) in chain.iter().enumerate() {
        let before = way(k.saturating_sub(1).min(count - 2));
        let behind = way(k.min(count - 2));
        let middle = (before + behind).unit();
        let across = Point3::Z.cross(middle);
        let stretch = 1.0 / middle.dot(behind).max(0.2);
        let offset = across * (half * stretch);
        left.push(corner + offset);
        right.push(corner - offset);
    }
    right.reverse();
    left.append(&mut right);
    Ok(flat_ring(&left))
}

fn rectangle(x: f64, y: f64, radius: f64) -> Vec<Corner> {
    let (x, y, r) = (x / 2.0, y / 2.0, radius);
    vec![(-x, -y, r), (x, -y, r), (x, y, r), (-x, y, r)]
}

/// Of each pair the first is of the lower flange.
fn i_shape(
    widths: [f64; 2],
    depth: f64,
    web: f64,
    flanges: [f64; 2],
    fillets: [f64; 2],
) -> Vec<Corner> {
    let ([b, c], [g, h], [r, s]) = (widths.map(|w| w / 2.0), flanges, fillets);
    let (d, t) = (depth / 2.0, web / 2.0);
    vec![
        (-b, -d, 0.0),
        (b, -d, 0.0),
        (b, -d + g, 0.0),
        (t, -d + g, r),
        (t, d - h, s),
        (c, d - h, 0.0),
        (c, d, 0.0),
        (-c, d, 0.0),
        (-c, d - h, 0.0),
        (-t, d - h, s),
        (-t, -d + g, r),
        (-b, -d + g, 0.0),
    ]
}

fn l_shape(depth: f64, width: f64, t: f64, fillet: f64, edge: f64) -> Vec<Corner> {
    let (d, b) = (depth / 2.0, width / 2.0);
    vec![
        (-b, -d, 0.0),
        (b, -d, 0.0),
        (b, -d + t, edge),
        (-b + t, -d + t, fillet),
        (-b + t, d, edge),
        (-b, d, 0.0),
    ]
}

fn t_shape(depth: f64, width: f64, web: f64, flange: f64, fillet: f64) -> Vec<Corner> {
    let (d, b, t, g) = (depth / 2.0, width / 2.0, web / 2.0, flange);
    vec![
        (-t, -d, 0.0),
        (t, -d, 0.0),
        (t, d - g, fillet),
        (b, d - g, 0.0),
        (b, d, 0.0),
        (-b, d, 0.0),
        (-b, d - g, 0.0),
        (-t, d - g, fillet),
    ]
}

fn u_shape(depth: f64, width: f64, web: f64, flange: f64, fillet: f64, edge: f64) -> Vec<Corner> {
    let (d, b, t, g) = (depth / 2.0, width / 2.0, web, flange);
    vec![
        (-b, -d, 0.0),
        (b, -d, 0.0),
        (b, -d + g, edge),
        (-b + t, -d + g, fillet),
        (-b + t, d - g, fillet),
        (b, d - g, edge),
        (b, d, 0.0),
        (-b, d, 0.0),
    ]
}

fn c_shape(depth: f64, width: f64, t: f64, girth: f64, inner: f64) -> Vec<Corner> {
    let (d, b, g) = (depth / 2.0, width / 2.0, girth);
    let outer = if inner > 0.0 { inner + t } else { 0.0 };
    vec![
        (-b, -d, outer),
        (b, -d, outer),
        (b, -d + g, 0.0),
        (b - t, -d + g, 0.0),
        (b - t, -d + t, inner),
        (-b + t, -d + t, inner),
        (-b + t, d - t, inner),
        (b - t, d - t, inner),
        (b - t, d - g, 0.0),
        (b, d - g, 0.0),
        (b, d, outer),
        (-b, d, outer),
    ]
}

fn z_shape(depth: f64, width: f64, web: f64, flange: f64, fillet: f64, edge: f64) -> Vec<Corner> {
    let (d, t, g) = (depth / 2.0, web / 2.0, flange);
    let b = width - t;
    vec![
        (-t, -d, 0.0),
        (b, -d, 0.0),
        (b, -d + g, edge),
        (t, -d + g, fillet),
        (t, d, 0.0),
        (-b, d, 0.0),
        (-b, d - g, edge),
        (-t, d - g, fillet),
    ]
}

fn trapezium(bottom: f64, top: f64, height: f64, offset: f64) -> Vec<Corner> {
    let (b, y) = (bottom / 2.0, height / 2.0);
    vec![
        (-b, -y, 0.0),
        (b, -y, 0.0),
        (-b + offset + top, y, 0.0),
        (-b + offset, y, 0.0),
    ]
}
