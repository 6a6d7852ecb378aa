//! Points, directions, frames and boxes. Lengths are millimetres, in doubles.

use std::ops::{Add, Mul, Neg, Sub};

/// A point or direction of a plane.
#[derive(Clone, Copy, Debug, PartialEq)]
pub struct Point2 {
    pub x: f64,
    pub y: f64,
}

impl Point2 {
    pub fn new(x: f64, y: f64) -> Self {
        Point2 { x, y }
    }

    pub fn distance(self, other: Point2) -> f64 {
        let (dx, dy) = (self.x - other.x, self.y - other.y);
        (dx * dx + dy * dy).sqrt()
    }
}

/// A point or direction of space.
#[derive(Clone, Copy, Debug, PartialEq)]
pub struct Point3 {
    pub x: f64,
    pub y: f64,
    pub z: f64,
}

/// A flat polygon, its corners counter-clockwise seen from outside.
pub type Polygon = Vec<Point3>;
/// The surface of a solid, or of several.
pub type Surface = Vec<Polygon>;

impl Point3 {
    pub const ZERO: Point3 = Point3::new(0.0, 0.0, 0.0);
    pub const X: Point3 = Point3::new(1.0, 0.0, 0.0);
    pub const Y: Point3 = Point3::new(0.0, 1.0, 0.0);
    pub const Z: Point3 = Point3::new(0.0, 0.0, 1.0);

    pub const fn new(x: f64, y: f64, z: f64) -> Self {
        Point3 { x, y, z }
    }

    pub fn dot(self, other: Point3) -> f64 {
        self.x * other.x + self.y * other.y + self.z * other.z
    }

    pub fn cross(self, other: Point3) -> Point3 {
        Point3::new(
            self.y * other.z - self.z * other.y,
            self.z * other.x - self.x * other.z,
            self.x * other.y - self.y * other.x,
        )
    }

    pub fn length(self) -> f64 {
        self.dot(self).sqrt()
    }

    pub fn distance(self, other: Point3) -> f64 {
        (self - other).length()
    }

    /// The direction of length one; z where this has no length.
    pub fn unit(self) -> Point3 {
        let length = self.length();
        if length > 0.0 && length.is_finite() {
            self * (1.0 / length)
        } else {
            Point3::Z
        }
    }

    /// Some direction of length one across this one, which has length one.
    pub fn across(self) -> Point3 {
        let other = if self.x.abs() < 0.6 {
            Point3::X
        } else {
            Point3::Y
        };
        other.cross(self).unit()
    }

    /// The point a part of the way to another one.
    pub fn towards(self, other: Point3, part: f64) -> Point3 {
        self + (other - self) * part
    }

    pub fn is_finite(self) -> bool {
        self.x.is_finite() && self.y.is_finite() && self.z.is_finite()
    }
}

impl Add for Point3 {
    type Output = Point3;
    fn add(self, other: Point3) -> Point3 {
        Point3::new(self.x + other.x, self.y + other.y, self.z + other.z)
    }
}

impl Sub for Point3 {
    type Output = Point3;
    fn sub(self, other: Point3) -> Point3 {
        Point3::new(self.x - other.x, self.y - other.y, self.z - other.z)
    }
}

impl Mul<f64> for Point3 {
    type Output = Point3;
    fn mul(self, factor: f64) -> Point3 {
        Point3::new(self.x * factor, self.y * factor, self.z * factor)
    }
}

impl Neg for Point3 {
    type Output = Point3;
    fn neg(self) -> Point3 {
        self * -1.0
    }
}

/// An affine frame: three axes, which need not have length one, and an origin.
#[derive(Clone, Copy, Debug, PartialEq)]
pub struct Frame {
    pub x: Point3,
    pub y: Point3,
    pub z: Point3,
    pub origin: Point3,
}

impl Frame {
    pub const IDENTITY: Frame = Frame {
        x: Point3::X,
        y: Point3::Y,
        z: Point3::Z,
        origin: Point3::ZERO,
    };

    /// The right-handed frame of an axis and, if there is one, a direction near its x.
    pub fn of_axes(origin: Point3, z: Point3, x: Option<Point3>) -> Frame {
        let z = z.unit();
        let wanted = match x {
            Some(x) => x,
            None if z.x.abs() > 0.999_999_9 && z.y.abs() < 1e-9 => Point3::Y,
            None => Point3::X,
        };
        let mut x = wanted - z * wanted.dot(z);
        if x.length() < 1e-12 {
            let other = if z.x.abs() < 0.9 {
                Point3::X
            } else {
                Point3::Y
            };
            x = other - z * other.dot(z);
        }
        let x = x.unit();
        Frame {
            x,
            y: z.cross(x),
            z,
            origin,
        }
    }

    pub fn moved(offset: Point3) -> Frame {
        Frame {
            origin: offset,
            ..Frame::IDENTITY
        }
    }

    pub fn direction(&self, p: Point3) -> Point3 {
        self.x * p.x + self.y * p.y + self.z * p.z
    }

    pub fn point(&self, p: Point3) -> Point3 {
        self.direction(p) + self.origin
    }

    /// Where a point of the frame's own x and y lies.
    pub fn flat(&self, p: Point2) -> Point3 {
        self.x * p.x + self.y * p.y + self.origin
    }

    /// A point of space by the coordinates of this frame, whose axes stand at right angles and have length one.
    pub fn local(&self, p: Point3) -> Point3 {
        let d = p - self.origin;
        Point3::new(d.dot(self.x), d.dot(self.y), d.dot(self.z))
    }

    /// This frame with another one within it.
    pub fn then(&self, inner: &Frame) -> Frame {
        Frame {
            x: self.direction(inner.x),
            y: self.direction(inner.y),
            z: self.direction(inner.z),
            origin: self.point(inner.origin),
        }
    }

    /// Whether each axis lies along one of space's own, with length one.
    pub fn is_by_quarter_turns(&self) -> bool {
        [self.x, self.y, self.z].iter().all(|axis| {
            let sizes = [axis.x.abs(), axis.y.abs(), axis.z.abs()];
            let near = |size: f64, to: f64| (size - to).abs() < 1e-9;
            sizes.iter().filter(|&&size| near(size, 1.0)).count() == 1
                && sizes.iter().filter(|&&size| near(size, 0.0)).count() == 2
        })
    }

    pub fn determinant(&self) -> f64 {
        self.x.dot(self.y.cross(self.z))
    }

    /// A surface placed by this frame; where it mirrors, the polygons are turned so that outside stays outside.
    pub fn place(&self, surface: &[Polygon]) -> Surface {
        let mirrors = self.determinant() < 0.0;
        surface
            .iter()
            .map(|polygon| {
                let mut placed: Polygon = polygon.iter().map(|&p| self.point(p)).collect();
                if mirrors {
                    placed.reverse();
                }
                placed
            })
            .collect()
    }
}

/// The smallest box along the axes around points.
#[derive(Clone, Copy, Debug)]
pub struct Bounds {
    pub low: Point3,
    pub high: Point3,
}

impl Bounds {
    pub const EMPTY: Bounds = Bounds {
        low: Point3::new(1e300, 1e300, 1e300),
        high: Point3::new(-1e300, -1e300, -1e300),
    };

    pub fn add(&mut self, p: Point3) {
        self.low.x = self.low.x.min(p.x);
        self.low.y = self.low.y.min(p.y);
        self.low.z = self.low.z.min(p.z);
        self.high.x = self.high.x.max(p.x);
        self.high.y = self.high.y.max(p.y);
        self.high.z = self.high.z.max(p.z);
    }

    pub fn of_polygon(polygon: &[Point3]) -> Bounds {
        let mut bounds = Bounds::EMPTY;
        polygon.iter().for_each(|&p| bounds.add(p));
        bounds
    }

    pub fn of_surface(surface: &[Polygon]) -> Bounds {
        let mut bounds = Bounds::EMPTY;
        surface.iter().flatten().for_each(|&p| bounds.add(p));
        bounds
    }

    pub fn meets(&self, other: &Bounds, gap: f64) -> bool {
        self.low.x <= other.high.x + gap
            && other.low.x <= self.high.x + gap
            && self.low.y <= other.high.y + gap
            && other.low.y <= self.high.y + gap
            && self.low.z <= other.high.z + gap
            && other.low.z <= self.high.z + gap
    }

    pub fn middle(&self) -> Point3 {
        (self.low + self.high) * 0.5
    }

    pub fn diagonal(&self) -> f64 {
        (self.high - self.low).length()
    }
}

/// Whether a length is one: above zero and finite.
pub fn is_positive(length: f64) -> bool {
    length > 0.0 && length.is_finite()
}

/// Twice the area of a polygon as a vector across it.
pub fn area_vector(polygon: &[Point3]) -> Point3 {
    let mut sum = Point3::ZERO;
    for k in 2..polygon.len() {
        let first = polygon[0];
        sum = sum + (polygon[k - 1] - first).cross(polygon[k] - first);
    }
    sum
}

/// The volume that a surface encloses; negative where it is turned inside out.
pub fn volume(surface: &[Polygon]) -> f64 {
    let start = match surface.iter().find_map(|polygon| polygon.first()) {
        Some(&p) => p,
        None => return 0.0,
    };
    let mut six = 0.0;
    for polygon in surface {
        if polygon.len() > 2 {
            six += (polygon[0] - start).dot(area_vector(polygon));
        }
    }
    six / 6.0
}

/// Turns a surface inside out.
pub fn turn_over(surface: &mut [Polygon]) {
    surface.iter_mut().for_each(|polygon| polygon.reverse());
}

#[cfg(test)]
mod tests {
    use super::*;

    #[test]
    fn a_frame_gives_back_its_own_coordinates() {
        let frame = Frame::of_axes(
            Point3::new(5.0, -3.0, 2.0),
            Point3::new(1.0, 2.0, 3.0),
            Some(Point3::new(0.0, 1.0, 0.0)),
        );
        let p = Point3::new(1.5, -2.5, 4.0);
        assert!(frame.local(frame.point(p)).distance(p) < 1e-12);
        assert!((frame.determinant() - 1.0).abs() < 1e-12);
    }

    #[test]
    fn the_volume_of_a_corner_is_a_sixth() {
        let (o, x, y, z) = (Point3::ZERO, Point3::X, Point3::Y, Point3::Z);
        let surface = vec![vec![o, y, x], vec![o, x, z], vec![o, z, y], vec![x, y, z]];
        assert!((volume(&surface) - 1.0 / 6.0).abs() < 1e-12);
        let mirror = Frame {
            x: -Point3::X,
            ..Frame::IDENTITY
        };
        assert!((volume(&mirror.place(&surface)) - 1.0 / 6.0).abs() < 1e-12);
    }
}
