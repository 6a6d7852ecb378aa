//! Rounding to the grid: corners become whole numbers, and triangles that shrink or repeat are left out.

use crate::fault::{fail, Result};
use crate::vector::{Bounds, Frame, Point3, Polygon};
use std::collections::{HashMap, HashSet};
use std::hash::{BuildHasherDefault, Hasher};

/// The farthest coordinate that the server takes, in millimetres.
const FARTHEST: f64 = 800_000.0;
/// How near below a half a number still counts as a half, in grid units: so that where the file says a half, the noise
/// of computing doesn't decide to which side it goes.
const NOISE: f64 = 1e-6;
/// Grid numbers of a millimetre in the server.
const SERVER: f64 = 10.0;

/// A quick hash of a few whole numbers.
#[derive(Default)]
pub struct Mix(u64);

impl Hasher for Mix {
    fn finish(&self) -> u64 {
        self.0
    }

    fn write(&mut self, bytes: &[u8]) {
        bytes
            .iter()
            .for_each(|&byte| self.write_u64(u64::from(byte)));
    }

    fn write_i32(&mut self, number: i32) {
        self.write_u64(u64::from(number as u32));
    }

    fn write_u32(&mut self, number: u32) {
        self.write_u64(u64::from(number));
    }

    fn write_u64(&mut self, number: u64) {
        self.0 = (self.0.rotate_left(5) ^ number).wrapping_mul(0x9E37_79B9_7F4A_7C15);
        self.0 ^= self.0 >> 29;
    }

    fn write_usize(&mut self, number: usize) {
        self.write_u64(number as u64);
    }
}

type Mixed = BuildHasherDefault<Mix>;

/// A point in grid numbers.
pub type GridPoint = (i32, i32, i32);

/// An element on the grid.
#[derive(Default)]
pub struct Gridded {
    pub points: Vec<GridPoint>,
    /// Places of points, from 0.
    pub triangles: Vec<[u32; 3]>,
    pub counts: Counts,
}

/// What happened on the way to the grid.
#[derive(Clone, Copy, Default)]
pub struct Counts {
    /// The greatest way of a corner in millimetres, the sum of all, and how many there are.
    pub farthest: f64,
    pub way: f64,
    /// How far a corner lies off the server's grid at most, in millimetres.
    pub off_server: f64,
    pub corners: u64,
    pub shrunk: u64,
    pub repeated: u64,
    pub flat_left_out: u64,
    pub flat_kept: u64,
    /// Elements whose surface is closed, and those whose isn't.
    pub closed: u64,
    pub open: u64,
    /// Elements thinner than the grid, of which segments are left.
    pub thin: u64,
}

impl Counts {
    pub fn add(&mut self, other: &Counts) {
        self.farthest = self.farthest.max(other.farthest);
        self.off_server = self.off_server.max(other.off_server);
        self.way += other.way;
        self.corners += other.corners;
        self.shrunk += other.shrunk;
        self.repeated += other.repeated;
        self.flat_left_out += other.flat_left_out;
        self.flat_kept += other.flat_kept;
        self.closed += other.closed;
        self.open += other.open;
        self.thin += other.thin;
    }
}

/// The nearest point of a grid, in grid numbers, and how far it is in millimetres.
fn nearest(p: Point3, per: f64) -> (Point3, f64) {
    let round = |value: f64| (value * per + 0.5 + NOISE).floor();
    let (x, y, z) = (round(p.x), round(p.y), round(p.z));
    let way = Point3::new(x / per, y / per, z / per).distance(p);
    (Point3::new(x, y, z), way)
}

/// Rounds one element's surface.
struct Rounder {
    per_millimetre: f64,
    places: HashMap<GridPoint, u32, Mixed>,
    out: Gridded,
}

impl Rounder {
    fn place(&mut self, p: Point3) -> u32 {
        let (near, way) = nearest(p, self.per_millimetre);
        let off_server = if self.per_millimetre == SERVER {
            way
        } else {
            nearest(p, SERVER).1
        };
        let counts = &mut self.out.counts;
        counts.farthest = counts.farthest.max(way);
        counts.off_server = counts.off_server.max(off_server);
        counts.way += way;
        counts.corners += 1;
        let point = (near.x as i32, near.y as i32, near.z as i32);
        let next = self.out.points.len() as u32;
        let place = *self.places.entry(point).or_insert(next);
        if place == next {
            self.out.points.push(point);
        }
        place
    }

    fn is_flat(&self, triangle: &[u32; 3]) -> bool {
        let [a, b, c] = triangle.map(|place| self.out.points[place as usize]);
        let way = |p: GridPoint, q: GridPoint| {
            let (x, y, z) = (q.0 - p.0, q.1 - p.1, q.2 - p.2);
            [i128::from(x), i128::from(y), i128::from(z)]
        };
        let (u, v) = (way(a, b), way(a, c));
        u[1] * v[2] == u[2] * v[1] && u[2] * v[0] == u[0] * v[2] && u[0] * v[1] == u[1] * v[0]
    }

    fn longest_edge(&self, triangle: &[u32; 3]) -> (u32, u32) {
        let mut best = (-1_i64, (0, 0));
        for k in 0..3 {
            let (from, to) = (triangle[k], triangle[(k + 1) % 3]);
            let (p, q) = (self.out.points[from as usize], self.out.points[to as usize]);
            let square = |a: i32, b: i32| i64::from(a - b) * i64::from(a - b);
            let length = square(p.0, q.0) + square(p.1, q.1) + square(p.2, q.2);
            if length > best.0 {
                best = (length, (from.min(to), from.max(to)));
            }
        }
        best.1
    }
}

/// The directed edges of triangles: sorted, with how many more go up than down.
fn edges_of(triangles: &[[u32; 3]]) -> Vec<((u32, u32), i32)> {
    let mut edges = Vec::with_capacity(triangles.len() * 3);
    for triangle in triangles {
        for k in 0..3 {
            let (from, to) = (triangle[k], triangle[(k + 1) % 3]);
            let way = if from < to { 1 } else { -1 };
            edges.push(((from.min(to), from.max(to)), way));
        }
    }
    edges.sort_unstable();
    let mut summed: Vec<((u32, u32), i32)> = Vec::with_capacity(edges.len() / 2);
    for (edge, way) in edges {
        match summed.last_mut() {
            Some(last) if last.0 == edge => last.1 += way,
            _ => summed.push((edge, way)),
        }
    }
    summed
}

/// Brings a surface to the grid by the frame of the shared origin. Fails where it has no numbers or is too far.
pub fn to_grid(surface: &[Polygon], frame: &Frame, per_millimetre: f64) -> Result<Gridded> {
    let mut rounder = Rounder {
        per_millimetre,
        places: HashMap::default(),
        out: Gridded::default(),
    };
    let mut triangles: Vec<[u32; 3]> = Vec::with_capacity(surface.len() * 2);
    let (mut flat, mut shrunk) = (Vec::new(), Vec::new());
    let mut seen: HashSet<(u32, u32, u32), Mixed> = HashSet::default();
    let same = *frame == Frame::IDENTITY;
    let mut places = Vec::new();
    for polygon in surface {
        places.clear();
        for &corner in polygon {
            let point = if same { corner } else { frame.point(corner) };
            check(point)?;
            places.push(rounder.place(point));
        }
        for k in 2..places.len() {
            let triangle = [places[0], places[k - 1], places[k]];
            let [a, b, c] = triangle;
            if a == b || b == c || a == c {
                rounder.out.counts.shrunk += 1;
                shrunk.push(triangle);
                continue;
            }
            let mut key = triangle;
            key.sort_unstable();
            if !seen.insert((key[0], key[1], key[2])) {
                rounder.out.counts.repeated += 1;
            } else if rounder.is_flat(&triangle) {
                flat.push(triangle);
            } else {
                triangles.push(triangle);
            }
        }
    }
    keep_flat(&mut rounder, &mut triangles, flat);
    if triangles.is_empty() {
        rounder.out.counts.thin = 1;
        triangles = shrunk;
    }
    rounder.out.triangles = triangles;
    Ok(with_used_points(rounder.out))
}

fn check(p: Point3) -> Result<()> {
    if !p.is_finite() {
        return fail("its shape has coordinates that are no numbers");
    }
    if p.x.abs().max(p.y.abs()).max(p.z.abs()) > FARTHEST - 1.0 {
        return fail(
            "it lies more than 800 m from the origin: give the project's origin by --origin-file",
        );
    }
    Ok(())
}

/// Counts whether the surface is closed, and keeps flat triangles whose long edge no other one has.
fn keep_flat(rounder: &mut Rounder, triangles: &mut Vec<[u32; 3]>, flat: Vec<[u32; 3]>) {
    let edges = edges_of(triangles);
    if edges.iter().all(|edge| edge.1 == 0) {
        rounder.out.counts.closed = 1;
    } else {
        rounder.out.counts.open = 1;
    }
    for triangle in flat {
        let long = rounder.longest_edge(&triangle);
        if edges.binary_search_by_key(&long, |edge| edge.0).is_ok() {
            rounder.out.counts.flat_left_out += 1;
        } else {
            rounder.out.counts.flat_kept += 1;
            triangles.push(triangle);
        }
    }
}

/// Leaves out the points that no triangle has any more.
fn with_used_points(mut gridded: Gridded) -> Gridded {
    let mut new_place = vec![u32::MAX; gridded.points.len()];
    let mut used = Vec::with_capacity(gridded.points.len());
    for place in gridded.triangles.iter_mut().flatten() {
        let new = &mut new_place[*place as usize];
        if *new == u32::MAX {
            *new = used.len() as u32;
            used.push(gridded.points[*place as usize]);
        }
        *place = *new;
    }
    gridded.points = used;
    gridded
}

impl Gridded {
    /// The box in grid numbers: low and high.
    pub fn bounds(&self) -> (GridPoint, GridPoint) {
        let mut low = (i32::MAX, i32::MAX, i32::MAX);
        let mut high = (i32::MIN, i32::MIN, i32::MIN);
        for p in &self.points {
            low = (low.0.min(p.0), low.1.min(p.1), low.2.min(p.2));
            high = (high.0.max(p.0), high.1.max(p.1), high.2.max(p.2));
        }
        (low, high)
    }

    /// In how many of the server's cells the element is a member: cells of 4 m that its box, grown by 1 m, reaches.
    pub fn memberships(&self, per_millimetre: i32) -> u64 {
        if self.points.is_empty() {
            return 0;
        }
        let (low, high) = self.bounds();
        let (side, margin) = (4000 * per_millimetre, 1000 * per_millimetre);
        let cells = |low: i32, high: i32| {
            let (first, last) = (
                (low - margin).div_euclid(side),
                (high + margin).div_euclid(side),
            );
            (last - first + 1) as u64
        };
        cells(low.0, high.0) * cells(low.1, high.1) * cells(low.2, high.2)
    }

    /// The box in millimetres.
    pub fn millimetres(&self, per_millimetre: f64) -> Bounds {
        let (low, high) = self.bounds();
        let point = |p: GridPoint| {
            Point3::new(f64::from(p.0), f64::from(p.1), f64::from(p.2)) * (1.0 / per_millimetre)
        };
        Bounds {
            low: point(low),
            high: point(high),
        }
    }
}

#[cfg(test)]
mod tests {
    use super::*;

    fn grid_of(surface: &[Polygon]) -> Gridded {
        to_grid(surface, &Frame::IDENTITY, 1.0).unwrap()
    }

    #[test]
    fn halves_go_up_whatever_the_noise() {
        let p = |x: f64| {
            vec![
                Point3::new(x, 0.0, 0.0),
                Point3::new(x, 9.0, 0.0),
                Point3::new(x, 0.0, 9.0),
            ]
        };
        for x in [12.5, 12.499_999_999_9, 12.500_000_000_1] {
            assert_eq!(grid_of(&[p(x)]).points[0].0, 13);
        }
        assert_eq!(grid_of(&[p(-12.5)]).points[0].0, -12);
        assert_eq!(grid_of(&[p(12.49)]).points[0].0, 12);
    }

    #[test]
    fn tenths_are_rounded_as_millimetres_are() {
        // A quarter of an inch is 6.35 mm; as the 48th part of a foot it has the noise of computing.
        for x in [6.35, 1.0 / 48.0 * 304.8, 0.25 * 25.4] {
            let corner = |x: f64, y: f64| Point3::new(x, y, -x);
            let triangle = vec![corner(x, 0.0), corner(x, 9.0), corner(9.0, 9.04)];
            let gridded = to_grid(&[triangle], &Frame::IDENTITY, 10.0).unwrap();
            assert_eq!(gridded.points, [(64, 0, -63), (64, 90, -63), (90, 90, -90)]);
            let farthest = gridded.counts.farthest;
            assert!((farthest - 0.005_f64.sqrt()).abs() < 1e-9, "{farthest}");
        }
        let far = |x: f64| to_grid(&[vec![Point3::new(x, 0.0, 0.0)]], &Frame::IDENTITY, 10.0);
        assert_eq!(far(-799_998.96).unwrap().counts.corners, 1);
        assert!(far(799_999.1).is_err());
    }

    #[test]
    fn what_shrinks_or_repeats_is_left_out() {
        let (a, b, c) = (
            Point3::ZERO,
            Point3::new(10.0, 0.0, 0.0),
            Point3::new(0.0, 10.0, 0.0),
        );
        let near = Point3::new(0.1, 0.1, 0.0);
        let gridded = grid_of(&[vec![a, b, c], vec![b, c, a], vec![a, near, b]]);
        assert_eq!(gridded.triangles.len(), 1);
        assert_eq!(gridded.counts.repeated, 1);
        assert_eq!(gridded.counts.shrunk, 1);
        let thin = grid_of(&[vec![a, near, b]]);
        assert_eq!(thin.counts.thin, 1);
        assert_eq!(thin.triangles, vec![[0, 0, 1]]);
    }

    #[test]
    fn memberships_of_a_box() {
        let gridded = Gridded {
            points: vec![(1000, 1000, 1000), (2999, 2999, 2999)],
            ..Gridded::default()
        };
        assert_eq!(gridded.memberships(1), 1);
        let wider = Gridded {
            points: vec![(999, 1000, 1000), (3000, 2999, 2999)],
            ..Gridded::default()
        };
        assert_eq!(wider.memberships(1), 3);
        assert!(to_grid(&[vec![Point3::new(9e5, 0.0, 0.0)]], &Frame::IDENTITY, 1.0).is_err());
    }
}
