//! Flat polygons with holes, cut into triangles.

use crate::fault::{fail, Result};
use crate::vector::{area_vector, Point2, Point3, Polygon, Surface};

/// The most corners of a polygon with its holes: cutting takes the square of them.
const MOST_CORNERS: usize = 20_000;

/// Twice the area of a triangle, positive where it turns left.
pub fn turn(a: Point2, b: Point2, c: Point2) -> f64 {
    (b.x - a.x) * (c.y - a.y) - (b.y - a.y) * (c.x - a.x)
}

/// The area of a ring, positive where it runs counter-clockwise.
pub fn ring_area(ring: &[Point2]) -> f64 {
    let mut twice = 0.0;
    for k in 2..ring.len() {
        twice += turn(ring[0], ring[k - 1], ring[k]);
    }
    twice / 2.0
}

/// Triangles of a polygon, by the places of its corners.
pub struct Triangles {
    /// Places in the outer ring and the holes, one after the other.
    pub places: Vec<[usize; 3]>,
    /// False where the polygon crosses itself, so that a corner had to be cut that isn't free.
    pub fine: bool,
}

/// Cuts a polygon into triangles: the first ring is the outer one, the others are holes. Either may run either way.
pub fn triangulate(rings: &[Vec<Point2>]) -> Result<Triangles> {
    let points: Vec<Point2> = rings.iter().flatten().copied().collect();
    if points.len() > MOST_CORNERS {
        return fail(format!("a face or profile with {} corners", points.len()));
    }
    let mut loops = directed_loops(rings);
    if loops.is_empty() {
        return fail("a face or profile without three corners");
    }
    let mut outline = loops.remove(0);
    let rightmost = |ring: &Vec<usize>| {
        let along = ring.iter().map(|&place| points[place].x);
        along.fold(f64::NEG_INFINITY, f64::max)
    };
    loops.sort_by(|a, b| rightmost(b).total_cmp(&rightmost(a)));
    let mut fine = true;
    for hole in &loops {
        match bridged(&points, &outline, hole) {
            Some(joined) => outline = joined,
            None => fine = false,
        }
    }
    let mut cutter = Cutter::new(&points, &outline);
    cutter.cut();
    Ok(Triangles {
        fine: fine && cutter.fine,
        places: cutter.triangles,
    })
}

/// The rings as places, the outer one counter-clockwise and the holes clockwise; rings of fewer than three are left out.
fn directed_loops(rings: &[Vec<Point2>]) -> Vec<Vec<usize>> {
    let mut loops = Vec::new();
    let mut first = 0;
    for ring in rings {
        let mut places: Vec<usize> = (first..first + ring.len()).collect();
        first += ring.len();
        if ring.len() < 3 {
            continue;
        }
        if (ring_area(ring) < 0.0) == loops.is_empty() {
            places.reverse();
        }
        loops.push(places);
    }
    loops
}

/// The outline with a hole joined to it by a bridge from the hole's rightmost corner; none if the hole isn't inside.
fn bridged(points: &[Point2], outline: &[usize], hole: &[usize]) -> Option<Vec<usize>> {
    let mut start = 0;
    for (k, &place) in hole.iter().enumerate() {
        if points[place].x > points[hole[start]].x {
            start = k;
        }
    }
    let from = points[hole[start]];
    let (edge_end, hit) = nearest_on_the_right(points, outline, from)?;
    let pick = corner_in_sight(points, outline, from, edge_end, hit);
    let mut joined = Vec::with_capacity(outline.len() + hole.len() + 2);
    joined.extend_from_slice(&outline[..=pick]);
    joined.extend((0..=hole.len()).map(|k| hole[(start + k) % hole.len()]));
    joined.extend_from_slice(&outline[pick..]);
    Some(joined)
}

/// The outline's edge that a ray to the right meets first: its end farther right, and the point met.
fn nearest_on_the_right(
    points: &[Point2],
    outline: &[usize],
    from: Point2,
) -> Option<(usize, Point2)> {
    let mut nearest = f64::INFINITY;
    let mut found = None;
    for k in 0..outline.len() {
        let next = (k + 1) % outline.len();
        let (a, b) = (points[outline[k]], points[outline[next]]);
        if from.y < a.y.min(b.y) || from.y > a.y.max(b.y) {
            continue;
        }
        let x = if (b.y - a.y).abs() < 1e-12 {
            a.x.max(b.x)
        } else {
            a.x + (from.y - a.y) / (b.y - a.y) * (b.x - a.x)
        };
        if x >= from.x - 1e-9 && x - from.x < nearest {
            nearest = x - from.x;
            found = Some((if a.x > b.x { k } else { next }, Point2::new(x, from.y)));
        }
    }
    found
}

/// The corner to bridge to: of those within the triangle of start, hit and edge's end the one at the least angle.
fn corner_in_sight(
    points: &[Point2],
    outline: &[usize],
    from: Point2,
    edge_end: usize,
    hit: Point2,
) -> usize {
    let end = points[outline[edge_end]];
    if hit.distance(end) < 1e-9 {
        return facing(points, outline, from, edge_end);
    }
    let mut pick = edge_end;
    let mut least = (f64::INFINITY, 0.0);
    for (k, &place) in outline.iter().enumerate() {
        let corner = points[place];
        if k == edge_end || corner == end || corner.x < from.x {
            continue;
        }
        let sides = [
            turn(from, hit, corner),
            turn(hit, end, corner),
            turn(end, from, corner),
        ];
        if sides.iter().all(|&side| side >= 0.0) || sides.iter().all(|&side| side <= 0.0) {
            let slope = (corner.y - from.y).abs() / (corner.x - from.x).max(1e-12);
            let near = corner.distance(from);
            if slope < least.0 || (slope == least.0 && near < least.1) {
                least = (slope, near);
                pick = k;
            }
        }
    }
    facing(points, outline, from, pick)
}

/// Of the places of an outline at one corner (bridges meet there) the one whose inside faces a point.
fn facing(points: &[Point2], outline: &[usize], from: Point2, pick: usize) -> usize {
    let corner = points[outline[pick]];
    let count = outline.len();
    let faces = |k: &usize| {
        let before = points[outline[(*k + count - 1) % count]];
        let behind = points[outline[(*k + 1) % count]];
        let in_front = [
            turn(before, corner, from) > 0.0,
            turn(corner, behind, from) > 0.0,
        ];
        if turn(before, corner, behind) > 0.0 {
            in_front[0] && in_front[1]
        } else {
            in_front[0] || in_front[1]
        }
    };
    let alike = (0..count).filter(|&k| points[outline[k]] == corner);
    let mut alike = alike.filter(faces);
    alike.next().unwrap_or(pick)
}

/// Cuts ears off an outline.
struct Cutter<'p> {
    /// The outline's corners, and before and behind each the next one that is still there.
    corners: Vec<Point2>,
    places: &'p [usize],
    before: Vec<usize>,
    behind: Vec<usize>,
    left: usize,
    /// What counts as no area.
    flat: f64,
    triangles: Vec<[usize; 3]>,
    fine: bool,
}

impl<'p> Cutter<'p> {
    fn new(points: &[Point2], places: &'p [usize]) -> Self {
        let corners: Vec<Point2> = places.iter().map(|&place| points[place]).collect();
        let count = corners.len();
        let start = corners[0];
        let reach = corners.iter().fold(0.0_f64, |reach, corner| {
            reach
                .max((corner.x - start.x).abs())
                .max((corner.y - start.y).abs())
        });
        Cutter {
            corners,
            places,
            before: (0..count).map(|k| (k + count - 1) % count).collect(),
            behind: (0..count).map(|k| (k + 1) % count).collect(),
            left: count,
            flat: reach * reach * 1e-14,
            triangles: Vec::with_capacity(count),
            fine: true,
        }
    }

    fn cut(&mut self) {
        let mut at = 0;
        let mut tried = 0;
        while self.left > 3 {
            // Where no corner is free, one that others touch, or a flat one, is taken.
            let strict = tried < self.left;
            if self.is_free(at, strict) {
                at = self.remove(at);
                tried = 0;
            } else if tried > 2 * self.left {
                let widest = self.widest(at);
                at = self.remove(widest);
                tried = 0;
            } else {
                at = self.behind[at];
                tried += 1;
            }
        }
        self.push(at);
    }

    /// Where all triangles turn left they cover the polygon once, and nothing else.
    fn push(&mut self, at: usize) {
        self.fine &= self.turn_at(at) >= -self.flat;
        let (before, behind) = (self.before[at], self.behind[at]);
        self.triangles
            .push([self.places[before], self.places[at], self.places[behind]]);
    }

    /// Cuts a corner off; gives the corner two further on.
    fn remove(&mut self, at: usize) -> usize {
        self.push(at);
        let (before, behind) = (self.before[at], self.behind[at]);
        self.behind[before] = behind;
        self.before[behind] = before;
        self.left -= 1;
        self.behind[behind]
    }

    fn turn_at(&self, at: usize) -> f64 {
        turn(
            self.corners[self.before[at]],
            self.corners[at],
            self.corners[self.behind[at]],
        )
    }

    /// Whether no other corner lies in the triangle at this one: strictly, none on its edges either; else also where
    /// the triangle has no area.
    fn is_free(&self, at: usize, strict: bool) -> bool {
        let area = self.turn_at(at);
        if area <= self.flat {
            return !strict && area >= -self.flat;
        }
        let (a, b, c) = (
            self.corners[self.before[at]],
            self.corners[at],
            self.corners[self.behind[at]],
        );
        let (low_x, high_x) = (a.x.min(b.x).min(c.x), a.x.max(b.x).max(c.x));
        let (low_y, high_y) = (a.y.min(b.y).min(c.y), a.y.max(b.y).max(c.y));
        let mut other = self.behind[self.behind[at]];
        while other != self.before[at] {
            let p = self.corners[other];
            other = self.behind[other];
            if p.x < low_x || p.x > high_x || p.y < low_y || p.y > high_y {
                continue;
            }
            if p == a || p == b || p == c {
                continue;
            }
            let least = turn(a, b, p).min(turn(b, c, p)).min(turn(c, a, p));
            if (strict && least >= -self.flat) || least > self.flat {
                return false;
            }
        }
        true
    }

    /// The corner that turns left most.
    fn widest(&self, from: usize) -> usize {
        let (mut best, mut at) = (from, from);
        for _ in 0..self.left {
            at = self.behind[at];
            if self.turn_at(at) > self.turn_at(best) {
                best = at;
            }
        }
        best
    }
}

/// Cuts a flat face into triangles: rings in space, the first is the outer one. Says whether it was fine.
pub fn cut_face(rings: &[Polygon], out: &mut Surface) -> Result<bool> {
    let outer = match rings.first() {
        Some(outer) if outer.len() >= 3 => outer,
        _ => return Ok(false),
    };
    if rings.len() == 1 && outer.len() == 3 {
        out.push(outer.clone());
        return Ok(true);
    }
    let across = area_vector(outer);
    if across.length() <= 0.0 || !across.is_finite() {
        return Ok(false);
    }
    let normal = across.unit();
    let u = normal.across();
    let v = normal.cross(u);
    let start = outer[0];
    let flat = |ring: &Polygon| -> Vec<Point2> {
        ring.iter()
            .map(|&p| Point2::new((p - start).dot(u), (p - start).dot(v)))
            .collect()
    };
    let flats: Vec<Vec<Point2>> = rings.iter().map(flat).collect();
    let corners: Vec<Point3> = rings.iter().flatten().copied().collect();
    let triangles = triangulate(&flats)?;
    out.extend(
        triangles
            .places
            .iter()
            .map(|places| places.iter().map(|&place| corners[place]).collect()),
    );
    Ok(triangles.fine)
}

#[cfg(test)]
mod tests {
    use super::*;

    fn area_of(rings: &[Vec<Point2>]) -> (f64, bool) {
        let points: Vec<Point2> = rings.iter().flatten().copied().collect();
        let triangles = triangulate(rings).unwrap();
        let area = triangles
            .places
            .iter()
            .map(|t| turn(points[t[0]], points[t[1]], points[t[2]]).abs() / 2.0);
        (area.sum(), triangles.fine)
    }

    fn square(x: f64, y: f64, size: f64) -> Vec<Point2> {
        [(0.0, 0.0), (1.0, 0.0), (1.0, 1.0), (0.0, 1.0)]
            .iter()
            .map(|(a, b)| Point2::new(x + a * size, y + b * size))
            .collect()
    }

    #[test]
    fn a_square_with_four_holes() {
        let mut rings = vec![square(0.0, 0.0, 100.0)];
        for (x, y) in [(10.0, 10.0), (60.0, 10.0), (10.0, 60.0), (60.0, 60.0)] {
            rings.push(square(x, y, 20.0));
        }
        let (area, fine) = area_of(&rings);
        assert!(fine);
        assert!((area - (10_000.0 - 1_600.0)).abs() < 1e-9);
    }

    #[test]
    fn a_comb() {
        let mut ring = Vec::new();
        for k in 0..50 {
            let x = f64::from(k) * 2.0;
            ring.push(Point2::new(x, 0.0));
            ring.push(Point2::new(x + 1.0, 10.0));
        }
        ring.push(Point2::new(100.0, 0.0));
        ring.push(Point2::new(100.0, -5.0));
        ring.push(Point2::new(0.0, -5.0));
        let (area, fine) = area_of(&[ring]);
        assert!(fine);
        assert!((area - (500.0 + 500.0)).abs() < 1e-9);
    }

    #[test]
    fn a_bow_tie_is_cut_and_says_so() {
        let ring = vec![
            Point2::new(0.0, 0.0),
            Point2::new(10.0, 10.0),
            Point2::new(10.0, 0.0),
            Point2::new(0.0, 10.0),
        ];
        assert_eq!(triangulate(&[ring]).unwrap().places.len(), 2);
        assert!(triangulate(&[vec![Point2::new(0.0, 0.0)]]).is_err());
    }
}
