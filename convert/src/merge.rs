//! Joins the flat pieces that boolean operations leave: what lies on one plane becomes whole faces again.

use crate::booleans::Work;
use crate::polygons::{ring_area, triangulate, turn};
use crate::vector::{area_vector, Point2, Point3, Polygon, Surface};
use std::collections::{BTreeMap, HashMap};

/// Corners nearer than this are one, in millimetres.
const WELD: f64 = 2e-3;
/// How far a corner may lie from an edge that it divides, in millimetres.
const ON_EDGE: f64 = 2e-3;
/// Faces of more corners than this stay in pieces.
const MOST_CORNERS: usize = 3000;

/// A surface whose pieces on one plane are joined, wherever areas agree before and after.
pub fn merge(surface: Surface, work: &mut Work) -> Surface {
    let mut groups: BTreeMap<[i64; 4], Vec<Polygon>> = BTreeMap::new();
    let mut out = Surface::new();
    for polygon in surface {
        match plane_key(&polygon) {
            Some(key) => groups.entry(key).or_default().push(polygon),
            None => out.push(polygon),
        }
    }
    for pieces in groups.into_values() {
        match joined(&pieces, work) {
            Some(mut faces) if faces.len() <= triangles_of(&pieces) => out.append(&mut faces),
            _ => out.extend(pieces),
        }
    }
    out
}

fn triangles_of(pieces: &[Polygon]) -> usize {
    pieces
        .iter()
        .map(|piece| piece.len().saturating_sub(2))
        .sum()
}

/// The plane of a polygon by whole numbers, so that pieces of one plane have the same.
fn plane_key(polygon: &[Point3]) -> Option<[i64; 4]> {
    let across = area_vector(polygon);
    let length = across.length();
    if !(length > 1e-9 && length.is_finite()) {
        return None;
    }
    let normal = across * (1.0 / length);
    let offset = normal.dot(polygon[0]);
    let whole = |value: f64, steps: f64| (value * steps + 0.123).floor() as i64;
    Some([
        whole(normal.x, 1e4),
        whole(normal.y, 1e4),
        whole(normal.z, 1e4),
        whole(offset, 50.0),
    ])
}

/// The pieces of one plane as corners of that plane, welded.
struct Plate {
    corners: Vec<Point3>,
    flat: Vec<Point2>,
    rings: Vec<Vec<usize>>,
}

impl Plate {
    fn of(pieces: &[Polygon]) -> Plate {
        let normal = area_vector(&pieces[0]).unit();
        let u = normal.across();
        let v = normal.cross(u);
        let start = pieces[0][0];
        let mut plate = Plate {
            corners: Vec::new(),
            flat: Vec::new(),
            rings: Vec::new(),
        };
        let mut cells: HashMap<(i64, i64), Vec<usize>> = HashMap::new();
        for piece in pieces {
            let mut ring = Vec::with_capacity(piece.len());
            for &corner in piece {
                let off = corner - start;
                let flat = Point2::new(off.dot(u), off.dot(v));
                let place = plate.weld(corner, flat, &mut cells);
                if ring.last() != Some(&place) {
                    ring.push(place);
                }
            }
            while ring.len() > 1 && ring.first() == ring.last() {
                ring.pop();
            }
            if ring.len() > 2 {
                plate.rings.push(ring);
            }
        }
        plate
    }

    fn weld(
        &mut self,
        corner: Point3,
        flat: Point2,
        cells: &mut HashMap<(i64, i64), Vec<usize>>,
    ) -> usize {
        const CELL: f64 = 0.1;
        let cell = |value: f64| (value / CELL).floor() as i64;
        let (low_x, high_x) = (cell(flat.x - WELD), cell(flat.x + WELD));
        let (low_y, high_y) = (cell(flat.y - WELD), cell(flat.y + WELD));
        for x in low_x..=high_x {
            for y in low_y..=high_y {
                let near = cells.get(&(x, y)).into_iter().flatten();
                for &place in near {
                    if self.flat[place].distance(flat) <= WELD {
                        return place;
                    }
                }
            }
        }
        self.corners.push(corner);
        self.flat.push(flat);
        let place = self.corners.len() - 1;
        cells
            .entry((cell(flat.x), cell(flat.y)))
            .or_default()
            .push(place);
        place
    }

    fn ring_area(&self, ring: &[usize]) -> f64 {
        let points: Vec<Point2> = ring.iter().map(|&place| self.flat[place]).collect();
        ring_area(&points)
    }

    /// The directed edges of all pieces, divided where corners lie on them; those that go both ways are left out.
    fn outer_edges(&self) -> Option<BTreeMap<usize, Vec<usize>>> {
        let mut counts: BTreeMap<(usize, usize), i32> = BTreeMap::new();
        for ring in &self.rings {
            for k in 0..ring.len() {
                let chain = self.divided(ring[k], ring[(k + 1) % ring.len()]);
                for pair in chain.windows(2) {
                    *counts.entry((pair[0], pair[1])).or_default() += 1;
                }
            }
        }
        let mut ways: BTreeMap<usize, Vec<usize>> = BTreeMap::new();
        for (&(from, to), &count) in &counts {
            let back = counts.get(&(to, from)).copied().unwrap_or(0);
            if count - back > 1 {
                return None; // pieces lie over one another
            }
            if count > back {
                ways.entry(from).or_default().push(to);
            }
        }
        Some(ways)
    }

    /// The corners that lie on an edge, with its ends, in their order.
    fn divided(&self, from: usize, to: usize) -> Vec<usize> {
        let (a, b) = (self.flat[from], self.flat[to]);
        let length = a.distance(b);
        let mut on: Vec<(f64, usize)> = vec![(0.0, from), (length, to)];
        let way = Point2::new((b.x - a.x) / length, (b.y - a.y) / length);
        for (place, p) in self.flat.iter().enumerate() {
            let (x, y) = (p.x - a.x, p.y - a.y);
            let along = x * way.x + y * way.y;
            if along <= WELD || along >= length - WELD || place == from || place == to {
                continue;
            }
            if (x * way.y - y * way.x).abs() <= ON_EDGE {
                on.push((along, place));
            }
        }
        on.sort_by(|one, other| one.0.total_cmp(&other.0).then(one.1.cmp(&other.1)));
        on.into_iter().map(|(_, place)| place).collect()
    }

    /// Follows outer edges to closed rings; at a corner with several ways on it takes the leftmost.
    fn follow(&self, mut ways: BTreeMap<usize, Vec<usize>>) -> Option<Vec<Vec<usize>>> {
        let mut rings = Vec::new();
        while let Some((&start, _)) = ways.iter().next() {
            let mut ring = vec![start];
            let mut before = start;
            let mut at = take_way(&mut ways, start, 0)?;
            while at != start {
                ring.push(at);
                if ring.len() > 2 * self.corners.len() {
                    return None;
                }
                let choice = self.leftmost(before, at, ways.get(&at)?);
                let next = take_way(&mut ways, at, choice)?;
                before = at;
                at = next;
            }
            rings.push(ring);
        }
        Some(rings)
    }

    fn leftmost(&self, before: usize, at: usize, ways: &[usize]) -> usize {
        let (a, b) = (self.flat[before], self.flat[at]);
        let mut best = (f64::NEG_INFINITY, 0);
        for (choice, &next) in ways.iter().enumerate() {
            let c = self.flat[next];
            let (x, y) = (b.x - a.x, b.y - a.y);
            let (v, w) = (c.x - b.x, c.y - b.y);
            let angle = crate::trigonometry::angle_of(x * w - y * v, x * v + y * w);
            if angle > best.0 {
                best = (angle, choice);
            }
        }
        best.1
    }

    /// A ring without the corners at which it goes straight on.
    fn straightened(&self, ring: &[usize]) -> Vec<usize> {
        let mut kept: Vec<usize> = ring.to_vec();
        let mut k = 0;
        let mut since = 0;
        while kept.len() > 3 && since < kept.len() {
            let count = kept.len();
            let (a, b, c) = (
                self.flat[kept[(k + count - 1) % count]],
                self.flat[kept[k % count]],
                self.flat[kept[(k + 1) % count]],
            );
            let length = a.distance(c);
            let forward = (b.x - a.x) * (c.x - b.x) + (b.y - a.y) * (c.y - b.y) > 0.0;
            if forward && turn(a, b, c).abs() <= ON_EDGE * 0.5 * length {
                kept.remove(k % count);
                since = 0;
                k %= kept.len();
            } else {
                since += 1;
                k = (k + 1) % count;
            }
        }
        kept
    }
}

fn take_way(ways: &mut BTreeMap<usize, Vec<usize>>, from: usize, choice: usize) -> Option<usize> {
    let list = ways.get_mut(&from)?;
    if choice >= list.len() {
        return None;
    }
    let next = list.remove(choice);
    if list.is_empty() {
        ways.remove(&from);
    }
    Some(next)
}

/// The triangles of the pieces of one plane; none where they can't be joined safely.
fn joined(pieces: &[Polygon], work: &mut Work) -> Option<Surface> {
    let count: usize = pieces.iter().map(Vec::len).sum();
    if pieces.len() < 2 || count > MOST_CORNERS {
        return None;
    }
    work.spend(count * count / 8).ok()?;
    let plate = Plate::of(pieces);
    let before: f64 = plate.rings.iter().map(|ring| plate.ring_area(ring)).sum();
    let rings = plate.follow(plate.outer_edges()?)?;
    let rings: Vec<Vec<usize>> = rings.iter().map(|ring| plate.straightened(ring)).collect();
    let after: f64 = rings.iter().map(|ring| plate.ring_area(ring)).sum();
    let slack = before.abs() * 1e-6 + 1e-3 * (before.abs().sqrt() + 1.0);
    if (after - before).abs() > slack {
        return None;
    }
    let surface = cut_rings(&plate, rings)?;
    let normal = area_vector(&pieces[0]).unit();
    let cut: f64 = surface
        .iter()
        .map(|face| area_vector(face).dot(normal) / 2.0)
        .sum();
    if (cut - before).abs() > slack {
        return None;
    }
    Some(surface)
}

/// Outer rings with the holes that lie in them, cut into triangles.
fn cut_rings(plate: &Plate, rings: Vec<Vec<usize>>) -> Option<Surface> {
    let (outers, holes): (Vec<_>, Vec<_>) = rings
        .into_iter()
        .filter(|ring| ring.len() > 2)
        .partition(|ring| plate.ring_area(ring) > 0.0);
    let mut faces: Vec<Vec<Vec<usize>>> = outers.into_iter().map(|ring| vec![ring]).collect();
    for hole in holes {
        let corner = plate.flat[hole[0]];
        let mut best: Option<(f64, usize)> = None;
        for (place, face) in faces.iter().enumerate() {
            let area = plate.ring_area(&face[0]);
            let smaller = best.map_or(true, |(least, _)| area < least);
            if smaller && is_inside(plate, &face[0], &hole, corner) {
                best = Some((area, place));
            }
        }
        faces[best?.1].push(hole);
    }
    let mut surface = Surface::new();
    for face in faces {
        let flats: Vec<Vec<Point2>> = face
            .iter()
            .map(|ring| ring.iter().map(|&place| plate.flat[place]).collect())
            .collect();
        let corners: Vec<usize> = face.into_iter().flatten().collect();
        let triangles = triangulate(&flats).ok()?;
        if !triangles.fine {
            return None;
        }
        for places in triangles.places {
            surface.push(places.iter().map(|&k| plate.corners[corners[k]]).collect());
        }
    }
    Some(surface)
}

/// Whether a hole lies in a ring, judged by a corner that isn't the ring's.
fn is_inside(plate: &Plate, ring: &[usize], hole: &[usize], first: Point2) -> bool {
    let free = hole.iter().find(|place| !ring.contains(place));
    let p = free.map_or(first, |&place| plate.flat[place]);
    let mut inside = false;
    for k in 0..ring.len() {
        let (a, b) = (plate.flat[ring[k]], plate.flat[ring[(k + 1) % ring.len()]]);
        if (a.y > p.y) != (b.y > p.y) && p.x < a.x + (p.y - a.y) / (b.y - a.y) * (b.x - a.x) {
            inside = !inside;
        }
    }
    inside
}

#[cfg(test)]
mod tests {
    use super::*;
    use crate::vector::volume;

    /// A box, its top cut in four pieces that leave a corner amid an edge of a side.
    fn pieced() -> Surface {
        let p = |x: f64, y: f64, z: f64| Point3::new(x, y, z);
        let quad = |x0: f64, y0: f64, x1: f64, y1: f64| {
            vec![
                p(x0, y0, 10.0),
                p(x1, y0, 10.0),
                p(x1, y1, 10.0),
                p(x0, y1, 10.0),
            ]
        };
        vec![
            quad(0.0, 0.0, 4.0, 5.0),
            quad(4.0, 0.0, 10.0, 5.0),
            quad(0.0, 5.0, 6.0, 10.0),
            quad(6.0, 5.0, 10.0, 10.0),
            vec![
                p(0., 0., 0.),
                p(0., 10., 0.),
                p(10., 10., 0.),
                p(10., 0., 0.),
            ],
            vec![
                p(0., 0., 0.),
                p(10., 0., 0.),
                p(10., 0., 10.),
                p(0., 0., 10.),
            ],
            vec![
                p(10., 0., 0.),
                p(10., 10., 0.),
                p(10., 10., 10.),
                p(10., 0., 10.),
            ],
            vec![
                p(10., 10., 0.),
                p(0., 10., 0.),
                p(0., 10., 10.),
                p(10., 10., 10.),
            ],
            vec![
                p(0., 10., 0.),
                p(0., 0., 0.),
                p(0., 0., 10.),
                p(0., 10., 10.),
            ],
        ]
    }

    #[test]
    fn four_pieces_become_two_triangles() {
        let mut work = Work { left: 1_000_000 };
        let before = pieced();
        let after = merge(before.clone(), &mut work);
        assert!((volume(&before) - 1000.0).abs() < 1e-9);
        assert!((volume(&after) - 1000.0).abs() < 1e-9);
        let top = after.iter().filter(|face| face.iter().all(|p| p.z == 10.0));
        assert_eq!(top.count(), 2);
    }

    #[test]
    fn without_work_left_nothing_changes() {
        let mut work = Work { left: 0 };
        assert_eq!(merge(pieced(), &mut work).len(), 9);
    }
}
