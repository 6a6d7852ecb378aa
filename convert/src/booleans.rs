//! Solids by their surfaces: difference, intersection and union, by trees of planes that divide space.

use crate::fault::{fail, Result};
use crate::vector::{area_vector, turn_over, Bounds, Point3, Polygon, Surface};

/// How far from a plane a point still lies on it, in millimetres.
pub const ON_PLANE: f64 = 1e-3;

#[derive(Clone, Copy)]
struct Plane {
    normal: Point3,
    offset: f64,
}

impl Plane {
    fn of(polygon: &[Point3]) -> Option<Plane> {
        let across = area_vector(polygon);
        let length = across.length();
        if !(length > 1e-9 && length.is_finite()) {
            return None;
        }
        let normal = across * (1.0 / length);
        let sum: f64 = polygon.iter().map(|&p| normal.dot(p)).sum();
        Some(Plane {
            normal,
            offset: sum / polygon.len() as f64,
        })
    }

    fn height(&self, p: Point3) -> f64 {
        self.normal.dot(p) - self.offset
    }
}

/// Where a polygon lies: the parts of it in front of a plane and behind it.
#[derive(Clone, Copy, PartialEq)]
struct Sides {
    front: bool,
    back: bool,
}

/// A convex polygon with its plane.
#[derive(Clone)]
struct Facet {
    polygon: Polygon,
    plane: Plane,
}

impl Facet {
    fn turn_over(&mut self) {
        self.polygon.reverse();
        self.plane.normal = -self.plane.normal;
        self.plane.offset = -self.plane.offset;
    }

    fn sides(&self, plane: &Plane) -> Sides {
        let mut sides = Sides {
            front: false,
            back: false,
        };
        for &p in &self.polygon {
            let height = plane.height(p);
            sides.front |= height > ON_PLANE;
            sides.back |= height < -ON_PLANE;
        }
        sides
    }

    /// The parts in front of a plane and behind it, of a facet that lies on both sides.
    fn split(self, plane: &Plane) -> (Option<Facet>, Option<Facet>) {
        let heights: Vec<f64> = self.polygon.iter().map(|&p| plane.height(p)).collect();
        let (mut front, mut back) = (Vec::new(), Vec::new());
        for k in 0..heights.len() {
            let next = (k + 1) % heights.len();
            let (a, b) = (heights[k], heights[next]);
            if a >= -ON_PLANE {
                front.push(self.polygon[k]);
            }
            if a <= ON_PLANE {
                back.push(self.polygon[k]);
            }
            if (a > ON_PLANE && b < -ON_PLANE) || (a < -ON_PLANE && b > ON_PLANE) {
                let met = self.polygon[k].towards(self.polygon[next], a / (a - b));
                front.push(met);
                back.push(met);
            }
        }
        let plane = self.plane;
        let facet = |polygon: Polygon| {
            if polygon.len() < 3 {
                None
            } else {
                Some(Facet { polygon, plane })
            }
        };
        (facet(front), facet(back))
    }
}

fn facets_of(surface: &[Polygon]) -> Vec<Facet> {
    surface
        .iter()
        .filter_map(|polygon| {
            Plane::of(polygon).map(|plane| Facet {
                polygon: polygon.clone(),
                plane,
            })
        })
        .collect()
}

fn turned(mut facets: Vec<Facet>) -> Vec<Facet> {
    facets.iter_mut().for_each(Facet::turn_over);
    facets
}

fn surface_of(facets: Vec<Facet>) -> Surface {
    facets.into_iter().map(|facet| facet.polygon).collect()
}

/// How much work is left: each test of a corner against a plane takes one.
pub struct Work {
    pub left: u64,
}

impl Work {
    pub fn spend(&mut self, amount: usize) -> Result<()> {
        match self.left.checked_sub(amount as u64) {
            Some(left) => {
                self.left = left;
                Ok(())
            }
            None => {
                self.left = 0;
                fail("more work than an element may take")
            }
        }
    }
}

/// Facets sorted by a plane.
#[derive(Default)]
struct Sorted {
    on: Vec<Facet>,
    front: Vec<Facet>,
    back: Vec<Facet>,
}

struct Node {
    plane: Plane,
    front: Option<usize>,
    back: Option<usize>,
}

/// A tree of planes. Its nodes lie in a list, so that a deep tree needs no deep stack.
struct Tree {
    nodes: Vec<Node>,
}

impl Tree {
    fn of(facets: Vec<Facet>, work: &mut Work) -> Result<Tree> {
        let mut tree = Tree { nodes: Vec::new() };
        if facets.is_empty() {
            return Ok(tree);
        }
        let mut waiting = vec![(tree.add(&facets), facets)];
        while let Some((at, facets)) = waiting.pop() {
            let plane = tree.nodes[at].plane;
            let sorted = sort_by(&plane, facets, work)?;
            let stays = sorted.on.is_empty() && (sorted.front.is_empty() || sorted.back.is_empty());
            if stays {
                continue; // rounding: no plane divides these
            }
            if !sorted.front.is_empty() {
                let node = tree.add(&sorted.front);
                tree.nodes[at].front = Some(node);
                waiting.push((node, sorted.front));
            }
            if !sorted.back.is_empty() {
                let node = tree.add(&sorted.back);
                tree.nodes[at].back = Some(node);
                waiting.push((node, sorted.back));
            }
        }
        Ok(tree)
    }

    fn add(&mut self, facets: &[Facet]) -> usize {
        self.nodes.push(Node {
            plane: facets[best_divider(facets)].plane,
            front: None,
            back: None,
        });
        self.nodes.len() - 1
    }

    /// The parts of facets that lie outside of the solid: in front, or on a plane whose side they share.
    fn outside(&self, facets: Vec<Facet>, work: &mut Work) -> Result<Vec<Facet>> {
        let mut kept = Vec::new();
        if self.nodes.is_empty() {
            return Ok(facets);
        }
        let mut waiting = vec![(0, facets)];
        while let Some((at, facets)) = waiting.pop() {
            let node = &self.nodes[at];
            let mut sorted = sort_by(&node.plane, facets, work)?;
            for facet in sorted.on {
                if node.plane.normal.dot(facet.plane.normal) > 0.0 {
                    sorted.front.push(facet);
                } else {
                    sorted.back.push(facet);
                }
            }
            match node.front {
                Some(front) if !sorted.front.is_empty() => waiting.push((front, sorted.front)),
                _ => kept.append(&mut sorted.front),
            }
            if let Some(back) = node.back {
                if !sorted.back.is_empty() {
                    waiting.push((back, sorted.back));
                }
            }
        }
        Ok(kept)
    }
}

fn sort_by(plane: &Plane, facets: Vec<Facet>, work: &mut Work) -> Result<Sorted> {
    let mut sorted = Sorted::default();
    for facet in facets {
        work.spend(facet.polygon.len())?;
        let sides = facet.sides(plane);
        match (sides.front, sides.back) {
            (false, false) => sorted.on.push(facet),
            (true, false) => sorted.front.push(facet),
            (false, true) => sorted.back.push(facet),
            (true, true) => {
                let (front, back) = facet.split(plane);
                sorted.front.extend(front);
                sorted.back.extend(back);
            }
        }
    }
    Ok(sorted)
}

/// Of some facets the one whose plane splits few others and leaves as many in front as behind.
fn best_divider(facets: &[Facet]) -> usize {
    let step = (facets.len() / 6).max(1);
    let sample = (facets.len() / 64).max(1);
    let mut best = (f64::INFINITY, 0);
    for candidate in (0..facets.len()).step_by(step) {
        let (mut splits, mut balance) = (0.0, 0.0_f64);
        for facet in facets.iter().step_by(sample) {
            let sides = facet.sides(&facets[candidate].plane);
            match (sides.front, sides.back) {
                (true, true) => splits += 1.0,
                (true, false) => balance += 1.0,
                (false, true) => balance -= 1.0,
                (false, false) => {}
            }
        }
        let cost = 4.0 * splits + balance.abs();
        if cost < best.0 {
            best = (cost, candidate);
        }
    }
    best.1
}

/// What of the first solid lies outside of the second.
pub fn difference(first: &[Polygon], second: &[Polygon], work: &mut Work) -> Result<Surface> {
    let reach = Bounds::of_surface(second);
    if !Bounds::of_surface(first).meets(&reach, ON_PLANE) {
        return Ok(first.to_vec());
    }
    let (a, b) = (turned(facets_of(first)), facets_of(second));
    if a.is_empty() || b.is_empty() {
        return Ok(first.to_vec());
    }
    let (tree_a, tree_b) = (Tree::of(a.clone(), work)?, Tree::of(b.clone(), work)?);
    let (near, far): (Vec<Facet>, Vec<Facet>) = a
        .into_iter()
        .partition(|facet| Bounds::of_polygon(&facet.polygon).meets(&reach, ON_PLANE));
    let near = tree_b.outside(near, work)?;
    // Behind the complement of the first solid is its inside; turned over once more so that shared planes go once.
    let walls = turned(tree_a.outside(b, work)?);
    let walls = tree_a.outside(walls, work)?;
    let mut out = surface_of(turned(far));
    out.append(&mut surface_of(turned(near)));
    out.append(&mut surface_of(walls));
    Ok(out)
}

/// What both solids have.
pub fn intersection(first: &[Polygon], second: &[Polygon], work: &mut Work) -> Result<Surface> {
    let (a, b) = (turned(facets_of(first)), turned(facets_of(second)));
    if a.is_empty() || b.is_empty() {
        return Ok(Surface::new());
    }
    let (tree_a, tree_b) = (Tree::of(a.clone(), work)?, Tree::of(b.clone(), work)?);
    let of_a = tree_b.outside(a, work)?;
    let of_b = turned(tree_a.outside(b, work)?);
    let of_b = turned(tree_a.outside(of_b, work)?);
    let mut out = surface_of(turned(of_a));
    out.append(&mut surface_of(turned(of_b)));
    Ok(out)
}

/// What either solid has.
pub fn union(first: &[Polygon], second: &[Polygon], work: &mut Work) -> Result<Surface> {
    if !Bounds::of_surface(first).meets(&Bounds::of_surface(second), ON_PLANE) {
        return Ok([first, second].concat());
    }
    let (a, b) = (facets_of(first), facets_of(second));
    if a.is_empty() || b.is_empty() {
        return Ok([first, second].concat());
    }
    let (tree_a, tree_b) = (Tree::of(a.clone(), work)?, Tree::of(b.clone(), work)?);
    let of_a = tree_b.outside(a, work)?;
    let of_b = turned(tree_a.outside(b, work)?);
    let of_b = turned(tree_a.outside(of_b, work)?);
    let mut out = surface_of(of_a);
    out.append(&mut surface_of(of_b));
    Ok(out)
}

/// The surface with its outside outside.
pub fn outside_out(mut surface: Surface) -> Surface {
    if crate::vector::volume(&surface) < 0.0 {
        turn_over(&mut surface);
    }
    surface
}
