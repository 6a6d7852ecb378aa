//! Pairs of solids drawn by a fixed seed: what is in A alone, in both and in either has to add up.

use ifc2grid::booleans::{difference, intersection, union, Work};
use ifc2grid::merge::merge;
use ifc2grid::vector::{volume, Frame, Point3, Surface};

/// Numbers drawn by a fixed rule (xorshift).
struct Draw(u64);

impl Draw {
    fn next(&mut self) -> u64 {
        self.0 ^= self.0 << 13;
        self.0 ^= self.0 >> 7;
        self.0 ^= self.0 << 17;
        self.0
    }

    fn between(&mut self, low: f64, high: f64) -> f64 {
        low + (high - low) * (self.next() >> 11) as f64 / (1_u64 << 53) as f64
    }

    /// A multiple of 100 mm.
    fn step(&mut self, low: i64, high: i64) -> f64 {
        let count = (high - low + 1) as u64;
        (low + (self.next() % count) as i64) as f64 * 100.0
    }

    fn frame(&mut self) -> Frame {
        let z = Point3::new(
            self.between(-1.0, 1.0),
            self.between(-1.0, 1.0),
            self.between(0.1, 1.0),
        );
        let x = Point3::new(
            self.between(-1.0, 1.0),
            self.between(-1.0, 1.0),
            self.between(-1.0, 1.0),
        );
        Frame::of_axes(Point3::ZERO, z, Some(x))
    }
}

fn solid_box(low: Point3, size: Point3, frame: &Frame) -> Surface {
    let corner = |k: usize| {
        frame.point(Point3::new(
            low.x + if k & 1 > 0 { size.x } else { 0.0 },
            low.y + if k & 2 > 0 { size.y } else { 0.0 },
            low.z + if k & 4 > 0 { size.z } else { 0.0 },
        ))
    };
    let faces = [
        [0, 2, 3, 1],
        [4, 5, 7, 6],
        [0, 1, 5, 4],
        [2, 6, 7, 3],
        [0, 4, 6, 2],
        [1, 3, 7, 5],
    ];
    faces
        .iter()
        .map(|face| face.iter().map(|&k| corner(k)).collect())
        .collect()
}

fn prism(sides: usize, radius: f64, height: f64, frame: &Frame) -> Surface {
    let ring = |z: f64| -> Vec<Point3> {
        (0..sides)
            .map(|k| {
                let angle = std::f64::consts::TAU * k as f64 / sides as f64;
                frame.point(Point3::new(radius * angle.cos(), radius * angle.sin(), z))
            })
            .collect()
    };
    let (low, high) = (ring(0.0), ring(height));
    let mut surface = Surface::new();
    for k in 0..sides {
        let next = (k + 1) % sides;
        surface.push(vec![low[k], low[next], high[next], high[k]]);
    }
    for k in 2..sides {
        surface.push(vec![low[0], low[k], low[k - 1]]);
        surface.push(vec![high[0], high[k - 1], high[k]]);
    }
    surface
}

/// How far the volumes of a pair are from adding up, as a part of the greater one.
fn off(a: &Surface, b: &Surface) -> f64 {
    let mut work = Work { left: u64::MAX };
    let alone = difference(a, b, &mut work).unwrap();
    let both = intersection(a, b, &mut work).unwrap();
    let either = union(a, b, &mut work).unwrap();
    let joined = merge(alone.clone(), &mut work);
    let (of_a, of_b) = (volume(a), volume(b));
    let sums = [
        volume(&alone) + volume(&both) - of_a,
        volume(&either) + volume(&both) - of_a - of_b,
        volume(&joined) - volume(&alone),
    ];
    let worst = sums.iter().fold(0.0_f64, |worst, sum| worst.max(sum.abs()));
    assert!(joined.len() <= alone.iter().map(|piece| piece.len() - 2).sum());
    worst / of_a.max(of_b)
}

fn check(count: usize, seed: u64, mut pair: impl FnMut(&mut Draw) -> (Surface, Surface)) {
    let mut draw = Draw(seed);
    for number in 0..count {
        let (a, b) = pair(&mut draw);
        let off = off(&a, &b);
        assert!(off < 1e-4, "pair {number} of seed {seed} is off by {off}");
    }
}

fn grid_boxes(draw: &mut Draw, frame: Frame) -> (Surface, Surface) {
    let size = Point3::new(draw.step(3, 40), draw.step(2, 6), draw.step(10, 30));
    let low = Point3::new(draw.step(-2, 20), draw.step(-2, 3), draw.step(-2, 20));
    let other = Point3::new(draw.step(1, 20), draw.step(1, 8), draw.step(1, 20));
    (
        solid_box(Point3::ZERO, size, &frame),
        solid_box(low, other, &frame),
    )
}

#[test]
fn boxes_with_shared_planes() {
    check(4000, 5, |draw| grid_boxes(draw, Frame::IDENTITY));
}

#[test]
fn turned_boxes_with_shared_planes() {
    check(4000, 6, |draw| {
        let frame = draw.frame();
        grid_boxes(draw, frame)
    });
}

#[test]
fn boxes_turned_each_its_own_way() {
    check(4000, 7, |draw| {
        let size = Point3::new(
            draw.between(300.0, 4000.0),
            draw.between(100.0, 600.0),
            draw.between(1000.0, 3000.0),
        );
        let first = solid_box(Point3::ZERO, size, &draw.frame());
        let mut frame = draw.frame();
        frame.origin = Point3::new(
            draw.between(0.0, 2000.0),
            draw.between(0.0, 300.0),
            draw.between(0.0, 1500.0),
        );
        let other = Point3::new(
            draw.between(100.0, 2000.0),
            draw.between(100.0, 2000.0),
            draw.between(100.0, 2000.0),
        );
        (first, solid_box(Point3::ZERO, other, &frame))
    });
}

#[test]
fn round_holes_in_walls() {
    check(4000, 8, |draw| {
        let wall = Point3::new(4000.0, 240.0, 2800.0);
        let origin = Point3::new(
            draw.between(500.0, 3500.0),
            draw.between(240.0, 400.0),
            draw.between(500.0, 2300.0),
        );
        let frame = Frame::of_axes(origin, -Point3::Y, Some(Point3::X));
        let hole = prism(24, draw.between(50.0, 600.0), 800.0, &frame);
        (solid_box(Point3::ZERO, wall, &Frame::IDENTITY), hole)
    });
}

#[test]
fn cylinders() {
    check(4000, 9, |draw| {
        let first = prism(32, draw.between(100.0, 500.0), 3000.0, &draw.frame());
        let mut frame = draw.frame();
        frame.origin = Point3::new(
            draw.between(-200.0, 200.0),
            draw.between(-200.0, 200.0),
            draw.between(0.0, 2000.0),
        );
        (first, prism(16, draw.between(50.0, 400.0), 2000.0, &frame))
    });
}
