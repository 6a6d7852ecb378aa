//! B-spline curves and surfaces, with or without weights, by de Boor's rule.

use crate::curves::Path;
use crate::fault::{fail, Result};
use crate::vector::{is_positive, Point3};

const MOST_DEGREE: usize = 24;
const MOST_POINTS: usize = 100_000;
/// Into how many chords a knot span is cut at most.
const MOST_CHORDS: usize = 128;

/// A point with its weight, multiplied by it.
#[derive(Clone, Copy)]
struct Weighted {
    point: Point3,
    weight: f64,
}

impl Weighted {
    fn towards(self, other: Weighted, part: f64) -> Weighted {
        Weighted {
            point: self.point.towards(other.point, part),
            weight: self.weight + (other.weight - self.weight) * part,
        }
    }

    fn plain(self) -> Point3 {
        if self.weight.abs() > 1e-300 {
            self.point * (1.0 / self.weight)
        } else {
            self.point
        }
    }
}

/// A B-spline curve.
#[derive(Clone)]
pub struct Spline {
    degree: usize,
    points: Vec<Weighted>,
    knots: Vec<f64>,
}

fn check_knots(degree: usize, count: usize, knots: &[f64]) -> Result<()> {
    if degree == 0 || degree > MOST_DEGREE || count <= degree || count > MOST_POINTS {
        return fail("a B-spline whose degree doesn't fit its points");
    }
    if knots.len() != count + degree + 1 {
        return fail("a B-spline whose knots don't fit its points");
    }
    let rise = knots.windows(2).all(|pair| pair[0] <= pair[1]);
    if !rise || !is_positive(knots[count] - knots[degree]) {
        return fail("a B-spline whose knots don't rise");
    }
    Ok(())
}

/// The span of knots that a parameter lies in.
fn span_of(degree: usize, count: usize, knots: &[f64], parameter: f64) -> usize {
    let behind = knots.partition_point(|&knot| knot <= parameter);
    behind.saturating_sub(1).clamp(degree, count - 1)
}

/// De Boor's rule over the points that act in a span.
fn de_boor(
    degree: usize,
    knots: &[f64],
    span: usize,
    parameter: f64,
    acting: &mut [Weighted],
) -> Weighted {
    for level in 1..=degree {
        for k in (level..=degree).rev() {
            let low = knots[span + k - degree];
            let high = knots[span + k + 1 - level];
            let part = if high > low {
                (parameter - low) / (high - low)
            } else {
                0.0
            };
            acting[k] = acting[k - 1].towards(acting[k], part);
        }
    }
    acting[degree]
}

/// The knots of a span between first and last, each once.
fn distinct(knots: &[f64]) -> Vec<f64> {
    let mut distinct = knots.to_vec();
    distinct.dedup();
    distinct
}

impl Spline {
    pub fn new(
        degree: usize,
        points: Vec<Point3>,
        weights: Vec<f64>,
        knots: Vec<f64>,
    ) -> Result<Spline> {
        check_knots(degree, points.len(), &knots)?;
        if weights.len() != points.len() || !weights.iter().all(|&weight| is_positive(weight)) {
            return fail("a B-spline whose weights don't fit its points");
        }
        let points = points.into_iter().zip(weights);
        let points = points
            .map(|(point, weight)| Weighted {
                point: point * weight,
                weight,
            })
            .collect();
        Ok(Spline {
            degree,
            points,
            knots,
        })
    }

    /// The knots of a chain of Bézier curves.
    pub fn bezier_knots(degree: usize, count: usize) -> Vec<f64> {
        let degree = degree.max(1);
        let pieces = count.saturating_sub(1) / degree;
        let mut knots = vec![0.0; degree + 1];
        for piece in 1..=pieces {
            let repeats = if piece == pieces { degree + 1 } else { degree };
            knots.extend(std::iter::repeat(piece as f64).take(repeats));
        }
        knots
    }

    /// The first and the last parameter.
    pub fn range(&self) -> (f64, f64) {
        (self.knots[self.degree], self.knots[self.points.len()])
    }

    pub fn at(&self, parameter: f64) -> Point3 {
        let (low, high) = self.range();
        let parameter = parameter.clamp(low, high);
        let span = span_of(self.degree, self.points.len(), &self.knots, parameter);
        let mut acting = self.points[span - self.degree..=span].to_vec();
        de_boor(self.degree, &self.knots, span, parameter, &mut acting).plain()
    }

    /// Chords that lie within a distance of the curve.
    pub fn path(&self, chord: f64) -> Path {
        let knots = distinct(&self.knots[self.degree..=self.points.len()]);
        let mut path = Path::default();
        path.points.push(self.at(knots[0]));
        path.parameters.push(knots[0]);
        for pair in knots.windows(2) {
            let count = chords_between(pair[0], pair[1], chord, self.degree, |t| self.at(t));
            for k in 1..=count {
                let parameter = pair[0] + (pair[1] - pair[0]) * k as f64 / count as f64;
                path.points.push(self.at(parameter));
                path.parameters.push(parameter);
            }
        }
        path
    }
}

/// Into how many chords a curve is cut between two parameters so that the middle of each lies near it.
pub(crate) fn chords_between(
    from: f64,
    to: f64,
    chord: f64,
    degree: usize,
    at: impl Fn(f64) -> Point3,
) -> usize {
    if degree < 2 {
        return 1;
    }
    let mut count = 2;
    while count < MOST_CHORDS {
        let step = (to - from) / count as f64;
        let far = (0..count).any(|k| {
            let start = from + step * k as f64;
            let (a, b) = (at(start), at(start + step));
            [0.25, 0.5, 0.75].iter().any(|part| {
                let chord_point = a.towards(b, *part);
                let way = (b - a).unit();
                let off = at(start + step * part) - chord_point;
                (off - way * off.dot(way)).length() > chord
            })
        });
        if !far {
            break;
        }
        count *= 2;
    }
    count
}

/// A B-spline surface.
pub struct SplineSurface {
    degrees: [usize; 2],
    counts: [usize; 2],
    points: Vec<Weighted>,
    knots: [Vec<f64>; 2],
}

impl SplineSurface {
    /// The rows of points run along the second parameter.
    pub fn new(
        degrees: [usize; 2],
        rows: Vec<Vec<Point3>>,
        weights: Vec<Vec<f64>>,
        knots: [Vec<f64>; 2],
    ) -> Result<SplineSurface> {
        let counts = [rows.len(), rows.first().map_or(0, Vec::len)];
        check_knots(degrees[0], counts[0], &knots[0])?;
        check_knots(degrees[1], counts[1], &knots[1])?;
        if weights.len() != rows.len() {
            return fail("a B-spline surface whose weights don't fit its points");
        }
        let mut points = Vec::with_capacity(counts[0] * counts[1]);
        for (row, own) in rows.iter().zip(&weights) {
            if row.len() != counts[1]
                || own.len() != counts[1]
                || !own.iter().all(|&weight| is_positive(weight))
            {
                return fail("a B-spline surface whose rows don't fit");
            }
            points.extend(row.iter().zip(own).map(|(&point, &weight)| Weighted {
                point: point * weight,
                weight,
            }));
        }
        Ok(SplineSurface {
            degrees,
            counts,
            points,
            knots,
        })
    }

    pub fn range(&self, side: usize) -> (f64, f64) {
        let knots = &self.knots[side];
        (knots[self.degrees[side]], knots[self.counts[side]])
    }

    pub fn knots_within(&self, side: usize) -> Vec<f64> {
        distinct(&self.knots[side][self.degrees[side]..=self.counts[side]])
    }

    pub fn degree(&self, side: usize) -> usize {
        self.degrees[side]
    }

    pub fn at(&self, u: f64, v: f64) -> Point3 {
        let [p, q] = self.degrees;
        let ((low_u, high_u), (low_v, high_v)) = (self.range(0), self.range(1));
        let (u, v) = (u.clamp(low_u, high_u), v.clamp(low_v, high_v));
        let row = span_of(p, self.counts[0], &self.knots[0], u);
        let column = span_of(q, self.counts[1], &self.knots[1], v);
        let mut acting = Vec::with_capacity(p + 1);
        for k in row - p..=row {
            let start = k * self.counts[1] + column - q;
            let mut own = self.points[start..=start + q].to_vec();
            acting.push(de_boor(q, &self.knots[1], column, v, &mut own));
        }
        de_boor(p, &self.knots[0], row, u, &mut acting).plain()
    }
}

#[cfg(test)]
mod tests {
    use super::*;

    /// A quarter of a circle of radius 1 as a rational curve.
    fn quarter() -> Spline {
        let points = vec![
            Point3::new(1.0, 0.0, 0.0),
            Point3::new(1.0, 1.0, 0.0),
            Point3::new(0.0, 1.0, 0.0),
        ];
        let weights = vec![1.0, 0.5_f64.sqrt(), 1.0];
        Spline::new(2, points, weights, vec![0.0, 0.0, 0.0, 1.0, 1.0, 1.0]).unwrap()
    }

    #[test]
    fn a_rational_quarter_is_a_circle() {
        let spline = quarter();
        for k in 0..=20 {
            let point = spline.at(f64::from(k) / 20.0);
            assert!((point.length() - 1.0).abs() < 1e-12);
        }
        let path = spline.path(1e-4);
        assert!(path.points.len() > 30);
    }

    #[test]
    fn bad_knots_are_refused() {
        let points = vec![Point3::ZERO, Point3::X];
        let make = |knots: Vec<f64>| Spline::new(1, points.clone(), vec![1.0, 1.0], knots);
        assert!(make(vec![0.0, 0.0, 1.0, 1.0]).is_ok());
        assert!(make(vec![0.0, 0.0, 1.0]).is_err());
        assert!(make(vec![0.0, 1.0, 0.0, 1.0]).is_err());
        assert!(make(vec![1.0; 4]).is_err());
        assert!(Spline::new(0, points.clone(), vec![1.0, 1.0], vec![0.0; 3]).is_err());
    }

    #[test]
    fn bezier_knots_fit() {
        assert_eq!(Spline::bezier_knots(3, 7).len(), 7 + 3 + 1);
    }
}
