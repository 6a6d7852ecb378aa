//! Placements: along axes, within one another, by a grid, along a curve; operators of mapped items.

use crate::fault::{fail, Result};
use crate::shaper::Shaper;
use crate::trigonometry::sine_cosine;
use crate::vector::{Frame, Point3};

/// How many placements may stand within one another.
const MOST_PLACEMENTS: usize = 1000;

impl<'a> Shaper<'a> {
    /// The frame of an axis placement of two or three dimensions, or of one axis; the identity for none.
    pub(crate) fn axes(&mut self, id: u64) -> Result<Frame> {
        if id == 0 {
            return Ok(Frame::IDENTITY);
        }
        let values = self.arguments(id)?;
        match self.keyword(id) {
            "IFCAXIS2PLACEMENT2D" => {
                let origin = self.point(values.reference(0))?;
                let mut x = Point3::X;
                if values.has(1) {
                    x = self.direction(values.reference(1))?;
                    x.z = 0.0;
                }
                Ok(Frame::of_axes(origin, Point3::Z, Some(x)))
            }
            "IFCAXIS1PLACEMENT" | "IFCAXIS2PLACEMENT3D" => {
                let origin = self.location(values.reference(0))?;
                let z = self.direction_or(values.reference(1), Point3::Z)?;
                let x = match values.reference(2) {
                    0 => None,
                    id => Some(self.direction(id)?),
                };
                Ok(Frame::of_axes(origin, z, x))
            }
            "IFCAXIS2PLACEMENTLINEAR" => self.axes_along(&values),
            _ => self.unknown(id),
        }
    }

    fn location(&mut self, id: u64) -> Result<Point3> {
        match self.keyword(id) {
            "IFCPOINTBYDISTANCEEXPRESSION" => Ok(self.point_along(id)?.origin),
            _ => self.point(id),
        }
    }

    pub(crate) fn direction_or(&mut self, id: u64, other: Point3) -> Result<Point3> {
        match id {
            0 => Ok(other),
            id => self.direction(id),
        }
    }

    /// The operator of a mapped item, or of a derived profile.
    pub(crate) fn operator(&mut self, id: u64) -> Result<Frame> {
        let values = self.arguments(id)?;
        let keyword = self.keyword(id);
        if !keyword.starts_with("IFCCARTESIANTRANSFORMATIONOPERATOR") {
            return self.unknown(id);
        }
        let origin = self.point(values.reference(2))?;
        let scale = values.number_or(3, 1.0)?;
        let uneven = keyword.ends_with("NONUNIFORM");
        let x = match values.reference(0) {
            0 => None,
            id => Some(self.direction(id)?),
        };
        let second = match values.reference(1) {
            0 => None,
            id => Some(self.direction(id)?),
        };
        if keyword.contains("2D") {
            let y_scale = if uneven {
                values.number_or(4, scale)?
            } else {
                scale
            };
            let mut x = x.unwrap_or(Point3::X);
            x.z = 0.0;
            let frame = Frame::of_axes(origin, Point3::Z, Some(x));
            return Ok(scaled(frame, second, [scale, y_scale, scale]));
        }
        let z = self.direction_or(values.reference(4), Point3::Z)?;
        let frame = Frame::of_axes(origin, z, x);
        let (mut y_scale, mut z_scale) = (scale, scale);
        if uneven {
            y_scale = values.number_or(5, scale)?;
            z_scale = values.number_or(6, scale)?;
        }
        Ok(scaled(frame, second, [scale, y_scale, z_scale]))
    }

    /// Where an object is placed; the identity for none.
    pub fn placement(&mut self, id: u64) -> Result<Frame> {
        let mut chain = Vec::new();
        let mut at = id;
        let mut frame = Frame::IDENTITY;
        while at != 0 {
            if let Some(found) = self.placements.get(&at) {
                frame = *found;
                break;
            }
            if chain.len() >= MOST_PLACEMENTS {
                return fail("placements that never end");
            }
            chain.push(at);
            at = self.placement_above(at)?;
        }
        while let Some(inner) = chain.pop() {
            frame = frame.then(&self.own_placement(inner)?);
            self.placements.insert(inner, frame);
        }
        Ok(frame)
    }

    /// The placement that another one is relative to.
    fn placement_above(&mut self, id: u64) -> Result<u64> {
        let values = self.arguments(id)?;
        match self.keyword(id) {
            "IFCLOCALPLACEMENT" | "IFCLINEARPLACEMENT" => Ok(values.reference(0)),
            "IFCGRIDPLACEMENT" if values.len() >= 3 && values.has(0) => Ok(values.reference(0)),
            "IFCGRIDPLACEMENT" => {
                let place = if values.len() >= 3 { 1 } else { 0 };
                self.placement_of_grid(values.reference(place))
            }
            _ => self.unknown(id),
        }
    }

    /// A placement within the one that it is relative to.
    fn own_placement(&mut self, id: u64) -> Result<Frame> {
        let values = self.arguments(id)?;
        match self.keyword(id) {
            "IFCLINEARPLACEMENT" if values.has(2) => self.axes(values.reference(2)),
            "IFCLOCALPLACEMENT" | "IFCLINEARPLACEMENT" => self.axes(values.reference(1)),
            "IFCGRIDPLACEMENT" => {
                let first = if values.len() >= 3 { 1 } else { 0 };
                self.grid_frame(values.reference(first), values.reference(first + 1))
            }
            _ => self.unknown(id),
        }
    }

    /// The placement of the grid that an intersection's axes belong to.
    fn placement_of_grid(&mut self, intersection: u64) -> Result<u64> {
        let axis = self
            .arguments(intersection)?
            .references(0)
            .next()
            .unwrap_or(0);
        let tree = self.tree;
        for &grid in &tree.grids {
            let values = self.arguments(grid)?;
            if (7..10).any(|place| values.references(place).any(|own| own == axis)) {
                return Ok(values.reference(5));
            }
        }
        fail("a grid placement whose axes are in no grid")
    }

    /// The frame at an intersection of grid axes, its x towards a second one or along a direction, if there is either.
    fn grid_frame(&mut self, intersection: u64, towards: u64) -> Result<Frame> {
        let (origin, along) = self.grid_point(intersection)?;
        let x = match self.keyword(towards) {
            "IFCVIRTUALGRIDINTERSECTION" => self.grid_point(towards)?.0 - origin,
            "IFCDIRECTION" => self.direction(towards)?,
            _ => along,
        };
        Ok(Frame::of_axes(origin, Point3::Z, Some(x)))
    }

    /// Where two grid axes meet, each moved to its left, and the direction of the first one.
    fn grid_point(&mut self, id: u64) -> Result<(Point3, Point3)> {
        if self.keyword(id) != "IFCVIRTUALGRIDINTERSECTION" {
            return self.unknown(id);
        }
        let values = self.arguments(id)?;
        let axes: Vec<u64> = values.references(0).collect();
        let mut offsets = [0.0; 3];
        for (offset, value) in offsets.iter_mut().zip(values.list(1)) {
            *offset = self.length(value)?;
        }
        if axes.len() != 2 {
            return fail("a grid intersection of other than two axes");
        }
        let (p, u) = self.grid_line(axes[0], offsets[0])?;
        let (q, v) = self.grid_line(axes[1], offsets[1])?;
        let across = u.x * v.y - u.y * v.x;
        if across.abs() < 1e-9 {
            return fail("grid axes that don't meet");
        }
        let way = q - p;
        let along = (way.x * v.y - way.y * v.x) / across;
        let mut met = p + u * along;
        met.z = offsets[2];
        Ok((met, u))
    }

    /// A point and the direction of a straight grid axis, moved to its left.
    fn grid_line(&mut self, axis: u64, offset: f64) -> Result<(Point3, Point3)> {
        let values = self.arguments(axis)?;
        let curve = values.reference(1);
        let (start, mut along) = if self.keyword(curve) == "IFCLINE" {
            let line = self.line(curve)?;
            (line.0, line.1)
        } else {
            let points = self.curve(curve)?;
            match (points.first(), points.last()) {
                (Some(&a), Some(&b)) if points.len() == 2 => (a, b - a),
                _ => return fail("a grid axis that isn't straight"),
            }
        };
        along.z = 0.0;
        along = along.unit();
        if values.get(2).is_false() {
            along = -along;
        }
        let left = Point3::new(-along.y, along.x, 0.0);
        Ok((start + left * offset, along))
    }

    /// A placement along a curve: x along it, or as it says.
    fn axes_along(&mut self, values: &crate::part21::Arguments<'a>) -> Result<Frame> {
        let at = self.point_along(values.reference(0))?;
        let z = match values.reference(1) {
            0 => at.z,
            id => at.direction(self.direction(id)?),
        };
        let x = match values.reference(2) {
            0 => at.x,
            id => at.direction(self.direction(id)?),
        };
        Ok(Frame::of_axes(at.origin, z, Some(x)))
    }

    /// A point at a distance along a curve, with offsets; its frame has x along the curve, y to the left, z upwards.
    fn point_along(&mut self, id: u64) -> Result<Frame> {
        if self.keyword(id) != "IFCPOINTBYDISTANCEEXPRESSION" {
            return self.unknown(id);
        }
        let values = self.arguments(id)?;
        let path = self.path(values.reference(4))?;
        let by_parameter = matches!(values.get(0), crate::part21::Value::Typed(word, _)
            if word.eq_ignore_ascii_case(b"IFCPARAMETERVALUE"));
        let number = values.number(0)?;
        let (point, along) = if by_parameter {
            path.at_parameter(number)
        } else {
            path.at_length(number * self.units.millimetres)
        }?;
        let level = Point3::new(along.x, along.y, 0.0);
        let x = along.unit();
        let y = Point3::Z.cross(if level.length() > 1e-9 {
            level
        } else {
            Point3::X
        });
        let y = y.unit();
        let z = x.cross(y);
        let left = self.length_or(&values, 1, 0.0)?;
        let up = self.length_or(&values, 2, 0.0)?;
        let on = self.length_or(&values, 3, 0.0)?;
        let origin = point + x * on + y * left + z * up;
        Ok(Frame { x, y, z, origin })
    }

    /// The frame turned about an axis by an angle in radians.
    pub(crate) fn turned(origin: Point3, axis: Point3, angle: f64) -> Frame {
        let (sine, cosine) = sine_cosine(angle);
        let turn =
            |p: Point3| p * cosine + axis.cross(p) * sine + axis * (axis.dot(p) * (1.0 - cosine));
        let mut frame = Frame {
            x: turn(Point3::X),
            y: turn(Point3::Y),
            z: turn(Point3::Z),
            origin: Point3::ZERO,
        };
        frame.origin = origin - frame.direction(origin);
        frame
    }
}

/// A frame with scaled axes, mirrored where the second axis that is asked for points the other way.
fn scaled(frame: Frame, second: Option<Point3>, scales: [f64; 3]) -> Frame {
    let mut y = frame.y;
    if let Some(wanted) = second {
        if wanted.dot(y) < 0.0 {
            y = -y;
        }
    }
    Frame {
        x: frame.x * scales[0],
        y: y * scales[1],
        z: frame.z * scales[2],
        origin: frame.origin,
    }
}
