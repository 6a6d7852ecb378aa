//! Representation items: each to its kind; half spaces, boolean results and primitives of solids.

use crate::as_it_is::is_read;
use crate::booleans::{difference, intersection, outside_out, union};
use crate::fault::{fail, Result};
use crate::part21::Arguments;
use crate::profiles::Profile;
use crate::shaper::{Shape, Shaper};
use crate::trigonometry::{sine_cosine, PI, TURN};
use crate::vector::{is_positive, Bounds, Frame, Point2, Point3, Surface};

impl<'a> Shaper<'a> {
    /// Adds the shape of a representation item.
    pub fn item(&mut self, id: u64, out: &mut Shape) -> Result<()> {
        self.nested(|shaper| shaper.item_of(id, out))
            .map_err(|fault| fault.at(id))
    }

    fn item_of(&mut self, id: u64, out: &mut Shape) -> Result<()> {
        let values = self.arguments(id)?;
        out.beyond.items |= !is_read(self.keyword(id));
        match self.keyword(id) {
            "IFCMAPPEDITEM" => self.mapped_item(&values, out),
            "IFCFACETEDBREP" | "IFCADVANCEDBREP" | "IFCMANIFOLDSOLIDBREP" => {
                self.shell(values.reference(0), out)
            }
            "IFCFACETEDBREPWITHVOIDS" | "IFCADVANCEDBREPWITHVOIDS" => {
                self.shell(values.reference(0), out)?;
                values
                    .references(1)
                    .try_for_each(|void| self.shell(void, out))
            }
            "IFCSHELLBASEDSURFACEMODEL" | "IFCFACEBASEDSURFACEMODEL" => values
                .references(0)
                .try_for_each(|shell| self.shell(shell, out)),
            "IFCCLOSEDSHELL" | "IFCOPENSHELL" | "IFCCONNECTEDFACESET" => self.shell(id, out),
            "IFCTRIANGULATEDFACESET" | "IFCTRIANGULATEDIRREGULARNETWORK" => {
                self.triangulated(id, &values, out)
            }
            "IFCPOLYGONALFACESET" => self.polygonal(&values, out),
            "IFCEXTRUDEDAREASOLID" | "IFCEXTRUDEDAREASOLIDTAPERED" => self.extruded(&values, out),
            "IFCREVOLVEDAREASOLID" | "IFCREVOLVEDAREASOLIDTAPERED" => self.revolved(&values, out),
            "IFCSWEPTDISKSOLID" | "IFCSWEPTDISKSOLIDPOLYGONAL" => self.swept_disk(id, &values, out),
            "IFCFIXEDREFERENCESWEPTAREASOLID" | "IFCSURFACECURVESWEPTAREASOLID" => {
                self.swept_along(id, &values, out)
            }
            "IFCSECTIONEDSPINE" => self.sectioned_spine(&values, out),
            "IFCBOOLEANCLIPPINGRESULT" | "IFCBOOLEANRESULT" => self.boolean(&values, out),
            "IFCCSGSOLID" => self.item(values.reference(0), out),
            _ => self.primitive(id, &values, out),
        }
    }

    fn boolean(&mut self, values: &Arguments<'a>, out: &mut Shape) -> Result<()> {
        self.work.spend(5000)?;
        let mut first = Shape::default();
        self.item(values.reference(1), &mut first)?;
        let reach = Bounds::of_surface(&first.surface);
        let second = self.operand(values.reference(2), &reach)?;
        let (a, b) = (outside_out(first.surface), outside_out(second.surface));
        let mut made = match values.get(0).enumeration() {
            b"DIFFERENCE" => difference(&a, &b, &mut self.work)?,
            b"UNION" => union(&a, &b, &mut self.work)?,
            b"INTERSECTION" => intersection(&a, &b, &mut self.work)?,
            _ => return fail("a boolean result without an operator"),
        };
        out.surface.append(&mut made);
        out.crossed += first.crossed + second.crossed;
        out.cut = true;
        self.check_size(&out.surface)
    }

    fn operand(&mut self, id: u64, reach: &Bounds) -> Result<Shape> {
        let surface = match self.keyword(id) {
            "IFCHALFSPACESOLID" | "IFCBOXEDHALFSPACE" => self.half_space(id, reach)?,
            "IFCPOLYGONALBOUNDEDHALFSPACE" => self.bounded_half_space(id, reach)?,
            _ => {
                let mut shape = Shape::default();
                self.item(id, &mut shape)?;
                return Ok(shape);
            }
        };
        Ok(Shape {
            surface,
            ..Shape::default()
        })
    }

    /// A half space as a great box, beyond what it is used on.
    fn half_space(&mut self, id: u64, reach: &Bounds) -> Result<Surface> {
        let values = self.arguments(id)?;
        let base = values.reference(0);
        if self.keyword(base) != "IFCPLANE" {
            return self.unknown(base);
        }
        let plane = self.arguments(base)?.reference(0);
        let frame = self.axes(plane)?;
        let agrees = !values.get(1).is_false();
        let middle = reach.middle();
        let size = reach.diagonal() + 1000.0;
        if !size.is_finite() {
            return fail("a half space over nothing");
        }
        let height = (middle - frame.origin).dot(frame.z);
        let mut near = frame;
        near.origin = middle - frame.z * height;
        let mut far = near;
        let depth = height.abs() + size;
        far.origin = near.origin + frame.z * if agrees { -depth } else { depth };
        self.prism(square(size), near, far)
    }

    fn bounded_half_space(&mut self, id: u64, reach: &Bounds) -> Result<Surface> {
        let half = self.half_space(id, reach)?;
        let values = self.arguments(id)?;
        let frame = self.axes(values.reference(2))?;
        let size = reach.diagonal() + 1000.0;
        let height = (reach.middle() - frame.origin).dot(frame.z);
        let at = |height: f64| Frame {
            origin: frame.origin + frame.z * height,
            ..frame
        };
        let outline = crate::profiles::flat_ring(&self.curve(values.reference(3))?);
        let prism = self.prism(outline, at(height - size), at(height + size))?;
        intersection(&prism, &half, &mut self.work)
    }

    fn prism(&mut self, outline: Vec<Point2>, low: Frame, high: Frame) -> Result<Surface> {
        let profile = Profile {
            outline,
            holes: Vec::new(),
        };
        let mut shape = Shape::default();
        self.sweep(&[profile], &[low, high], false, &mut shape)?;
        Ok(shape.surface)
    }

    fn primitive(&mut self, id: u64, values: &Arguments<'a>, out: &mut Shape) -> Result<()> {
        let keyword = self.keyword(id);
        match keyword {
            "IFCBLOCK"
            | "IFCRECTANGULARPYRAMID"
            | "IFCRIGHTCIRCULARCYLINDER"
            | "IFCRIGHTCIRCULARCONE"
            | "IFCSPHERE" => {}
            _ => return self.unknown(id),
        }
        let frame = self.axes(values.reference(0))?;
        let mut surface = match keyword {
            "IFCBLOCK" => {
                let (x, y) = (self.length_at(values, 1)?, self.length_at(values, 2)?);
                let height = self.length_at(values, 3)?;
                self.raised(rectangle(x, y), frame, height)?
            }
            "IFCRECTANGULARPYRAMID" => {
                let (x, y) = (self.length_at(values, 1)?, self.length_at(values, 2)?);
                let top = Point3::new(x / 2.0, y / 2.0, self.length_at(values, 3)?);
                pyramid(&rectangle(x, y), top, &frame)
            }
            "IFCRIGHTCIRCULARCYLINDER" => {
                let radius = self.length_at(values, 2)?;
                let height = self.length_at(values, 1)?;
                self.raised(self.oval(radius, radius)?, frame, height)?
            }
            "IFCRIGHTCIRCULARCONE" => {
                let radius = self.length_at(values, 2)?;
                let top = Point3::new(0.0, 0.0, self.length_at(values, 1)?);
                pyramid(&self.oval(radius, radius)?, top, &frame)
            }
            _ => self.ball(&frame, self.length_at(values, 1)?)?,
        };
        out.surface.append(&mut surface);
        self.check_size(&out.surface)
    }

    fn raised(&mut self, outline: Vec<Point2>, frame: Frame, height: f64) -> Result<Surface> {
        let top = frame.then(&Frame::moved(Point3::new(0.0, 0.0, height)));
        self.prism(outline, frame, top)
    }

    fn ball(&self, frame: &Frame, radius: f64) -> Result<Surface> {
        if !is_positive(radius) {
            return fail("a sphere without a radius");
        }
        let around = self.chords(radius, TURN);
        let rows = around / 2 + 1;
        let at = |row: usize, k: usize| {
            let (height, out) = sine_cosine(PI * (row as f64 / rows as f64 - 0.5));
            let out = if row == 0 || row == rows { 0.0 } else { out };
            let (sine, cosine) = sine_cosine(TURN * (k % around) as f64 / around as f64);
            frame.point(Point3::new(out * cosine, out * sine, height) * radius)
        };
        let mut surface = Surface::new();
        for row in 0..rows {
            for k in 0..around {
                let quad = [
                    at(row, k),
                    at(row, k + 1),
                    at(row + 1, k + 1),
                    at(row + 1, k),
                ];
                crate::sweeps::add_quad(quad, &mut surface);
            }
        }
        Ok(surface)
    }
}

fn square(half: f64) -> Vec<Point2> {
    let corners = [(-half, -half), (half, -half), (half, half), (-half, half)];
    corners.iter().map(|&(x, y)| Point2::new(x, y)).collect()
}

fn rectangle(x: f64, y: f64) -> Vec<Point2> {
    let corners = [(0.0, 0.0), (x, 0.0), (x, y), (0.0, y)];
    corners.iter().map(|&(x, y)| Point2::new(x, y)).collect()
}

/// A pyramid over a convex outline.
fn pyramid(outline: &[Point2], top: Point3, frame: &Frame) -> Surface {
    let top = frame.point(top);
    let base: Vec<Point3> = outline.iter().map(|&p| frame.flat(p)).collect();
    let mut surface = Surface::new();
    for k in 0..base.len() {
        surface.push(vec![base[k], base[(k + 1) % base.len()], top]);
    }
    for k in 2..base.len() {
        surface.push(vec![base[0], base[k], base[k - 1]]);
    }
    outside_out(surface)
}
