//! What all kinds of shapes need: the file, its units, placements that were found, and bounds on the work.

use crate::as_it_is::Beyond;
use crate::booleans::Work;
use crate::fault::{fail, Fault, Result};
use crate::part21::{Arguments, File, Value};
use crate::tree::Tree;
use crate::trigonometry::{arc_cosine, PI};
use crate::units::Units;
use crate::vector::{Frame, Point3, Surface};
use std::collections::HashMap;
use std::sync::{Arc, Mutex};

/// How deep shapes may lie within one another.
const MOST_DEPTH: usize = 120;
/// The most polygons of one element.
pub(crate) const MOST_POLYGONS: usize = 1_000_000;
/// The work that one element, or one mapped shape, may take.
pub const MOST_WORK: u64 = 200_000_000;
/// How many polygons of mapped shapes are kept for their next use.
const KEPT_POLYGONS: usize = 2_000_000;

/// A shape: its surface, and how many of its faces or profiles cross themselves.
#[derive(Clone, Default)]
pub struct Shape {
    pub surface: Surface,
    pub crossed: usize,
    /// Whether a boolean operation made it, so that flat pieces can be joined.
    pub cut: bool,
    pub beyond: Beyond,
}

/// Mapped shapes that were made, for all threads.
#[derive(Default)]
pub struct Mapped {
    kept: Mutex<Kept>,
}

#[derive(Default)]
struct Kept {
    shapes: HashMap<u64, Arc<Result<Shape>>>,
    polygons: usize,
}

impl Mapped {
    pub fn get(&self, map: u64) -> Option<Arc<Result<Shape>>> {
        let kept = self.kept.lock().ok()?;
        kept.shapes.get(&map).cloned()
    }

    pub fn keep(&self, map: u64, shape: &Arc<Result<Shape>>) {
        let size = shape.as_ref().as_ref().map_or(0, |made| made.surface.len());
        if let Ok(mut kept) = self.kept.lock() {
            let room = kept.polygons + size <= KEPT_POLYGONS;
            if room && kept.shapes.insert(map, shape.clone()).is_none() {
                kept.polygons += size;
            }
        }
    }
}

/// Makes shapes of a file's representation items. Each thread has its own.
pub struct Shaper<'a> {
    pub file: &'a File,
    pub tree: &'a Tree,
    pub units: Units,
    /// How far a chord may lie from its arc, in millimetres.
    pub chord: f64,
    pub work: Work,
    pub(crate) placements: HashMap<u64, Frame>,
    pub(crate) open_maps: Vec<u64>,
    mapped: &'a Mapped,
    depth: usize,
}

impl<'a> Shaper<'a> {
    pub fn new(
        file: &'a File,
        tree: &'a Tree,
        units: Units,
        chord: f64,
        mapped: &'a Mapped,
    ) -> Self {
        Shaper {
            file,
            tree,
            units,
            chord,
            work: Work { left: MOST_WORK },
            placements: HashMap::new(),
            open_maps: Vec::new(),
            mapped,
            depth: 0,
        }
    }

    pub(crate) fn mapped(&self) -> &'a Mapped {
        self.mapped
    }

    /// Begins a new element: the work of the one before doesn't count.
    pub fn begin(&mut self) {
        self.work.left = MOST_WORK;
        self.depth = 0;
        self.open_maps.clear();
    }

    /// One step down into a shape within a shape.
    pub(crate) fn nested<T>(&mut self, step: impl FnOnce(&mut Self) -> Result<T>) -> Result<T> {
        if self.depth >= MOST_DEPTH {
            return fail("shapes that never end");
        }
        self.work.spend(300)?;
        self.depth += 1;
        let result = step(self);
        self.depth -= 1;
        result
    }

    pub(crate) fn arguments(&mut self, id: u64) -> Result<Arguments<'a>> {
        self.work.spend(60)?;
        self.file.arguments(id)
    }

    pub(crate) fn keyword(&self, id: u64) -> &'a str {
        self.file.keyword(id)
    }

    pub(crate) fn check_size(&self, surface: &Surface) -> Result<()> {
        if surface.len() > MOST_POLYGONS {
            return fail("more polygons than an element may have");
        }
        Ok(())
    }

    /// A length in millimetres.
    pub(crate) fn length(&self, value: &Value<'_>) -> Result<f64> {
        Ok(value.number()? * self.units.millimetres)
    }

    /// A length in millimetres, or nothing where there is none.
    pub(crate) fn length_or(
        &self,
        values: &Arguments<'_>,
        place: usize,
        other: f64,
    ) -> Result<f64> {
        if values.has(place) {
            self.length(values.get(place))
        } else {
            Ok(other)
        }
    }

    pub(crate) fn length_at(&self, values: &Arguments<'_>, place: usize) -> Result<f64> {
        self.length(values.get(place))
    }

    /// Into how many chords an arc is cut.
    pub(crate) fn chords(&self, radius: f64, angle: f64) -> usize {
        let step = if radius > self.chord {
            arc_cosine(1.0 - self.chord / radius) * 2.0
        } else {
            PI / 4.0
        };
        let count = (angle.abs() / step.min(PI / 6.0) - 1e-9).ceil();
        (count as usize).clamp(1, 128)
    }

    pub(crate) fn point(&mut self, id: u64) -> Result<Point3> {
        self.work.spend(1)?;
        let [x, y, z] = self.file.coordinates(id)?;
        Ok(Point3::new(x, y, z) * self.units.millimetres)
    }

    pub(crate) fn direction(&mut self, id: u64) -> Result<Point3> {
        self.work.spend(1)?;
        let [x, y, z] = self.file.coordinates(id)?;
        Ok(Point3::new(x, y, z))
    }

    /// The points of a list of points.
    pub(crate) fn points(&mut self, id: u64) -> Result<Vec<Point3>> {
        let rows = self.file.rows(id)?;
        self.work.spend(rows.len())?;
        let scale = self.units.millimetres;
        Ok(rows
            .into_iter()
            .map(|[x, y, z]| Point3::new(x, y, z) * scale)
            .collect())
    }

    pub(crate) fn unknown<T>(&self, id: u64) -> Result<T> {
        let keyword = self.keyword(id);
        let reason = if keyword.is_empty() {
            "an instance of several entities, or none".to_string()
        } else {
            format!("{keyword} isn't read")
        };
        Err(Fault::new(reason).at(id))
    }
}
