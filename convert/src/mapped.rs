//! Mapped items: a shape that is made once and placed many times, also scaled and mirrored.

use crate::fault::{fail, Result};
use crate::part21::Arguments;
use crate::shaper::{Shape, Shaper, MOST_WORK};
use crate::vector::Frame;
use std::sync::Arc;

/// How deep mapped shapes may lie within one another.
const MOST_MAPS: usize = 48;

impl<'a> Shaper<'a> {
    pub(crate) fn mapped_item(&mut self, values: &Arguments<'a>, out: &mut Shape) -> Result<()> {
        let source = self.map_source(values.reference(0))?;
        let shape = source.as_ref().as_ref().map_err(Clone::clone)?;
        let frame = self.operator(values.reference(1))?;
        self.work.spend(shape.surface.len())?;
        out.surface.append(&mut frame.place(&shape.surface));
        out.crossed += shape.crossed;
        out.beyond.add(shape.beyond);
        out.beyond.placed |= !frame.is_by_quarter_turns();
        out.cut |= shape.cut;
        self.check_size(&out.surface)
    }

    /// The shape of a representation map: kept, or made. It has a measure of work of its own, so that what comes out
    /// doesn't hang on who asks first.
    fn map_source(&mut self, map: u64) -> Result<Arc<Result<Shape>>> {
        if let Some(kept) = self.mapped().get(map) {
            return Ok(kept);
        }
        if self.open_maps.contains(&map) || self.open_maps.len() >= MOST_MAPS {
            return fail("mapped shapes that never end");
        }
        self.open_maps.push(map);
        let before = std::mem::replace(&mut self.work.left, MOST_WORK);
        let made = self.nested(|shaper| shaper.make_map(map));
        self.work.left = before;
        self.open_maps.pop();
        let made = Arc::new(made);
        // A fault may hang on the shapes around this one, a shape doesn't.
        if self.open_maps.is_empty() || made.is_ok() {
            self.mapped().keep(map, &made);
        }
        Ok(made)
    }

    fn make_map(&mut self, map: u64) -> Result<Shape> {
        let values = self.arguments(map)?;
        let origin = self.axes(values.reference(0))?;
        let representation = self.arguments(values.reference(1))?;
        let mut shape = Shape::default();
        for item in representation.references(3) {
            self.item(item, &mut shape)?;
            shape.beyond.items |= self.keyword(item) == "IFCMAPPEDITEM";
        }
        shape.beyond.placed |= origin != Frame::IDENTITY;
        // The standard says the inverse of the origin. Readers in use place by the origin itself, and real files have
        // the identity.
        shape.surface = origin.place(&shape.surface);
        Ok(shape)
    }
}
