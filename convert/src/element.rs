//! One element: its shape with openings cut, on the grid, as text.

use crate::as_it_is::Beyond;
use crate::booleans::{difference, outside_out, union};
use crate::fault::{fail, Fault, Result};
use crate::grid::{to_grid, Counts, Gridded};
use crate::merge::merge;
use crate::part21::Arguments;
use crate::schema::Classes;
use crate::shaper::{Shape, Shaper};
use crate::vector::{volume, Bounds, Frame, Surface};
use std::collections::BTreeMap;

/// What the report says of an element.
#[derive(Clone, Debug, PartialEq)]
pub struct Note {
    pub kind: NoteKind,
    /// The element's instance, and the one where the reason lies.
    pub element: u64,
    pub at: u64,
    pub reason: String,
}

#[derive(Clone, Copy, Debug, PartialEq)]
pub enum NoteKind {
    /// The element isn't written.
    LeftOut,
    /// It is written without a part of it, or an opening isn't cut.
    Partly,
    /// It is written, and something of it is in doubt.
    Doubt,
}

/// What one element became.
#[derive(Default)]
pub struct Outcome {
    pub element: u64,
    pub body: Option<Body>,
    pub notes: Vec<Note>,
    /// Items by keyword.
    pub items: BTreeMap<String, usize>,
    pub openings_cut: usize,
    pub openings_left: usize,
    /// Projections that were added.
    pub projections: usize,
    /// Whether its parts have the shapes.
    pub whole: bool,
    pub beyond: Beyond,
}

/// An element's body as it is written.
pub struct Body {
    pub points: Vec<u8>,
    pub triangles: Vec<u8>,
    pub point_count: usize,
    pub triangle_count: usize,
    pub memberships: u64,
    pub counts: Counts,
    /// The box in millimetres and the volume in cubic millimetres.
    pub bounds: Bounds,
    pub volume: f64,
}

/// What all elements share.
pub struct Setting<'a> {
    pub classes: &'a Classes,
    /// To the shared origin.
    pub frame: Frame,
    /// Grid numbers of a millimetre: 1 or 10.
    pub per_millimetre: i32,
}

/// The items of an element's body, each with the context of its representation.
struct BodyItems {
    items: Vec<(u64, u64)>,
    /// Whether a representation other than `Body` was taken.
    other: bool,
}

impl<'a> Shaper<'a> {
    /// Converts an element.
    pub fn convert(&mut self, id: u64, setting: &Setting<'_>) -> Outcome {
        self.begin();
        let mut outcome = Outcome {
            element: id,
            ..Outcome::default()
        };
        match self.cut_shape(id, setting, &mut outcome) {
            Ok(Some(surface)) => {
                match to_grid(&surface, &setting.frame, f64::from(setting.per_millimetre)) {
                    Ok(gridded) => outcome.body = Some(Body::of(&gridded, setting, &surface)),
                    Err(fault) => outcome.note(NoteKind::LeftOut, fault),
                }
            }
            Ok(None) => {}
            Err(fault) => outcome.note(NoteKind::LeftOut, fault),
        }
        outcome
    }

    /// The first shape of an element in the file's coordinates, by which an origin is chosen.
    pub fn first_bounds(&mut self, id: u64) -> Option<Bounds> {
        self.begin();
        let mut outcome = Outcome::default();
        let shape = self.own_shape(id, &mut outcome).ok()??;
        let bounds = Bounds::of_surface(&shape.surface);
        bounds.diagonal().is_finite().then_some(bounds)
    }

    /// The surface of an element with its openings cut; none where there is nothing to write.
    fn cut_shape(
        &mut self,
        id: u64,
        setting: &Setting<'_>,
        outcome: &mut Outcome,
    ) -> Result<Option<Surface>> {
        let mut shape = match self.own_shape(id, outcome)? {
            Some(shape) => shape,
            None => return Ok(None),
        };
        let tree = self.tree;
        for opening in tree.openings_of(self.file, setting.classes, id) {
            self.cut_opening(opening, &mut shape, outcome);
        }
        for &addition in tree.additions_of(id) {
            self.add(addition, &mut shape, outcome);
        }
        if shape.crossed > 0 {
            let reason = format!(
                "{} faces or profiles cross themselves: cut all the same",
                shape.crossed
            );
            outcome.note(NoteKind::Doubt, Fault::new(reason).at(id));
        }
        if shape.surface.is_empty() {
            return fail("nothing of its shape is left");
        }
        let mut surface = shape.surface;
        if shape.cut {
            surface = merge(surface, &mut self.work);
        }
        Ok(Some(surface))
    }

    /// The shape of an element's body, placed; none where its parts have the shapes. Items that can't be read are noted.
    fn own_shape(&mut self, id: u64, outcome: &mut Outcome) -> Result<Option<Shape>> {
        let values = self.file.arguments(id)?;
        if values.len() < 7 {
            return fail("it has too few attributes");
        }
        let body = self.body_items(&values)?;
        if body.items.is_empty() {
            if self.tree.is_whole(id) {
                outcome.whole = true;
                return Ok(None);
            }
            return fail("it has no shape: no representation Body");
        }
        if body.other {
            let reason = "it has no representation Body: another one is taken";
            outcome.note(NoteKind::Doubt, Fault::new(reason).at(id));
        }
        let shape = self.placed_items(&values, &body, outcome)?;
        if shape.surface.is_empty() {
            return Err(outcome.last_reason("it has a shape without faces"));
        }
        outcome.beyond = shape.beyond;
        outcome.beyond.items |= body.other;
        Ok(Some(shape))
    }

    fn placed_items(
        &mut self,
        values: &Arguments<'a>,
        body: &BodyItems,
        outcome: &mut Outcome,
    ) -> Result<Shape> {
        let placement = self.placement(values.reference(5))?;
        let mut all = Shape::default();
        let mut worlds: BTreeMap<u64, Frame> = BTreeMap::new();
        for &(item, context) in &body.items {
            let keyword = self.file.keyword(item);
            *outcome.items.entry(keyword.to_string()).or_default() += 1;
            let mut shape = Shape::default();
            if let Err(fault) = self.item(item, &mut shape) {
                let reason = format!("an item is left out: {}", fault.reason);
                let at = fault.instance;
                outcome.note(NoteKind::Partly, Fault::new(reason).at(at));
                continue;
            }
            let world = match worlds.get(&context) {
                Some(world) => *world,
                None => {
                    let world = self.world_of(context)?;
                    worlds.insert(context, world);
                    world
                }
            };
            let frame = world.then(&placement);
            if frame == Frame::IDENTITY {
                all.surface.append(&mut shape.surface);
            } else {
                all.surface.append(&mut frame.place(&shape.surface));
            }
            all.beyond.add(shape.beyond);
            all.beyond.placed |= world != Frame::IDENTITY || !placement.is_by_quarter_turns();
            all.crossed += shape.crossed;
            all.cut |= shape.cut;
        }
        Ok(all)
    }

    /// The items of the best representation: Body, else a tessellation, else one without a name.
    fn body_items(&mut self, values: &Arguments<'a>) -> Result<BodyItems> {
        let mut found = BodyItems {
            items: Vec::new(),
            other: false,
        };
        if values.reference(6) == 0 {
            return Ok(found);
        }
        let mut best = 0;
        let shape = self.file.arguments(values.reference(6))?;
        for representation in shape.references(2) {
            let parts = self.file.arguments(representation)?;
            let rank = match parts.get(1).text() {
                Some(b"'Body'") => 3,
                Some(b"'Facetation'") | Some(b"'Tessellation'") => 2,
                None | Some(b"''") => 1,
                _ => 0,
            };
            if rank > best {
                best = rank;
                found.items.clear();
            }
            if rank > 0 && rank == best {
                let context = parts.reference(0);
                found
                    .items
                    .extend(parts.references(3).map(|item| (item, context)));
            }
        }
        found.other = best < 3;
        Ok(found)
    }

    /// Cuts an opening, where the volumes before and after agree with it.
    fn cut_opening(&mut self, opening: u64, shape: &mut Shape, outcome: &mut Outcome) {
        match self.without(opening, shape, outcome) {
            Ok(surface) => {
                shape.surface = surface;
                shape.cut = true;
                outcome.openings_cut += 1;
            }
            Err(fault) => {
                outcome.openings_left += 1;
                let reason = format!("an opening isn't cut: {}", fault.reason);
                outcome.note(NoteKind::Partly, Fault::new(reason).at(opening));
            }
        }
    }

    fn feature(&mut self, id: u64, outcome: &mut Outcome) -> Result<Surface> {
        let values = self.file.arguments(id)?;
        let body = self.body_items(&values)?;
        if body.items.is_empty() {
            return fail("it has no shape");
        }
        let before = outcome.items.clone();
        let shape = self.placed_items(&values, &body, outcome)?;
        outcome.items = before;
        if shape.surface.is_empty() {
            return Err(outcome.last_reason("it has a shape without faces"));
        }
        Ok(outside_out(shape.surface))
    }

    fn without(&mut self, opening: u64, shape: &Shape, outcome: &mut Outcome) -> Result<Surface> {
        let hole = self.feature(opening, outcome)?;
        let own = outside_out(shape.surface.clone());
        let cut = difference(&own, &hole, &mut self.work)?;
        let (before, after) = (volume(&own), volume(&cut));
        let taken = volume(&hole);
        if after > before * (1.0 + 1e-6) + 1.0 || after < before - taken * (1.0 + 1e-6) - 1.0 {
            return fail("the volume doesn't add up, so the shape isn't closed");
        }
        Ok(cut)
    }

    fn add(&mut self, addition: u64, shape: &mut Shape, outcome: &mut Outcome) {
        let made = self.feature(addition, outcome).and_then(|more| {
            let own = outside_out(std::mem::take(&mut shape.surface));
            match union(&own, &more, &mut self.work) {
                Ok(surface) => Ok(surface),
                Err(fault) => {
                    shape.surface = own;
                    Err(fault)
                }
            }
        });
        match made {
            Ok(surface) => {
                shape.surface = surface;
                shape.cut = true;
                outcome.projections += 1;
            }
            Err(fault) => {
                let reason = format!("a projection isn't added: {}", fault.reason);
                outcome.note(NoteKind::Partly, Fault::new(reason).at(addition));
            }
        }
    }
}

impl Outcome {
    pub fn note(&mut self, kind: NoteKind, fault: Fault) {
        let note = Note {
            kind,
            element: self.element,
            at: fault.instance,
            reason: fault.reason,
        };
        if !self.notes.contains(&note) {
            self.notes.push(note);
        }
    }

    /// The reason of the last note as a fault, or other words where there is none.
    fn last_reason(&mut self, other: &str) -> Fault {
        match self
            .notes
            .iter()
            .rposition(|note| note.kind == NoteKind::Partly)
        {
            Some(place) => {
                let note = self.notes.remove(place);
                Fault::new(note.reason).at(note.at)
            }
            None => Fault::new(other),
        }
    }
}

impl Body {
    fn of(gridded: &Gridded, setting: &Setting<'_>, surface: &Surface) -> Body {
        Body {
            points: points_text(gridded, setting.per_millimetre),
            triangles: triangles_text(gridded),
            point_count: gridded.points.len(),
            triangle_count: gridded.triangles.len(),
            memberships: gridded.memberships(setting.per_millimetre),
            counts: gridded.counts,
            bounds: gridded.millimetres(f64::from(setting.per_millimetre)),
            volume: volume(surface),
        }
    }
}

fn points_text(gridded: &Gridded, per_millimetre: i32) -> Vec<u8> {
    let mut text = Vec::with_capacity(gridded.points.len() * 20);
    for (k, &(x, y, z)) in gridded.points.iter().enumerate() {
        text.extend_from_slice(if k == 0 { b"(" } else { b",(" });
        for (n, number) in [x, y, z].into_iter().enumerate() {
            if n > 0 {
                text.push(b',');
            }
            push_length(number, per_millimetre, &mut text);
        }
        text.push(b')');
    }
    text
}

/// A grid number in millimetres.
fn push_length(number: i32, per_millimetre: i32, text: &mut Vec<u8>) {
    if number < 0 {
        text.push(b'-');
    }
    let size = number.unsigned_abs();
    let per = per_millimetre.unsigned_abs();
    push_number(size / per, text);
    text.push(b'.');
    if size % per != 0 {
        push_number(size % per, text);
    }
}

fn push_number(number: u32, text: &mut Vec<u8>) {
    let mut digits = [0_u8; 10];
    let mut at = digits.len();
    let mut rest = number;
    loop {
        at -= 1;
        digits[at] = b'0' + (rest % 10) as u8;
        rest /= 10;
        if rest == 0 {
            break;
        }
    }
    text.extend_from_slice(&digits[at..]);
}

fn triangles_text(gridded: &Gridded) -> Vec<u8> {
    let mut text = Vec::with_capacity(gridded.triangles.len() * 12);
    for (k, triangle) in gridded.triangles.iter().enumerate() {
        text.extend_from_slice(if k == 0 { b"(" } else { b",(" });
        for (n, place) in triangle.iter().enumerate() {
            if n > 0 {
                text.push(b',');
            }
            push_number(place + 1, &mut text);
        }
        text.push(b')');
    }
    text
}

#[cfg(test)]
mod tests {
    use super::*;

    #[test]
    fn lengths_as_text() {
        let text = |number, per| {
            let mut text = Vec::new();
            push_length(number, per, &mut text);
            String::from_utf8(text).unwrap()
        };
        assert_eq!(text(-1205, 1), "-1205.");
        assert_eq!(text(-5, 10), "-0.5");
        assert_eq!(text(120, 10), "12.");
        assert_eq!(text(0, 10), "0.");
        assert_eq!(text(1_000_001, 10), "100000.1");
    }
}
