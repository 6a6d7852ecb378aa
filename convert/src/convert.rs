//! The whole way of a file: read, elements, files, report.

use crate::as_it_is::reasons;
use crate::element::{Body, Note, NoteKind, Outcome, Setting};
use crate::fault::Fault;
use crate::jobs::in_order;
use crate::options::Options;
use crate::origin::{Conversion, Origin};
use crate::pack::{Label, Limits, Pack, Source};
use crate::part21::File;
use crate::progress::Progress;
use crate::report::{Facts, Report};
use crate::schema::{is_read, Classes};
use crate::shaper::{Mapped, Shaper};
use crate::texts::{is_guid, made_guid, name_of};
use crate::tree::Tree;
use crate::units::{of_project, Units};
use crate::vector::Frame;
use std::collections::HashSet;
use std::fs;
use std::panic::{catch_unwind, AssertUnwindSafe};
use std::path::Path;

/// How a conversion ended that didn't write a model.
#[derive(Debug)]
pub enum Failure {
    /// The file can't be read, or has nothing to write.
    NotRead(String),
    /// The output can't be written.
    NotWritten(String),
}

/// The most elements and memberships that the server takes in a version.
const MOST_ELEMENTS: usize = 100_000;
const MOST_MEMBERSHIPS: u64 = 2_000_000;

fn not_written(path: &Path, error: &std::io::Error) -> Failure {
    Failure::NotWritten(format!("{} can't be written: {error}", path.display()))
}

/// Converts as the options say. Gives the report.
pub fn convert(options: &Options) -> Result<Report, Failure> {
    let file = read(&options.input)?;
    let classes = Classes::default();
    let tree = Tree::of(&file, &classes);
    let mut conversion = Conversions::new(options, &file, &classes, &tree);
    conversion.look_at_project();
    conversion.choose_origin()?;
    conversion.convert_elements()?;
    conversion.finish()
}

fn read(path: &Path) -> Result<File, Failure> {
    let wrong = |reason: String| Failure::NotRead(format!("{}: {reason}", path.display()));
    let bytes = fs::read(path).map_err(|error| wrong(format!("can't be read: {error}")))?;
    let file = File::read(bytes).map_err(|fault| wrong(fault.reason))?;
    if !is_read(&file.schema) {
        let schema = if file.schema.is_empty() {
            "none"
        } else {
            &file.schema
        };
        return Err(wrong(format!(
            "its schema is {schema}: export it as IFC2X3, IFC4 or IFC4X3"
        )));
    }
    Ok(file)
}

/// A conversion on its way.
struct Conversions<'a> {
    options: &'a Options,
    file: &'a File,
    classes: &'a Classes,
    tree: &'a Tree,
    units: Units,
    mapped: Mapped,
    map: Option<Conversion>,
    origin: Origin,
    frame: Frame,
    report: Report,
    boxes: String,
    pack: Option<Pack>,
}

impl<'a> Conversions<'a> {
    fn new(options: &'a Options, file: &'a File, classes: &'a Classes, tree: &'a Tree) -> Self {
        Conversions {
            options,
            file,
            classes,
            tree,
            units: Units::default(),
            mapped: Mapped::default(),
            map: None,
            origin: Origin::of_first(None, None),
            frame: Frame::IDENTITY,
            report: Report::default(),
            boxes: String::new(),
            pack: None,
        }
    }

    fn doubt(&mut self, words: impl Into<String>) {
        self.report.doubts.push(words.into());
    }

    fn look_at_project(&mut self) {
        match of_project(self.file, self.tree.project) {
            Ok((units, doubt)) => {
                self.units = units;
                self.report.doubts.extend(doubt);
            }
            Err(fault) => self.doubt(format!(
                "the project's units can't be read, metres are taken: {fault}"
            )),
        }
        for fault in &self.tree.faults {
            let doubt = format!("a relation can't be read: {fault}");
            self.report.doubts.push(doubt);
        }
        if self.file.doubled > 0 {
            let doubled = self.file.doubled;
            self.doubt(format!(
                "{doubled} instances have the number of another one: the first counts"
            ));
        }
        for &id in &self.tree.conversions {
            match Conversion::of(self.file, id, &self.units) {
                Ok(conversion) if self.map.is_none() => self.map = Some(conversion),
                Ok(_) => self.doubt("the file has several map conversions: the first is taken"),
                Err(fault) => {
                    self.doubt(format!("the map conversion #{id} can't be read: {fault}"))
                }
            }
        }
        let scale = self.map.map_or(1.0, |map| map.scale);
        if (scale - 1.0).abs() > 1e-9 {
            self.doubt(format!(
                "the map's scale {scale} isn't applied: lengths stay those of the building"
            ));
        }
        for (keyword, count) in &self.tree.skipped {
            self.report
                .no_elements
                .insert(keyword.clone(), *count as u64);
        }
    }

    fn shaper(&self) -> Shaper<'_> {
        Shaper::new(
            self.file,
            self.tree,
            self.units,
            self.options.chord,
            &self.mapped,
        )
    }

    /// The origin of the origin file; without one the file's own coordinates, moved where they are far from zero.
    fn choose_origin(&mut self) -> Result<(), Failure> {
        if let Some(path) = &self.options.origin_file {
            if path.exists() {
                let wrong =
                    |reason: String| Failure::NotRead(format!("{}: {reason}", path.display()));
                let text = fs::read_to_string(path).map_err(|error| wrong(error.to_string()))?;
                self.origin = Origin::read(&text).map_err(|fault| wrong(fault.reason))?;
                self.frame = self.origin.from_file(self.map.as_ref());
                return Ok(());
            }
        }
        let bounds = match self.map {
            Some(_) => None,
            None => {
                let mut shaper = self.shaper();
                let mut elements = self.tree.elements.iter();
                elements.find_map(|&id| shaper.first_bounds(id))
            }
        };
        self.origin = Origin::of_first(self.map.as_ref(), bounds.as_ref());
        self.frame = self.origin.from_file(self.map.as_ref());
        let moved = self.origin.frame.origin;
        if self.map.is_none() && self.frame != Frame::IDENTITY {
            self.doubt(format!(
                "coordinates are far from zero: moved by {}, {}, {} mm; give all trades the same --origin-file",
                moved.x, moved.y, moved.z
            ));
        }
        if let Some(path) = &self.options.origin_file {
            fs::write(path, self.origin.words()).map_err(|error| not_written(path, &error))?;
        }
        Ok(())
    }

    fn convert_elements(&mut self) -> Result<(), Failure> {
        let options = self.options;
        let limits = Limits {
            bytes: options.most_bytes,
            triangles: options.most_triangles,
            ..Limits::default()
        };
        let pack = Pack::new(&options.output, limits);
        self.pack = Some(pack.map_err(|error| not_written(&options.output, &error))?);
        let (file, tree, units) = (self.file, self.tree, self.units);
        let mapped = std::mem::take(&mut self.mapped);
        let setting = Setting {
            classes: self.classes,
            frame: self.frame,
            per_millimetre: options.per_millimetre,
        };
        let worker = || {
            let mut shaper = Shaper::new(file, tree, units, options.chord, &mapped);
            let setting = &setting;
            move |place: usize| {
                let id = tree.elements[place];
                let convert = AssertUnwindSafe(|| shaper.convert(id, setting));
                catch_unwind(convert).unwrap_or_else(|_| broken(id))
            }
        };
        let mut progress = Progress::new(tree.elements.len());
        let mut seen = HashSet::new();
        let mut failed = None;
        let started = in_order(
            tree.elements.len(),
            options.jobs,
            worker,
            |place, outcome| {
                if failed.is_none() {
                    failed = self.take(outcome, &mut seen).err();
                }
                progress.step(place + 1);
            },
        );
        progress.end();
        let failed = started.err().or(failed);
        match failed {
            Some(error) => Err(not_written(&options.output, &error)),
            None => Ok(()),
        }
    }

    fn take(&mut self, outcome: Outcome, seen: &mut HashSet<Vec<u8>>) -> std::io::Result<()> {
        let report = &mut self.report;
        for (keyword, count) in outcome.items {
            *report.items.entry(keyword).or_default() += count as u64;
        }
        report.of_other_items += usize::from(outcome.beyond.items);
        report.placed_otherwise += usize::from(outcome.beyond.placed);
        report.projections += outcome.projections;
        report.openings_cut += outcome.openings_cut;
        report.openings_left += outcome.openings_left;
        report.notes.extend(outcome.notes);
        let keyword = self.file.keyword(outcome.element);
        if outcome.whole {
            let row = format!("{keyword} whose parts have the shapes");
            *report.no_elements.entry(row).or_default() += 1;
        }
        match outcome.body {
            Some(body) => self.take_body(outcome.element, &body, seen),
            None => Ok(()),
        }
    }

    fn leave_out(&mut self, element: u64, reason: &str) {
        self.note(NoteKind::LeftOut, element, reason);
    }

    fn note(&mut self, kind: NoteKind, element: u64, reason: &str) {
        self.report.notes.push(Note {
            kind,
            element,
            at: element,
            reason: reason.to_string(),
        });
    }

    fn take_body(
        &mut self,
        id: u64,
        body: &Body,
        seen: &mut HashSet<Vec<u8>>,
    ) -> std::io::Result<()> {
        let values = self.file.arguments(id);
        let (guid, name) = match &values {
            Ok(values) => (values.get(0).text(), values.get(2).text()),
            Err(_) => (None, None),
        };
        let guid = match guid {
            Some(guid) if is_guid(guid) => guid.to_vec(),
            other => {
                let reason =
                    "its identifier isn't of 22 letters, digits, _ or $: another one is made";
                self.note(NoteKind::Doubt, id, reason);
                made_guid(&[b"element ", id.to_string().as_bytes(), other.unwrap_or(b"")].concat())
            }
        };
        if !seen.insert(guid.clone()) {
            self.leave_out(id, "its identifier is that of an element before");
            return Ok(());
        }
        let fits = self
            .pack
            .as_ref()
            .map_or(false, |pack| pack.fits_alone(body));
        if !fits {
            self.leave_out(
                id,
                "it alone is beyond the limits of a file: simplify it in the office's program",
            );
            return Ok(());
        }
        let class = self.class_of(id);
        let storey = self.tree.storey_of(self.file, id);
        let label = Label {
            guid: &guid,
            name: &name_of(name),
            class,
            storey,
        };
        if let Some(pack) = &mut self.pack {
            pack.add(&label, body)?;
        }
        self.count(&label, body);
        Ok(())
    }

    /// The class that an element is written as: by its keyword, or in distribution systems by its type.
    fn class_of(&mut self, id: u64) -> &'static str {
        let keyword = self.file.keyword(id);
        let own = self.classes.of(keyword).unwrap_or("BUILDINGELEMENTPROXY");
        let type_keyword = self.file.keyword(self.tree.type_of(id));
        let by_type = self.classes.of_type(own, type_keyword);
        let class = by_type.unwrap_or(own);
        let row = match by_type {
            Some(_) => Some(format!("{keyword} of {type_keyword} as IFC{class}")),
            None if keyword.strip_prefix("IFC") != Some(class) => {
                Some(format!("{keyword} as IFC{class}"))
            }
            None => None,
        };
        if let Some(row) = row {
            *self.report.renamed.entry(row).or_default() += 1;
        }
        class
    }

    fn count(&mut self, label: &Label<'_>, body: &Body) {
        let report = &mut self.report;
        report.elements += 1;
        report.triangles += body.triangle_count as u64;
        report.points += body.point_count as u64;
        report.memberships += body.memberships;
        report.without_storey += usize::from(label.storey == 0);
        report.counts.add(&body.counts);
        let row = report.classes.entry(label.class).or_default();
        row.0 += 1;
        row.1 += body.triangle_count as u64;
        if self.options.boxes.is_some() {
            let (low, high) = (body.bounds.low, body.bounds.high);
            let guid = String::from_utf8_lossy(label.guid);
            self.boxes.push_str(&format!(
                "{} {} {} {} {} {} {} {} {} {:.6} {}\n",
                guid.trim_matches('\''),
                label.class,
                low.x,
                low.y,
                low.z,
                high.x,
                high.y,
                high.z,
                body.triangle_count,
                body.volume / 1e9,
                if body.counts.closed == 1 {
                    "closed"
                } else {
                    "open"
                }
            ));
        }
    }

    fn finish(mut self) -> Result<Report, Failure> {
        let options = self.options;
        let pack = match self.pack.take() {
            Some(pack) => pack,
            None => return Err(Failure::NotRead("nothing was read".to_string())),
        };
        if self.report.elements > MOST_ELEMENTS {
            let count = self.report.elements;
            self.doubt(format!(
                "{count} elements: the server takes {MOST_ELEMENTS} in a version"
            ));
        }
        if self.report.memberships > MOST_MEMBERSHIPS {
            let count = self.report.memberships;
            self.doubt(format!(
                "{count} memberships: the server takes {MOST_MEMBERSHIPS} in a version"
            ));
        }
        let source = Source {
            file: self.file,
            project: self.tree.project,
            storeys: self.tree.storeys.len(),
        };
        let empty = pack.elements() == 0;
        let files = if empty {
            pack.discard().map(|()| Vec::new())
        } else {
            pack.write(&options.output, options.split, &source)
        };
        let files = files.map_err(|error| not_written(&options.output, &error))?;
        if files.len() > 1 {
            let count = files.len();
            self.doubt(format!(
                "the model is beyond the server's limits and split into {count} files: rules between other models see them as such"
            ));
        }
        if let Some(path) = &options.report {
            let moved = self.frame != Frame::IDENTITY;
            let (file, project) = (self.file, self.tree.project);
            let why = reasons(file, project, &self.report, moved, files.len());
            let facts = Facts {
                file: self.file,
                units: self.units,
                origin: &self.origin,
                conversion: self.map.as_ref(),
                storeys: self.tree.storeys.len(),
                per_millimetre: options.per_millimetre,
                files: &files,
                why_not_as_it_is: why,
            };
            let text = self.report.json(&facts);
            fs::write(path, text).map_err(|error| not_written(path, &error))?;
        }
        if let Some(path) = &options.boxes {
            fs::write(path, &self.boxes).map_err(|error| not_written(path, &error))?;
        }
        if empty {
            let reason = match self.report.notes.first() {
                Some(note) => format!("no element could be converted: {}", note.reason),
                None => "the file has no building or distribution element".to_string(),
            };
            return Err(Failure::NotRead(format!(
                "{}: {reason}",
                options.input.display()
            )));
        }
        Ok(self.report)
    }
}

/// The outcome of an element whose conversion failed by a fault of the converter.
fn broken(id: u64) -> Outcome {
    let mut outcome = Outcome {
        element: id,
        ..Outcome::default()
    };
    let fault = Fault::new("the converter failed on it: please report this file");
    outcome.note(NoteKind::LeftOut, fault.at(id));
    outcome
}
