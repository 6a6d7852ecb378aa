//! The report, as JSON (RFC 8259).

use crate::element::{Note, NoteKind};
use crate::grid::Counts;
use crate::origin::{Conversion, Origin};
use crate::pack::Written;
use crate::part21::File;
use crate::units::Units;
use std::collections::BTreeMap;

/// What was converted, and what wasn't.
#[derive(Default)]
pub struct Report {
    pub elements: usize,
    pub triangles: u64,
    pub points: u64,
    pub memberships: u64,
    pub without_storey: usize,
    /// Elements of items that the server doesn't read, and elements that are placed as it doesn't read.
    pub of_other_items: usize,
    pub placed_otherwise: usize,
    pub projections: usize,
    pub openings_cut: usize,
    pub openings_left: usize,
    pub counts: Counts,
    /// Elements and triangles of each class that is written.
    pub classes: BTreeMap<&'static str, (u64, u64)>,
    /// Elements that are written as another class than their own.
    pub renamed: BTreeMap<String, u64>,
    /// What has a shape but is no element, and wholes whose parts have the shapes.
    pub no_elements: BTreeMap<String, u64>,
    pub items: BTreeMap<String, u64>,
    pub notes: Vec<Note>,
    /// What is in doubt of the whole file.
    pub doubts: Vec<String>,
}

/// What the report says beside the counts.
pub struct Facts<'a> {
    pub file: &'a File,
    pub units: Units,
    pub origin: &'a Origin,
    pub conversion: Option<&'a Conversion>,
    pub storeys: usize,
    pub per_millimetre: i32,
    pub files: &'a [Written],
    /// Why the server doesn't take the file that was read as it is.
    pub why_not_as_it_is: Vec<String>,
}

impl Report {
    fn of_kind(&self, kind: NoteKind) -> impl Iterator<Item = &Note> {
        self.notes.iter().filter(move |note| note.kind == kind)
    }

    pub fn left_out(&self) -> usize {
        self.of_kind(NoteKind::LeftOut).count()
    }

    /// How many elements are written without a part of them.
    pub fn partly(&self) -> usize {
        let mut elements: Vec<u64> = self
            .of_kind(NoteKind::Partly)
            .map(|note| note.element)
            .collect();
        elements.sort_unstable();
        elements.dedup();
        elements.len()
    }

    /// Whether nothing was left out and nothing is in doubt.
    pub fn is_whole(&self) -> bool {
        self.notes.is_empty() && self.doubts.is_empty()
    }

    pub fn json(&self, facts: &Facts<'_>) -> String {
        let mut out = Json::default();
        out.open("");
        out.text("schema", &facts.file.schema);
        out.whole("bytes", facts.file.size() as u64);
        out.whole("instances", facts.file.count() as u64);
        out.whole("instances_twice", facts.file.doubled as u64);
        self.write_counts(facts, &mut out);
        self.write_tables(&mut out);
        self.write_rounding(facts, &mut out);
        write_origin(facts, &mut out);
        out.list(
            "why_not_as_it_is",
            &facts.why_not_as_it_is,
            |out, reason| out.item(reason),
        );
        out.list("files", facts.files, |out, written| {
            out.open("");
            let name = written.path.file_name().unwrap_or_default();
            out.text("name", &name.to_string_lossy());
            out.whole("bytes", written.bytes);
            out.whole("elements", written.elements as u64);
            out.whole("triangles", written.triangles);
            out.close();
        });
        self.write_notes("left_out", NoteKind::LeftOut, facts.file, &mut out);
        self.write_notes("partly", NoteKind::Partly, facts.file, &mut out);
        self.write_notes("in_doubt", NoteKind::Doubt, facts.file, &mut out);
        out.list("doubts", &self.doubts, |out, doubt| out.item(doubt));
        out.close();
        out.finish()
    }

    fn write_counts(&self, facts: &Facts<'_>, out: &mut Json) {
        out.whole("elements", self.elements as u64);
        out.whole("triangles", self.triangles);
        out.whole("points", self.points);
        out.whole("storeys", facts.storeys as u64);
        out.whole("without_storey", self.without_storey as u64);
        out.whole("memberships", self.memberships);
        out.whole("openings_cut", self.openings_cut as u64);
        out.whole("openings_left", self.openings_left as u64);
        out.whole("closed", self.counts.closed);
        out.whole("open", self.counts.open);
    }

    fn write_tables(&self, out: &mut Json) {
        out.object("classes");
        for (class, (elements, triangles)) in &self.classes {
            out.object(class);
            out.whole("elements", *elements);
            out.whole("triangles", *triangles);
            out.close();
        }
        out.close();
        for (name, table) in [
            ("written_as", &self.renamed),
            ("no_elements", &self.no_elements),
            ("items", &self.items),
        ] {
            out.object(name);
            table
                .iter()
                .for_each(|(word, count)| out.whole(word, *count));
            out.close();
        }
    }

    fn write_rounding(&self, facts: &Facts<'_>, out: &mut Json) {
        let counts = &self.counts;
        let mean = if counts.corners > 0 {
            counts.way / counts.corners as f64
        } else {
            0.0
        };
        out.object("rounding");
        out.number("grid_mm", 1.0 / f64::from(facts.per_millimetre));
        out.number("greatest_mm", millionths(counts.farthest));
        out.number("mean_mm", millionths(mean));
        out.whole("corners", counts.corners);
        out.whole("triangles_shrunk", counts.shrunk);
        out.whole("triangles_twice", counts.repeated);
        out.whole("flat_left_out", counts.flat_left_out);
        out.whole("flat_kept", counts.flat_kept);
        out.whole("elements_thinner_than_the_grid", counts.thin);
        out.close();
    }

    fn write_notes(&self, name: &str, kind: NoteKind, file: &File, out: &mut Json) {
        let notes: Vec<&Note> = self.of_kind(kind).collect();
        out.list(name, &notes, |out, note| {
            out.open("");
            out.whole("instance", note.element);
            out.text("class", file.keyword(note.element));
            let values = file.arguments(note.element).ok();
            let guid = values.and_then(|values| values.get(0).text());
            out.text("guid", &plain(guid.unwrap_or(b"")));
            let at = if note.at == 0 { note.element } else { note.at };
            out.whole("at", at);
            if let Some(byte) = file.place(at) {
                out.whole("byte", byte as u64);
            }
            out.text("reason", &note.reason);
            out.close();
        });
    }
}

fn write_origin(facts: &Facts<'_>, out: &mut Json) {
    out.object("units");
    out.number("length_mm", facts.units.millimetres);
    out.number("angle_rad", facts.units.radians);
    out.close();
    let frame = &facts.origin.frame;
    out.object("origin");
    out.number("easting_mm", frame.origin.x);
    out.number("northing_mm", frame.origin.y);
    out.number("height_mm", frame.origin.z);
    out.number("x_east", frame.x.x);
    out.number("x_north", frame.x.y);
    out.close();
    if let Some(conversion) = facts.conversion {
        out.number("map_scale", conversion.scale);
    }
}

fn millionths(number: f64) -> f64 {
    (number * 1e6).round() / 1e6
}

fn plain(spelled: &[u8]) -> String {
    let text = String::from_utf8_lossy(spelled);
    text.trim_matches('\'').to_string()
}

/// A writer of JSON, one member a line.
#[derive(Default)]
struct Json {
    text: String,
    first: Vec<bool>,
}

impl Json {
    fn begin(&mut self) {
        if let Some(first) = self.first.last_mut() {
            if !*first {
                self.text.push(',');
            }
            *first = false;
            self.text.push('\n');
            self.text.push_str(&" ".repeat(self.first.len()));
        }
    }

    fn quote(&mut self, words: &str) {
        self.text.push('"');
        for letter in words.chars() {
            match letter {
                '"' | '\\' => {
                    self.text.push('\\');
                    self.text.push(letter);
                }
                ' '..='~' => self.text.push(letter),
                _ => {
                    let mut units = [0; 2];
                    for unit in letter.encode_utf16(&mut units) {
                        self.text.push_str(&format!("\\u{unit:04x}"));
                    }
                }
            }
        }
        self.text.push('"');
    }

    fn name(&mut self, name: &str) {
        self.begin();
        if !name.is_empty() {
            self.quote(name);
            self.text.push_str(": ");
        }
    }

    fn open(&mut self, name: &str) {
        self.name(name);
        self.text.push('{');
        self.first.push(true);
    }

    fn object(&mut self, name: &str) {
        self.open(name);
    }

    fn end(&mut self, mark: char) {
        let empty = self.first.pop().unwrap_or(true);
        if !empty {
            self.text.push('\n');
            self.text.push_str(&" ".repeat(self.first.len()));
        }
        self.text.push(mark);
    }

    fn close(&mut self) {
        self.end('}');
    }

    fn whole(&mut self, name: &str, number: u64) {
        self.name(name);
        self.text.push_str(&number.to_string());
    }

    fn number(&mut self, name: &str, number: f64) {
        self.name(name);
        let number = if number.is_finite() { number } else { 0.0 };
        self.text.push_str(&number.to_string());
    }

    fn text(&mut self, name: &str, words: &str) {
        self.name(name);
        self.quote(words);
    }

    fn item(&mut self, words: &str) {
        self.begin();
        self.quote(words);
    }

    fn list<T>(&mut self, name: &str, items: &[T], mut write: impl FnMut(&mut Json, &T)) {
        self.name(name);
        self.text.push('[');
        self.first.push(true);
        items.iter().for_each(|item| write(self, item));
        self.end(']');
    }

    fn finish(mut self) -> String {
        self.text.push('\n');
        self.text
    }
}

#[cfg(test)]
mod tests {
    use super::*;

    #[test]
    fn json_is_escaped() {
        let mut out = Json::default();
        out.open("");
        out.text("a\"b", "ü\n𝄞");
        out.object("empty");
        out.close();
        out.list("list", &["x", "y"], |out, word| out.item(word));
        out.close();
        let wanted = "{\n \"a\\\"b\": \"\\u00fc\\u000a\\ud834\\udd1e\",\n \"empty\": {},\n \"list\": [\n  \"x\",\n  \"y\"\n ]\n}\n";
        assert_eq!(out.finish(), wanted);
    }
}
