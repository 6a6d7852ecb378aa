//! Why the server doesn't take a file as it is, or takes another building from it, as far as a conversion sees.

use crate::fault::Result;
use crate::part21::File;
use crate::report::Report;
use std::collections::BTreeSet;

/// Millimetres of the two units by conversion that the server reads, and how near to them a factor has to come.
const INCH: f64 = 25.4;
const FOOT: f64 = 304.8;
const NEAR: f64 = 1e-6;

/// Millimetres of a metre, by the prefixes that the server reads.
const METRES: &[(&[u8], f64)] = &[
    (b"KILO", 1e6),
    (b"HECTO", 1e5),
    (b"DECA", 1e4),
    (b"", 1e3),
    (b"DECI", 1e2),
    (b"CENTI", 1e1),
    (b"MILLI", 1.0),
    (b"MICRO", 1e-3),
];

/// A corner that is farther than this off the server's grid, in millimetres, has a length that it refuses in its exact mode:
/// one that is a thousandth of a millimetre off, along one of three axes.
const OFF_GRID: f64 = 0.001_733;

/// What of an element's shape the server doesn't read itself.
#[derive(Clone, Copy, Debug, Default, PartialEq)]
pub struct Beyond {
    /// An item that is no face set, or that isn't in a representation Body.
    pub items: bool,
    /// A placement other than by quarter turns, a scale, the context's coordinate system.
    pub placed: bool,
}

impl Beyond {
    pub fn add(&mut self, other: Beyond) {
        self.items |= other.items;
        self.placed |= other.placed;
    }
}

/// Whether the server reads items of this keyword.
pub fn is_read(keyword: &str) -> bool {
    matches!(
        keyword,
        "IFCTRIANGULATEDFACESET" | "IFCPOLYGONALFACESET" | "IFCMAPPEDITEM"
    )
}

/// Whether the server reads the length unit of a project: there is exactly one, a metre with or without a prefix, an inch
/// or a foot.
fn has_read_unit(file: &File, project: u64) -> Result<bool> {
    let assignment = file.arguments(file.arguments(project)?.reference(8))?;
    let mut lengths = BTreeSet::new();
    for unit in assignment.references(0) {
        let is_followed = matches!(file.keyword(unit), "IFCSIUNIT" | "IFCCONVERSIONBASEDUNIT");
        if is_followed && file.arguments(unit)?.get(1).enumeration() == b"LENGTHUNIT" {
            lengths.insert(unit);
        }
    }
    match lengths.iter().next() {
        Some(&unit) if lengths.len() == 1 => is_read_unit(file, unit),
        _ => Ok(false),
    }
}

fn is_read_unit(file: &File, unit: u64) -> Result<bool> {
    if file.keyword(unit) == "IFCSIUNIT" {
        return Ok(metre(file, unit)?.is_some());
    }
    let measure = file.arguments(unit)?.reference(3);
    let values = file.arguments(measure)?;
    let size = match metre(file, values.reference(1))? {
        Some(base) => base * values.number(0)?,
        None => return Ok(false),
    };
    Ok((size - INCH).abs() < NEAR || (size - FOOT).abs() < NEAR)
}

/// Millimetres of a unit, where it is a metre by a prefix that the server reads.
fn metre(file: &File, unit: u64) -> Result<Option<f64>> {
    if file.keyword(unit) != "IFCSIUNIT" {
        return Ok(None);
    }
    let values = file.arguments(unit)?;
    let is_length = values.get(1).enumeration() == b"LENGTHUNIT";
    if !is_length || values.get(3).enumeration() != b"METRE" {
        return Ok(None);
    }
    let prefix = values.get(2).enumeration();
    let found = METRES.iter().find(|(word, _)| *word == prefix);
    Ok(found.map(|(_, size)| *size))
}

/// A reason with its count, where there is one.
fn counted(what: &str, count: usize) -> Option<String> {
    (count > 0).then(|| format!("{what}: {count}"))
}

/// Why the server doesn't take the file itself, or takes another building from it; empty where nothing is seen. `moved` says
/// whether coordinates were moved, `files` how many files were written.
pub fn reasons(
    file: &File,
    project: u64,
    report: &Report,
    moved: bool,
    files: usize,
) -> Vec<String> {
    let mut found = Vec::new();
    if file.schema != "IFC4" {
        found.push(format!("its schema is {}", file.schema));
    }
    if !has_read_unit(file, project).unwrap_or(false) {
        found.push("its length unit is none that the server reads".to_string());
    }
    let classes: u64 = report.renamed.values().sum();
    for (what, count) in [
        (
            "elements of other items than face sets, as Body",
            report.of_other_items,
        ),
        (
            "elements that are placed otherwise than by quarter turns",
            report.placed_otherwise,
        ),
        (
            "elements of classes that the server doesn't have",
            classes as usize,
        ),
        (
            "openings and projections, which the server passes over",
            report.openings_cut + report.projections,
        ),
    ] {
        found.extend(counted(what, count));
    }
    if moved {
        found.push("coordinates were moved".to_string());
    }
    if report.counts.off_server > OFF_GRID {
        found.push("corners off the grid, which the server rounds with grid=snap".to_string());
    }
    if files > 1 {
        found.push("it is beyond the limits of a file".to_string());
    }
    found
}

#[cfg(test)]
mod tests {
    use super::*;

    fn is_taken(units: &str) -> bool {
        let text = format!(
            "ISO-10303-21;FILE_SCHEMA(('IFC4'));DATA;#1=IFCPROJECT('',$,$,$,$,$,$,(),#2);{units}END-ISO-10303-21;"
        );
        has_read_unit(&File::read(text.into_bytes()).unwrap(), 1).unwrap_or(false)
    }

    #[test]
    fn metres_that_the_server_reads() {
        for (unit, wanted) in [
            (".LENGTHUNIT.,$,.METRE.", true),
            (".LENGTHUNIT.,.MICRO.,.METRE.", true),
            (".LENGTHUNIT.,.NANO.,.METRE.", false),
            (".AREAUNIT.,$,.SQUARE_METRE.", false),
            (".LENGTHUNIT.,$,.GRAM.", false),
        ] {
            let units = format!("#2=IFCUNITASSIGNMENT((#3,#3));#3=IFCSIUNIT(*,{unit});");
            assert_eq!(is_taken(&units), wanted, "{unit}");
        }
        let two = "#2=IFCUNITASSIGNMENT((#3,#4));#3=IFCSIUNIT(*,.LENGTHUNIT.,$,.METRE.);\
#4=IFCSIUNIT(*,.LENGTHUNIT.,.MILLI.,.METRE.);";
        assert!(!is_taken(two));
    }

    #[test]
    fn units_by_conversion_that_the_server_reads() {
        for (number, prefix, wanted) in [
            ("IFCLENGTHMEASURE(25.4)", ".MILLI.", true),
            ("0.3048", "$", true),
            ("25.4000009", ".MILLI.", true),
            ("25.400002", ".MILLI.", false),
            ("304.8006", ".MILLI.", false),
            ("0.9144", "$", false),
        ] {
            let units = format!(
                "#2=IFCUNITASSIGNMENT((#3));#3=IFCCONVERSIONBASEDUNIT($,.LENGTHUNIT.,'X',#4);\
#4=IFCMEASUREWITHUNIT({number},#5);#5=IFCSIUNIT(*,.LENGTHUNIT.,{prefix},.METRE.);"
            );
            assert_eq!(is_taken(&units), wanted, "{number} {prefix}");
        }
        let foot_by_inch =
            "#2=IFCUNITASSIGNMENT((#3));#3=IFCCONVERSIONBASEDUNIT($,.LENGTHUNIT.,'F',#4);\
#4=IFCMEASUREWITHUNIT(12.,#5);#5=IFCCONVERSIONBASEDUNIT($,.LENGTHUNIT.,'I',#6);\
#6=IFCMEASUREWITHUNIT(25.4,#7);#7=IFCSIUNIT(*,.LENGTHUNIT.,.MILLI.,.METRE.);";
        assert!(!is_taken(foot_by_inch));
    }
}
