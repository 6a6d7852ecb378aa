//! Units of length and of plane angles.

use crate::fault::{fail, Result};
use crate::part21::File;

/// What a number of the file's lengths and angles means.
#[derive(Clone, Copy, Debug, PartialEq)]
pub struct Units {
    /// Millimetres of a length unit.
    pub millimetres: f64,
    /// Radians of an angle unit.
    pub radians: f64,
}

impl Default for Units {
    fn default() -> Self {
        Units {
            millimetres: 1000.0,
            radians: 1.0,
        }
    }
}

const PREFIXES: &[(&[u8], f64)] = &[
    (b"EXA", 1e18),
    (b"PETA", 1e15),
    (b"TERA", 1e12),
    (b"GIGA", 1e9),
    (b"MEGA", 1e6),
    (b"KILO", 1e3),
    (b"HECTO", 1e2),
    (b"DECA", 1e1),
    (b"DECI", 1e-1),
    (b"CENTI", 1e-2),
    (b"MILLI", 1e-3),
    (b"MICRO", 1e-6),
    (b"NANO", 1e-9),
    (b"PICO", 1e-12),
];

/// How much of the SI unit without a prefix a unit is.
pub fn factor(file: &File, unit: u64) -> Result<f64> {
    let mut unit = unit;
    let mut product = 1.0;
    for _ in 0..32 {
        let values = file.arguments(unit)?;
        match file.keyword(unit) {
            "IFCSIUNIT" => return Ok(product * prefix(values.get(2).enumeration())),
            "IFCCONVERSIONBASEDUNIT" | "IFCCONVERSIONBASEDUNITWITHOFFSET" => {
                let measure = file.arguments(values.reference(3))?;
                let number = measure.number(0)?;
                if !(number.is_finite() && number > 0.0) {
                    return fail("a unit of no size");
                }
                product *= number;
                unit = measure.reference(1);
            }
            other => return fail(format!("a unit that is {other}")),
        }
    }
    fail("units that never end")
}

fn prefix(word: &[u8]) -> f64 {
    let found = PREFIXES.iter().find(|(name, _)| *name == word);
    found.map_or(1.0, |(_, size)| *size)
}

/// The units of a project, and a doubt in words where it gives several of one kind.
pub fn of_project(file: &File, project: u64) -> Result<(Units, Option<String>)> {
    let mut units = Units::default();
    let mut lengths: Vec<f64> = Vec::new();
    let mut angles: Vec<f64> = Vec::new();
    let values = file.arguments(project)?;
    let assignment = file.arguments(values.reference(8))?;
    for unit in assignment.references(0) {
        let kind = file.keyword(unit);
        if kind != "IFCSIUNIT" && !kind.starts_with("IFCCONVERSIONBASEDUNIT") {
            continue;
        }
        match file.arguments(unit)?.get(1).enumeration() {
            b"LENGTHUNIT" => lengths.push(factor(file, unit)? * 1000.0),
            b"PLANEANGLEUNIT" => angles.push(factor(file, unit)?),
            _ => {}
        }
    }
    if let Some(&first) = lengths.first() {
        units.millimetres = first;
    }
    if let Some(&first) = angles.first() {
        units.radians = first;
    }
    let differ = |sizes: &[f64]| {
        sizes
            .iter()
            .any(|&size| (size / sizes[0] - 1.0).abs() > 1e-9)
    };
    let doubt = if differ(&lengths) || differ(&angles) {
        Some(format!(
            "the project has several units of length or angle: the first is taken, {} mm",
            units.millimetres
        ))
    } else {
        None
    };
    Ok((units, doubt))
}

#[cfg(test)]
mod tests {
    use super::*;

    #[test]
    fn a_foot_by_the_inch() {
        let text = "ISO-10303-21;FILE_SCHEMA(('IFC4'));DATA;\
#1=IFCPROJECT('',$,$,$,$,$,$,(),#2);#2=IFCUNITASSIGNMENT((#3,#9));\
#3=IFCCONVERSIONBASEDUNIT(#8,.LENGTHUNIT.,'FOOT',#4);#4=IFCMEASUREWITHUNIT(IFCLENGTHMEASURE(12.),#5);\
#5=IFCCONVERSIONBASEDUNIT(#8,.LENGTHUNIT.,'INCH',#6);#6=IFCMEASUREWITHUNIT(IFCLENGTHMEASURE(25.4),#7);\
#7=IFCSIUNIT(*,.LENGTHUNIT.,.MILLI.,.METRE.);#8=IFCDIMENSIONALEXPONENTS(1,0,0,0,0,0,0);\
#9=IFCSIUNIT(*,.LENGTHUNIT.,$,.METRE.);END-ISO-10303-21;";
        let file = File::read(text.as_bytes().to_vec()).unwrap();
        let (units, doubt) = of_project(&file, 1).unwrap();
        assert!((units.millimetres - 304.8).abs() < 1e-9);
        assert!(doubt.is_some());
    }
}
