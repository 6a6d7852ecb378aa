//! The words of the command line.

use crate::pack::{Limits, Split};
use std::path::PathBuf;

pub const USAGE: &str = "\
usage: ifc2grid IN.ifc OUT.ifc [options]

Converts a building model (IFC2X3, IFC4, IFC4X3) to a file that bim_server takes. A model beyond the server's limits
becomes OUT.1.ifc, OUT.2.ifc and so on.

  --grid 0.1|1           round to 0.1 mm (the server's grid, as without it) or to 1 mm
  --chord MM             how far a chord may lie from its arc: 0.01 to 100, 0.5 without it
  --origin-file FILE     one origin for all trades: written by the first run, used by the others
  --split storey|class   by what a model beyond the limits is split (storey without it)
  --jobs N               elements in parallel: 1 to 64, 1 without it
  --report FILE          a report as JSON: what is left out and why, rounding, counts
  --boxes FILE           a line for each element: identifier, class, box in mm, triangles, volume in m3, closed or open
  --most-bytes N         a lower limit of a file's bytes
  --most-triangles N     a lower limit of a file's triangles

Ends with 0 where all was converted, 1 where something is left out or in doubt, 2 for wrong words, 3 where the file
can't be read or has no element, 4 where the output can't be written.";

/// What the user asked for.
#[derive(Clone, Debug, PartialEq)]
pub struct Options {
    pub input: PathBuf,
    pub output: PathBuf,
    /// Grid numbers of a millimetre.
    pub per_millimetre: i32,
    pub chord: f64,
    pub origin_file: Option<PathBuf>,
    pub split: Split,
    pub jobs: usize,
    pub report: Option<PathBuf>,
    pub boxes: Option<PathBuf>,
    pub most_bytes: u64,
    pub most_triangles: u64,
}

/// What the words ask for; an error of one line where they aren't understood.
pub fn parse(words: &[String]) -> Result<Options, String> {
    let limits = Limits::default();
    let mut options = Options {
        input: PathBuf::new(),
        output: PathBuf::new(),
        per_millimetre: 10,
        chord: 0.5,
        origin_file: None,
        split: Split::Storey,
        jobs: 1,
        report: None,
        boxes: None,
        most_bytes: limits.bytes,
        most_triangles: limits.triangles,
    };
    let mut paths = Vec::new();
    let mut rest = words.iter();
    while let Some(word) = rest.next() {
        if !word.starts_with("--") {
            paths.push(PathBuf::from(word));
            continue;
        }
        let value = match rest.next() {
            Some(value) => value,
            None => return Err(format!("{word} isn't an option, or its value is missing")),
        };
        options.set(word, value)?;
    }
    let count = paths.len();
    match <[PathBuf; 2]>::try_from(paths) {
        Ok([input, output]) => {
            options.input = input;
            options.output = output;
        }
        Err(_) => {
            return Err(format!(
                "two files are wanted, IN.ifc and OUT.ifc, not {count}"
            ))
        }
    }
    if options.input == options.output {
        return Err("IN.ifc and OUT.ifc are the same file".to_string());
    }
    if options.output.file_name().is_none() {
        return Err("OUT.ifc has no name".to_string());
    }
    Ok(options)
}

impl Options {
    fn set(&mut self, word: &str, value: &str) -> Result<(), String> {
        let wrong = || format!("{word} doesn't take {value}");
        match word {
            "--grid" => {
                self.per_millimetre = match value {
                    "1" => 1,
                    "0.1" => 10,
                    _ => return Err(wrong()),
                }
            }
            "--chord" => {
                self.chord = value.parse().map_err(|_| wrong())?;
                if !(0.01..=100.0).contains(&self.chord) {
                    return Err(wrong());
                }
            }
            "--origin-file" => self.origin_file = Some(PathBuf::from(value)),
            "--split" => {
                self.split = match value {
                    "storey" => Split::Storey,
                    "class" => Split::Class,
                    _ => return Err(wrong()),
                }
            }
            "--jobs" => self.jobs = whole(value, 64).ok_or_else(wrong)? as usize,
            "--report" => self.report = Some(PathBuf::from(value)),
            "--boxes" => self.boxes = Some(PathBuf::from(value)),
            "--most-bytes" => {
                self.most_bytes = whole(value, self.most_bytes).ok_or_else(wrong)?;
            }
            "--most-triangles" => {
                self.most_triangles = whole(value, self.most_triangles).ok_or_else(wrong)?;
            }
            _ => return Err(format!("{word} isn't an option")),
        }
        Ok(())
    }
}

/// A whole number from 1 to a greatest one.
fn whole(value: &str, most: u64) -> Option<u64> {
    value
        .parse()
        .ok()
        .filter(|number| (1..=most).contains(number))
}

#[cfg(test)]
mod tests {
    use super::*;

    fn words(text: &str) -> Vec<String> {
        text.split_whitespace().map(str::to_string).collect()
    }

    #[test]
    fn words_that_are_understood() {
        let options = parse(&words(
            "a.ifc b.ifc --grid 1 --jobs 4 --split class --report r",
        ))
        .unwrap();
        assert_eq!(options.per_millimetre, 1);
        assert_eq!(options.jobs, 4);
        assert_eq!(options.split, Split::Class);
        assert_eq!(options.report, Some(PathBuf::from("r")));
        for text in ["a.ifc b.ifc", "a.ifc b.ifc --grid 0.1"] {
            assert_eq!(parse(&words(text)).unwrap().per_millimetre, 10);
        }
    }

    #[test]
    fn words_that_are_not() {
        for text in [
            "",
            "a.ifc",
            "a.ifc a.ifc",
            "a.ifc b.ifc c.ifc",
            "a.ifc b.ifc --grid 2",
            "a.ifc b.ifc --jobs 0",
            "a.ifc b.ifc --chord nan",
            "a.ifc b.ifc --report",
            "a.ifc b.ifc --nothing x",
            "a.ifc b.ifc --most-bytes 99999999999",
        ] {
            assert!(parse(&words(text)).is_err(), "{text}");
        }
    }
}
