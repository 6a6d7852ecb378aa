//! One origin for the files of all trades: by their map conversions, or by a file that the first one writes.

use crate::fault::{fail, Result};
use crate::part21::File;
use crate::shaper::Shaper;
use crate::units::{factor, Units};
use crate::vector::{is_positive, Bounds, Frame, Point3};

/// Beyond this the coordinates of a model are moved, in millimetres; the server takes 800 metres.
const FAR: f64 = 700_000.0;

/// Where a file's coordinates lie on the map.
#[derive(Clone, Copy, Debug)]
pub struct Conversion {
    /// The file's axes and origin in millimetres of the map.
    pub frame: Frame,
    /// The map's scale, which isn't applied.
    pub scale: f64,
}

impl Conversion {
    /// By an `IFCMAPCONVERSION`.
    pub fn of(file: &File, id: u64, units: &Units) -> Result<Conversion> {
        let values = file.arguments(id)?;
        let system = file.arguments(values.reference(1))?;
        let mut millimetres = units.millimetres;
        if system.reference(6) != 0 {
            millimetres = factor(file, system.reference(6))? * 1000.0;
        }
        let (x, y) = (values.number_or(5, 1.0)?, values.number_or(6, 0.0)?);
        let length = (x * x + y * y).sqrt();
        if !is_positive(length) {
            return fail("a map conversion without a direction");
        }
        let origin = Point3::new(values.number(2)?, values.number(3)?, values.number(4)?);
        Ok(Conversion {
            frame: level_frame(origin * millimetres, x / length, y / length),
            scale: values.number_or(7, 1.0)?,
        })
    }
}

fn level_frame(origin: Point3, x: f64, y: f64) -> Frame {
    Frame {
        x: Point3::new(x, y, 0.0),
        y: Point3::new(-y, x, 0.0),
        z: Point3::Z,
        origin,
    }
}

/// The origin that all files share, in millimetres of the map, and the direction of its x.
#[derive(Clone, Copy, Debug)]
pub struct Origin {
    pub frame: Frame,
}

impl Origin {
    /// Reads what `words` gives. Lines that begin with # are passed over.
    pub fn read(text: &str) -> Result<Origin> {
        let lines = text
            .lines()
            .filter(|line| !line.trim_start().starts_with('#'));
        let words: Vec<&str> = lines.flat_map(str::split_whitespace).collect();
        let numbers: Vec<f64> = words.iter().filter_map(|word| word.parse().ok()).collect();
        if words.len() != 5
            || numbers.len() != 5
            || numbers.iter().any(|number| !number.is_finite())
        {
            return fail("the origin file hasn't five numbers: easting, northing, height, x and y of the direction");
        }
        let length = (numbers[3] * numbers[3] + numbers[4] * numbers[4]).sqrt();
        if (length - 1.0).abs() > 1e-6 {
            return fail("the origin file's direction hasn't length one");
        }
        let origin = Point3::new(numbers[0], numbers[1], numbers[2]);
        Ok(Origin {
            frame: level_frame(origin, numbers[3], numbers[4]),
        })
    }

    pub fn words(&self) -> String {
        let (o, x) = (self.frame.origin, self.frame.x);
        format!(
            "# ifc2grid: origin in millimetres of the map (easting, northing, height) and the direction of x\n\
             {} {} {} {} {}\n",
            o.x, o.y, o.z, x.x, x.y
        )
    }

    /// The frame that brings a file's coordinates to this origin.
    pub fn from_file(&self, conversion: Option<&Conversion>) -> Frame {
        let own = conversion.map_or(Frame::IDENTITY, |conversion| conversion.frame);
        if own == self.frame {
            return Frame::IDENTITY;
        }
        let turned = |p: Point3| Point3::new(p.dot(self.frame.x), p.dot(self.frame.y), p.z);
        Frame {
            x: turned(own.x),
            y: turned(own.y),
            z: Point3::Z,
            origin: turned(own.origin - self.frame.origin),
        }
    }

    /// The origin of a first file: its map conversion, else whole metres near its first shape where that is far off.
    pub fn of_first(conversion: Option<&Conversion>, shape: Option<&Bounds>) -> Origin {
        if let Some(conversion) = conversion {
            return Origin {
                frame: conversion.frame,
            };
        }
        let mut origin = Point3::ZERO;
        if let Some(bounds) = shape {
            let middle = bounds.middle();
            let far = middle.x.abs().max(middle.y.abs()).max(middle.z.abs()) > FAR;
            if far {
                let metre = |value: f64| (value / 1000.0).floor() * 1000.0;
                let height = if middle.z.abs() > FAR {
                    metre(middle.z)
                } else {
                    0.0
                };
                origin = Point3::new(metre(middle.x), metre(middle.y), height);
            }
        }
        Origin {
            frame: level_frame(origin, 1.0, 0.0),
        }
    }
}

impl<'a> Shaper<'a> {
    /// The world coordinate system of a representation's context; the identity where it has none.
    pub fn world_of(&mut self, context: u64) -> Result<Frame> {
        let mut at = context;
        for _ in 0..16 {
            match self.file.keyword(at) {
                "IFCGEOMETRICREPRESENTATIONSUBCONTEXT" => {
                    at = self.file.arguments(at)?.reference(6)
                }
                "IFCGEOMETRICREPRESENTATIONCONTEXT" => {
                    let system = self.file.arguments(at)?.reference(4);
                    return self.axes(system);
                }
                _ => return Ok(Frame::IDENTITY),
            }
        }
        fail("contexts that never end")
    }
}

#[cfg(test)]
mod tests {
    use super::*;

    #[test]
    fn an_origin_is_read_as_it_was_written() {
        let origin = Origin {
            frame: level_frame(
                Point3::new(458_123_456.0, 5_427_123_456.25, 112_000.0),
                0.8,
                0.6,
            ),
        };
        let again = Origin::read(&origin.words()).unwrap();
        assert_eq!(again.frame, origin.frame);
        assert!(Origin::read("1 2 3").is_err());
        assert!(Origin::read("1 2 3 4 x").is_err());
        assert!(Origin::read("1 2 3 1 1").is_err());
    }

    #[test]
    fn a_point_of_the_map_comes_to_the_same_place() {
        let conversion = Conversion {
            frame: level_frame(Point3::new(1000.0, 2000.0, 10.0), 0.8, 0.6),
            scale: 1.0,
        };
        let origin = Origin::of_first(Some(&conversion), None);
        let own = Point3::new(3.0, 4.0, 5.0);
        let on_map = conversion.frame.point(own);
        let there = origin.from_file(None).point(on_map);
        assert!(there.distance(own) < 1e-9);
        assert_eq!(origin.from_file(Some(&conversion)), Frame::IDENTITY);
    }
}
