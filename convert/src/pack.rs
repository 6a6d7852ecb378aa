//! The files that are written: one, or as many as the server's limits ask for.

use crate::element::Body;
use crate::part21::File;
use crate::texts::name_of;
use std::collections::BTreeMap;
use std::fs;
use std::io::{self, BufWriter, Read, Seek, SeekFrom, Write};
use std::path::{Path, PathBuf};

/// How the server's limits, or a user's own, bound a file.
#[derive(Clone, Copy, Debug)]
pub struct Limits {
    pub bytes: u64,
    pub triangles: u64,
    pub values: u64,
    pub instances: u64,
}

impl Default for Limits {
    fn default() -> Self {
        Limits {
            bytes: 33_554_432,
            triangles: 1_000_000,
            values: 8_000_000,
            instances: 1_000_000,
        }
    }
}

/// What a file is split by.
#[derive(Clone, Copy, Debug, PartialEq)]
pub enum Split {
    Storey,
    Class,
}

/// An element that was written to the spool.
struct Piece {
    start: u64,
    length: u64,
    triangles: u64,
    values: u64,
    storey: u64,
    class: &'static str,
    /// The number of the element's instance in the file that is written.
    number: u64,
}

/// A file that was written.
#[derive(Debug)]
pub struct Written {
    pub path: PathBuf,
    pub bytes: u64,
    pub elements: usize,
    pub triangles: u64,
}

/// What an element is called.
pub struct Label<'t> {
    pub guid: &'t [u8],
    pub name: &'t [u8],
    pub class: &'static str,
    pub storey: u64,
}

/// Elements on their way to files: they wait in a file beside the output, so that memory doesn't grow with them.
pub struct Pack {
    pieces: Vec<Piece>,
    spool: BufWriter<fs::File>,
    spool_path: PathBuf,
    length: u64,
    limits: Limits,
}

/// The bytes of a file's header, its end and its storeys, at most.
fn room(storeys: usize) -> u64 {
    4096 + storeys as u64 * 512
}

impl Pack {
    pub fn new(output: &Path, limits: Limits) -> io::Result<Pack> {
        let mut name = output.as_os_str().to_os_string();
        name.push(".spool");
        let spool_path = PathBuf::from(name);
        let spool = fs::OpenOptions::new()
            .read(true)
            .write(true)
            .create(true)
            .truncate(true)
            .open(&spool_path)?;
        Ok(Pack {
            pieces: Vec::new(),
            spool: BufWriter::with_capacity(1 << 20, spool),
            spool_path,
            length: 0,
            limits,
        })
    }

    pub fn elements(&self) -> usize {
        self.pieces.len()
    }

    /// Whether an element alone is within the limits of a file.
    pub fn fits_alone(&self, body: &Body) -> bool {
        let bytes = (body.points.len() + body.triangles.len()) as u64 + 8192;
        bytes <= self.limits.bytes
            && body.triangle_count as u64 <= self.limits.triangles
            && values_of(body) <= self.limits.values
    }

    /// Adds an element.
    pub fn add(&mut self, label: &Label<'_>, body: &Body) -> io::Result<()> {
        let first = 100 + 5 * self.pieces.len() as u64;
        let mut text = Vec::with_capacity(body.points.len() + body.triangles.len() + 512);
        text.extend_from_slice(format!("#{first}=IFCCARTESIANPOINTLIST3D((").as_bytes());
        text.extend_from_slice(&body.points);
        let set = format!("));\n#{}=IFCTRIANGULATEDFACESET(#{first},$,$,(", first + 1);
        text.extend_from_slice(set.as_bytes());
        text.extend_from_slice(&body.triangles);
        let shape = format!(
            "),$);\n#{}=IFCSHAPEREPRESENTATION($,'Body','Tessellation',(#{}));\n\
             #{}=IFCPRODUCTDEFINITIONSHAPE($,$,(#{}));\n#{}=IFC{}(",
            first + 2,
            first + 1,
            first + 3,
            first + 2,
            first + 4,
            label.class
        );
        text.extend_from_slice(shape.as_bytes());
        text.extend_from_slice(label.guid);
        text.extend_from_slice(b",$,");
        text.extend_from_slice(label.name);
        text.extend_from_slice(format!(",$,$,$,#{},$);\n", first + 3).as_bytes());
        self.spool.write_all(&text)?;
        self.pieces.push(Piece {
            start: self.length,
            length: text.len() as u64,
            triangles: body.triangle_count as u64,
            values: values_of(body),
            storey: label.storey,
            class: label.class,
            number: first + 4,
        });
        self.length += text.len() as u64;
        Ok(())
    }

    /// Writes the file, or its parts where it would be beyond the limits, and takes the spool away.
    pub fn write(
        mut self,
        output: &Path,
        split: Split,
        source: &Source<'_>,
    ) -> io::Result<Vec<Written>> {
        let result = self.write_files(output, split, source);
        let removed = fs::remove_file(&self.spool_path);
        let written = result?;
        removed?;
        Ok(written)
    }

    /// Takes the spool away where nothing is written.
    pub fn discard(self) -> io::Result<()> {
        fs::remove_file(&self.spool_path)
    }

    fn write_files(
        &mut self,
        output: &Path,
        split: Split,
        source: &Source<'_>,
    ) -> io::Result<Vec<Written>> {
        self.spool.flush()?;
        let groups = self.groups(split, source);
        let mut written = Vec::new();
        let several = groups.len() > 1;
        for (number, group) in groups.iter().enumerate() {
            let path = if several {
                part_path(output, number + 1)
            } else {
                output.to_path_buf()
            };
            written.push(self.write_file(path, group, source)?);
        }
        Ok(written)
    }

    /// The pieces of each file: storeys from below, or classes by name, as many to a file as fit.
    fn groups(&self, split: Split, source: &Source<'_>) -> Vec<Vec<usize>> {
        let all: Vec<usize> = (0..self.pieces.len()).collect();
        let room = room(source.storeys);
        if Load::of(self, &all).fits(&self.limits, room) {
            return vec![all];
        }
        let mut by_key: BTreeMap<(i64, String), Vec<usize>> = BTreeMap::new();
        for (place, piece) in self.pieces.iter().enumerate() {
            let key = match split {
                Split::Storey => (
                    source.elevation(piece.storey),
                    format!("{:020}", piece.storey),
                ),
                Split::Class => (0, piece.class.to_string()),
            };
            by_key.entry(key).or_default().push(place);
        }
        let mut groups: Vec<Vec<usize>> = vec![Vec::new()];
        let mut load = Load::default();
        for places in by_key.into_values() {
            let own = Load::of(self, &places);
            if !load.with(&own).fits(&self.limits, room) && load.elements > 0 {
                groups.push(Vec::new());
                load = Load::default();
            }
            for place in places {
                let next = load.with(&Load::of(self, &[place]));
                if !next.fits(&self.limits, room) && load.elements > 0 {
                    groups.push(Vec::new());
                    load = Load::of(self, &[place]);
                } else {
                    load = next;
                }
                if let Some(group) = groups.last_mut() {
                    group.push(place);
                }
            }
        }
        groups
    }

    fn write_file(
        &mut self,
        path: PathBuf,
        group: &[usize],
        source: &Source<'_>,
    ) -> io::Result<Written> {
        let mut unfinished = path.as_os_str().to_os_string();
        unfinished.push(".part");
        let unfinished = PathBuf::from(unfinished);
        let mut out = BufWriter::with_capacity(1 << 20, fs::File::create(&unfinished)?);
        let header = source.header();
        out.write_all(&header)?;
        let mut bytes = header.len() as u64;
        let mut storeys: BTreeMap<u64, Vec<u64>> = BTreeMap::new();
        let spool = self.spool.get_mut();
        let mut at = u64::MAX;
        for &place in group {
            let piece = &self.pieces[place];
            if at != piece.start {
                spool.seek(SeekFrom::Start(piece.start))?;
            }
            let copied = io::copy(&mut spool.take(piece.length), &mut out)?;
            if copied != piece.length {
                return Err(io::Error::new(
                    io::ErrorKind::UnexpectedEof,
                    "the spool file was cut",
                ));
            }
            at = piece.start + piece.length;
            bytes += piece.length;
            if piece.storey != 0 {
                storeys.entry(piece.storey).or_default().push(piece.number);
            }
        }
        let end = source.ending(&storeys, 110 + 5 * self.pieces.len() as u64);
        out.write_all(&end)?;
        out.into_inner().map_err(|error| error.into_error())?;
        fs::rename(&unfinished, &path)?;
        Ok(Written {
            path,
            bytes: bytes + end.len() as u64,
            elements: group.len(),
            triangles: group
                .iter()
                .map(|&place| self.pieces[place].triangles)
                .sum(),
        })
    }
}

fn values_of(body: &Body) -> u64 {
    (body.point_count * 4 + body.triangle_count * 4 + 48) as u64
}

/// `model.ifc` becomes `model.1.ifc`.
fn part_path(output: &Path, number: usize) -> PathBuf {
    let name = output
        .file_name()
        .map_or_else(String::new, |name| name.to_string_lossy().into_owned());
    let stem = name.strip_suffix(".ifc").unwrap_or(&name);
    output.with_file_name(format!("{stem}.{number}.ifc"))
}

/// What some pieces add up to.
#[derive(Clone, Copy, Default)]
struct Load {
    bytes: u64,
    triangles: u64,
    values: u64,
    elements: u64,
}

impl Load {
    fn of(pack: &Pack, places: &[usize]) -> Load {
        let mut load = Load::default();
        for &place in places {
            let piece = &pack.pieces[place];
            load.bytes += piece.length + 12;
            load.triangles += piece.triangles;
            load.values += piece.values;
            load.elements += 1;
        }
        load
    }

    fn with(&self, other: &Load) -> Load {
        Load {
            bytes: self.bytes + other.bytes,
            triangles: self.triangles + other.triangles,
            values: self.values + other.values,
            elements: self.elements + other.elements,
        }
    }

    fn fits(&self, limits: &Limits, room: u64) -> bool {
        self.bytes + room <= limits.bytes
            && self.triangles <= limits.triangles
            && self.values + room <= limits.values
            && self.elements * 5 + room <= limits.instances
    }
}

/// What a written file takes from the one that was read.
pub struct Source<'a> {
    pub file: &'a File,
    pub project: u64,
    pub storeys: usize,
}

impl<'a> Source<'a> {
    fn text(&self, id: u64, place: usize) -> Option<&'a [u8]> {
        let values = self.file.arguments(id).ok()?;
        values.get(place).text()
    }

    fn elevation(&self, storey: u64) -> i64 {
        let values = self.file.arguments(storey);
        let height = values.and_then(|values| values.number(9)).unwrap_or(0.0);
        (height * 1000.0).round() as i64
    }

    fn guid(&self, id: u64, kind: &str) -> Vec<u8> {
        match self.text(id, 0) {
            Some(text) if crate::texts::is_guid(text) => text.to_vec(),
            other => {
                let words = [kind.as_bytes(), other.unwrap_or(b"")].concat();
                crate::texts::made_guid(&words)
            }
        }
    }

    fn header(&self) -> Vec<u8> {
        let mut text = b"ISO-10303-21;\nHEADER;\nFILE_DESCRIPTION((''),'2;1');\n\
FILE_NAME('','1970-01-01T00:00:00',(''),(''),'ifc2grid','','');\nFILE_SCHEMA(('IFC4'));\nENDSEC;\nDATA;\n\
#1=IFCPROJECT("
            .to_vec();
        text.extend(self.guid(self.project, "project"));
        text.extend_from_slice(b",$,");
        text.extend(name_of(self.text(self.project, 2)));
        text.extend_from_slice(
            b",$,$,$,$,(),#2);\n#2=IFCUNITASSIGNMENT((#3));\n#3=IFCSIUNIT(*,.LENGTHUNIT.,.MILLI.,.METRE.);\n",
        );
        text
    }

    /// The storeys with their elements, and the file's end.
    fn ending(&self, storeys: &BTreeMap<u64, Vec<u64>>, first: u64) -> Vec<u8> {
        let mut text = Vec::new();
        let mut number = first;
        for (&storey, elements) in storeys {
            text.extend_from_slice(format!("#{number}=IFCBUILDINGSTOREY(").as_bytes());
            let guid = self.guid(storey, &format!("storey {storey}"));
            text.extend_from_slice(&guid);
            text.extend_from_slice(b",$,");
            text.extend(name_of(self.text(storey, 2)));
            text.extend_from_slice(b",$,$,$,$,$,.ELEMENT.,$);\n");
            let relation = crate::texts::made_guid(&[b"in ", &guid[..]].concat());
            let start = format!("#{}=IFCRELCONTAINEDINSPATIALSTRUCTURE(", number + 1);
            text.extend_from_slice(start.as_bytes());
            text.extend(relation);
            text.extend_from_slice(b",$,$,$,(");
            let names: Vec<String> = elements.iter().map(|id| format!("#{id}")).collect();
            text.extend_from_slice(names.join(",").as_bytes());
            text.extend_from_slice(format!("),#{number});\n").as_bytes());
            number += 2;
        }
        text.extend_from_slice(b"ENDSEC;\nEND-ISO-10303-21;\n");
        text
    }
}
