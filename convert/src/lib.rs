//! Converts a building model of any office (IFC2X3, IFC4, IFC4X3) to the profile of IFC4 that `bim_server` takes.
#![forbid(unsafe_code)]

pub mod as_it_is;
pub mod booleans;
pub mod breps;
pub mod convert;
pub mod curves;
pub mod element;
pub mod fault;
pub mod grid;
pub mod jobs;
pub mod mapped;
pub mod merge;
pub mod options;
pub mod origin;
pub mod pack;
pub mod part21;
pub mod placements;
pub mod polygons;
pub mod profiles;
pub mod progress;
pub mod report;
pub mod schema;
pub mod shaper;
pub mod solids;
pub mod splines;
pub mod surfaces;
pub mod sweeps;
pub mod tessellated;
pub mod texts;
pub mod tree;
pub mod trigonometry;
pub mod units;
pub mod vector;
