//! How a file's objects hang together: wholes and parts, storeys, openings, types.

use crate::fault::{Fault, Result};
use crate::part21::File;
use crate::schema::{is_no_element, Classes};
use std::collections::{BTreeMap, HashMap, HashSet};

/// How many steps up a chain of wholes and containers are taken.
const MOST_STEPS: usize = 100;

/// The relations of a file, by instance number.
#[derive(Default)]
pub struct Tree {
    /// Elements in the order of their numbers.
    pub elements: Vec<u64>,
    pub storeys: Vec<u64>,
    pub project: u64,
    pub grids: Vec<u64>,
    pub contexts: Vec<u64>,
    pub conversions: Vec<u64>,
    /// What has a shape but is no element, by keyword.
    pub skipped: BTreeMap<String, usize>,
    /// Relations that couldn't be read.
    pub faults: Vec<Fault>,
    whole_of: HashMap<u64, u64>,
    container_of: HashMap<u64, u64>,
    wholes: HashSet<u64>,
    openings: HashMap<u64, Vec<u64>>,
    additions: HashMap<u64, Vec<u64>>,
    opening_filled: HashMap<u64, u64>,
    host_of: HashMap<u64, u64>,
    type_of: HashMap<u64, u64>,
}

impl Tree {
    pub fn of(file: &File, classes: &Classes) -> Tree {
        let mut tree = Tree::default();
        for instance in file.instances() {
            if classes.of(instance.keyword).is_some() {
                tree.elements.push(instance.id);
            } else if let Err(fault) = tree.take(file, instance.id, instance.keyword) {
                tree.faults.push(fault.at(instance.id));
            }
        }
        tree
    }

    fn take(&mut self, file: &File, id: u64, keyword: &str) -> Result<()> {
        match keyword {
            "IFCPROJECT" if self.project == 0 => self.project = id,
            "IFCBUILDINGSTOREY" => self.storeys.push(id),
            "IFCGRID" => self.grids.push(id),
            "IFCGEOMETRICREPRESENTATIONCONTEXT" => self.contexts.push(id),
            "IFCMAPCONVERSION" | "IFCMAPCONVERSIONSCALED" => self.conversions.push(id),
            _ => {}
        }
        if keyword.starts_with("IFCREL") {
            return self.take_relation(file, id, keyword);
        }
        if is_no_element(keyword) && file.arguments(id)?.reference(6) != 0 {
            *self.skipped.entry(keyword.to_string()).or_default() += 1;
        }
        Ok(())
    }

    fn take_relation(&mut self, file: &File, id: u64, keyword: &str) -> Result<()> {
        match keyword {
            "IFCRELAGGREGATES" | "IFCRELNESTS" => {
                let values = file.arguments(id)?;
                let whole = values.reference(4);
                self.wholes.insert(whole);
                for part in values.references(5) {
                    self.whole_of.entry(part).or_insert(whole);
                }
            }
            "IFCRELCONTAINEDINSPATIALSTRUCTURE" => {
                let values = file.arguments(id)?;
                for part in values.references(4) {
                    let container = values.reference(5);
                    self.container_of.entry(part).or_insert(container);
                }
            }
            "IFCRELVOIDSELEMENT" => {
                let values = file.arguments(id)?;
                let (host, opening) = (values.reference(4), values.reference(5));
                self.openings.entry(host).or_default().push(opening);
                self.host_of.insert(opening, host);
            }
            "IFCRELPROJECTSELEMENT" => {
                let values = file.arguments(id)?;
                let host = values.reference(4);
                let addition = values.reference(5);
                self.additions.entry(host).or_default().push(addition);
            }
            "IFCRELFILLSELEMENT" => {
                let values = file.arguments(id)?;
                let filler = values.reference(5);
                self.opening_filled.insert(filler, values.reference(4));
            }
            "IFCRELDEFINESBYTYPE" => {
                let values = file.arguments(id)?;
                for part in values.references(4) {
                    self.type_of.insert(part, values.reference(5));
                }
            }
            _ => {}
        }
        Ok(())
    }

    /// The storey that an element stands in, through its whole, a space, or the wall whose opening it fills; 0 if none.
    pub fn storey_of(&self, file: &File, element: u64) -> u64 {
        let mut at = element;
        for _ in 0..MOST_STEPS {
            if at == 0 {
                return 0;
            }
            if file.keyword(at) == "IFCBUILDINGSTOREY" {
                return at;
            }
            at = self.above(at);
        }
        0
    }

    fn above(&self, at: u64) -> u64 {
        let ways = [&self.container_of, &self.whole_of];
        if let Some(up) = ways.iter().find_map(|way| way.get(&at)) {
            return *up;
        }
        let opening = self.opening_filled.get(&at);
        opening
            .and_then(|opening| self.host_of.get(opening))
            .copied()
            .unwrap_or(0)
    }

    pub fn is_whole(&self, id: u64) -> bool {
        self.wholes.contains(&id)
    }

    pub fn type_of(&self, element: u64) -> u64 {
        self.type_of.get(&element).copied().unwrap_or(0)
    }

    /// What voids an element: its own openings, and those of the elements that it is a part of.
    pub fn openings_of(&self, file: &File, classes: &Classes, element: u64) -> Vec<u64> {
        let mut found = Vec::new();
        let mut at = element;
        for _ in 0..4 {
            if let Some(openings) = self.openings.get(&at) {
                found.extend_from_slice(openings);
            }
            match self.whole_of.get(&at) {
                Some(&whole) if classes.of(file.keyword(whole)).is_some() => at = whole,
                _ => break,
            }
        }
        found
    }

    pub fn additions_of(&self, element: u64) -> &[u64] {
        self.additions.get(&element).map_or(&[], Vec::as_slice)
    }
}
