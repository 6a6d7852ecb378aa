//! What keeps an element, or a part of it, from being converted.

use std::fmt;

/// A reason in words, and the number of the instance where it lies (0 where there is none).
#[derive(Clone, Debug, PartialEq)]
pub struct Fault {
    pub reason: String,
    pub instance: u64,
}

pub type Result<T> = std::result::Result<T, Fault>;

impl Fault {
    pub fn new(reason: impl Into<String>) -> Fault {
        Fault {
            reason: reason.into(),
            instance: 0,
        }
    }

    /// The same at an instance, unless it is already at one.
    pub fn at(mut self, instance: u64) -> Fault {
        if self.instance == 0 {
            self.instance = instance;
        }
        self
    }
}

impl fmt::Display for Fault {
    fn fmt(&self, out: &mut fmt::Formatter<'_>) -> fmt::Result {
        if self.instance == 0 {
            out.write_str(&self.reason)
        } else {
            write!(out, "{} (at #{})", self.reason, self.instance)
        }
    }
}

/// An error of these words.
pub fn fail<T>(reason: impl Into<String>) -> Result<T> {
    Err(Fault::new(reason))
}
