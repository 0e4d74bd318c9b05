//! The clients' copies of objects: lent records, all clients' in one list.

use std::fmt::{Display, Formatter, Result};

use crate::limits::{CLIENTS, OBJECTS};

/// A client's copy of an object. Version 0 is no copy (01, Tables).
#[derive(Clone, Copy, Debug, Default, PartialEq, Eq)]
pub struct ObjectCopy {
    pub version: u32,
    pub expiry: u32,
    pub value: u64,
}

impl ObjectCopy {
    pub const NONE: ObjectCopy = ObjectCopy { version: 0, expiry: 0, value: 0 };
}

impl Display for ObjectCopy {
    fn fmt(&self, f: &mut Formatter) -> Result {
        write!(f, "version {}, value {}, expiry {}", self.version, self.value, self.expiry)
    }
}

/// Room for the copies of the largest setup.
pub const NO_COPIES: [ObjectCopy; CLIENTS * OBJECTS] = [ObjectCopy::NONE; CLIENTS * OBJECTS];
