//! What is wrong with a payload or a table.
use crate::status::Status;
use crate::sys;
use std::fmt;

/// What is wrong with the octets of a method, a content header or a table, and the place of the octet that shows it.
#[derive(Clone, Copy, PartialEq, Eq, Debug)]
pub struct Fault {
    pub at: usize,
    pub status: Status,
}

impl fmt::Display for Fault {
    fn fmt(&self, f: &mut fmt::Formatter<'_>) -> fmt::Result {
        write!(f, "{} at octet {}", self.status, self.at)
    }
}

impl std::error::Error for Fault {}

/// Why something isn't written, and the place of the value that can't be: a field, a property or a pair. The place
/// `at` is one in that value's octets, if it is a table or an array.
#[derive(Clone, Copy, PartialEq, Eq, Debug)]
pub struct Unwritten {
    pub status: Status,
    pub value: usize,
    pub at: usize,
}

impl fmt::Display for Unwritten {
    fn fmt(&self, f: &mut fmt::Formatter<'_>) -> fmt::Result {
        write!(f, "{}, value {}", self.status, self.value)
    }
}

impl std::error::Error for Unwritten {}

/// What C tells of a write.
pub(crate) fn written(status: u32, told: &sys::Written) -> Result<usize, Unwritten> {
    Status::check(status).map_err(|status| Unwritten {
        status,
        value: told.value,
        at: told.at,
    })?;
    Ok(told.length)
}
