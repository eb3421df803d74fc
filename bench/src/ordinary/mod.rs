//! Document 01's rules, with who asks the monitor by document 02, as ordinary safe Rust: what the proved library is measured against.
//!
//! Types hold what they can: an absent range, tenant or segment is `None`, a choice is an enum, so that no flags or zeros are left to
//! test. All else is tested at each call, as document 01 asks. Functions that are timed are never inlined: a call into the archive can't be either.

pub mod board;
pub mod caller;
pub mod label;
pub mod line;
pub mod monitor;
pub mod range;
pub mod table;
#[cfg(test)]
mod tests;
pub mod text;

/// Why a call is refused. A refused call changes nothing.
#[derive(Clone, Copy, Debug, PartialEq, Eq)]
pub enum Refusal {
    NoPrivilege,
    NoName,
    /// The buffer is short; the length that is needed.
    BufferShort(usize),
    NoPages,
    Denied,
    InUse,
    Invalid,
    /// The table is bad; its first bad line.
    BadLine(usize),
    NoPlace,
}

impl Refusal {
    /// Document 01's number.
    pub fn number(self) -> u32 {
        match self {
            Refusal::NoPrivilege => 1,
            Refusal::NoName => 2,
            Refusal::BufferShort(_) => 7,
            Refusal::NoPages => 12,
            Refusal::Denied => 13,
            Refusal::InUse => 16,
            Refusal::Invalid | Refusal::BadLine(_) => 22,
            Refusal::NoPlace => 28,
        }
    }

    /// The one more number that some refusals carry.
    pub fn carried(self) -> Option<usize> {
        match self {
            Refusal::BufferShort(length) => Some(length),
            Refusal::BadLine(line) => Some(line),
            _ => None,
        }
    }
}

/// `Ok` where `condition` holds, so that checks read in document 01's order.
fn require(condition: bool, refusal: Refusal) -> Result<(), Refusal> {
    if condition {
        Ok(())
    } else {
        Err(refusal)
    }
}
