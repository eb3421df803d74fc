//! Who asks.

use crate::raw;
use crate::Label;

/// The process on whose behalf a text is written or read, or a decision is asked for. It sees the labels that its own dominates, and with the read
/// override every label.
#[derive(Clone, Copy, Debug, PartialEq, Eq, Hash, Default)]
pub struct Caller {
    /// The caller's label.
    pub label: Label,
    /// Whether it sees every label.
    pub read_override: bool,
}

impl From<&Caller> for raw::Caller {
    fn from(caller: &Caller) -> raw::Caller {
        raw::Caller { label: caller.label, read_override: caller.read_override.into() }
    }
}
