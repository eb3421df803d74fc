//! Who asks, of a text and of the monitor.

use super::label::Label;

#[derive(Clone, Copy, Debug)]
pub struct Caller {
    pub label: Label,
    pub read_override: bool,
}

impl Caller {
    pub fn may_see(&self, label: &Label) -> bool {
        self.read_override || self.label.dominates(label)
    }
}
