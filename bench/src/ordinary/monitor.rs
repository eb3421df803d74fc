//! The reference monitor.

use super::caller::Caller;
use super::label::Label;
use super::range::{Range, Tuple};
use super::{require, Refusal};

/// The subject that is asked about.
#[derive(Clone, Copy, Debug)]
pub struct Credentials {
    pub label: Label,
    pub range: Range,
    pub read_override: bool,
    pub write_override: bool,
    pub relabel: bool,
}

impl Credentials {
    fn is_valid(&self) -> bool {
        self.range.is_valid() && self.range.contains(&self.label)
    }
}

#[derive(Clone, Copy, Debug, PartialEq, Eq)]
pub enum FileKind {
    Regular,
    Directory,
    Other,
}

#[derive(Clone, Copy, Debug, PartialEq, Eq)]
pub enum Class {
    File(FileKind),
    Fifo,
    Process,
    MessageQueue,
    SharedMemory,
    Semaphore,
}

impl Class {
    /// Whether a read takes away what it reads, and so is a write too.
    fn read_is_destructive(self) -> bool {
        matches!(self, Class::Fifo | Class::MessageQueue)
    }
}

/// What is asked for. A label governs where there is a tuple too.
#[derive(Clone, Copy, Debug)]
pub struct Object {
    pub class: Class,
    pub label: Option<Label>,
    pub tuple: Option<Tuple>,
}

impl Object {
    fn is_valid(&self) -> bool {
        let label_valid = self.label.as_ref().is_none_or(Label::is_valid);
        let tuple_valid = self.tuple.as_ref().is_none_or(Tuple::is_valid);
        label_valid && tuple_valid && (self.label.is_some() || self.tuple.is_some())
    }

    /// Whether a subject with that label may observe the object, and whether it may modify it, without a privilege.
    fn accesses(&self, subject: &Label) -> (bool, bool) {
        match (&self.label, &self.tuple) {
            (Some(label), _) => (subject.dominates(label), subject == label),
            (None, Some(tuple)) => {
                let contains = tuple.contains(subject);
                (contains, contains)
            }
            (None, None) => (false, false),
        }
    }
}

/// Bits of what is to be done.
pub mod intent {
    pub const WRITE: u64 = 1;
    pub const READ: u64 = 2;
    pub const EXECUTE: u64 = 4;
    pub const SEARCH: u64 = 8;
    pub const GET_ATTRIBUTE: u64 = 16;
    pub const SET_ATTRIBUTE: u64 = 32;
    pub const ALL: u64 = 63;
}

/// Whether the intents make sense for an object of that class. Execute and search never do together: no file is of both kinds.
fn intents_valid(intents: u64, class: Class, attribute: u64) -> bool {
    let asks = |intent| intents & intent != 0;
    (1..=intent::ALL).contains(&intents)
        && (!asks(intent::EXECUTE) || class == Class::File(FileKind::Regular))
        && (!asks(intent::SEARCH) || class == Class::File(FileKind::Directory))
        && (!asks(intent::GET_ATTRIBUTE | intent::SET_ATTRIBUTE) || matches!(attribute, 1 | 2))
}

/// Whether a privilege of the subject was needed.
#[inline(never)]
pub fn check(caller: &Caller, credentials: &Credentials, object: &Object, intents: u64, attribute: u64) -> Result<bool, Refusal> {
    check_inlined(caller, credentials, object, intents, attribute)
}

/// The same, for callers that are timed themselves.
#[inline(always)]
pub fn check_inlined(caller: &Caller, credentials: &Credentials, object: &Object, intents: u64, attribute: u64) -> Result<bool, Refusal> {
    let valid = intents_valid(intents, object.class, attribute) && caller.label.is_valid() && credentials.is_valid() && object.is_valid();
    require(valid, Refusal::Invalid)?;
    let sees_object = object.label.as_ref().is_none_or(|label| caller.may_see(label));
    require(caller.may_see(&credentials.label) && sees_object, Refusal::Denied)?;
    let sets = intents & intent::SET_ATTRIBUTE != 0;
    let reads = intents & intent::READ != 0;
    let observes = intents & !(intent::WRITE | intent::SET_ATTRIBUTE) != 0;
    let modifies = intents & intent::WRITE != 0 || sets || (reads && object.class.read_is_destructive());
    let (may_observe, may_modify) = object.accesses(&credentials.label);
    let needs_read_override = observes && !may_observe;
    let needs_write_override = modifies && !may_modify;
    require(!needs_read_override || credentials.read_override, Refusal::Denied)?;
    require(!needs_write_override || credentials.write_override, Refusal::Denied)?;
    require(!sets || credentials.relabel, Refusal::NoPrivilege)?;
    Ok(needs_read_override || needs_write_override || sets)
}
