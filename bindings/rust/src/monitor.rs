//! The reference monitor.

use crate::raw;
use crate::{Caller, Label, Range, Refusal, Tuple};
use std::ops::BitOr;

/// The subject that is asked about, with its privileges: the caller itself or another. The label has to be in the range.
#[derive(Clone, Copy, Debug, PartialEq, Eq, Hash, Default)]
pub struct Credentials {
    /// The subject's label.
    pub label: Label,
    /// The labels that the subject may have.
    pub range: Range,
    /// Passes what reads, where the label does not allow it.
    pub read_override: bool,
    /// Passes what writes, where the label does not allow it.
    pub write_override: bool,
    /// Is needed to set an attribute.
    pub relabel: bool,
}

impl From<&Credentials> for raw::Credentials {
    fn from(credentials: &Credentials) -> raw::Credentials {
        raw::Credentials {
            label: credentials.label,
            range: credentials.range,
            read_override: credentials.read_override.into(),
            write_override: credentials.write_override.into(),
            relabel: credentials.relabel.into(),
        }
    }
}

/// What kind of file an object is.
#[derive(Clone, Copy, Debug, PartialEq, Eq, Hash)]
pub enum FileKind {
    /// The one kind that can be executed.
    Regular,
    /// The one kind that can be searched.
    Directory,
    /// Any other.
    Other,
}

/// What an object is.
#[derive(Clone, Copy, Debug, PartialEq, Eq, Hash)]
pub enum Class {
    /// A file of some kind.
    File(FileKind),
    /// A fifo. To read it takes away what is read, and so is to write it too.
    Fifo,
    /// A process.
    Process,
    /// A message queue. To read it is to receive a message, which takes it away, and so is to write it too.
    MessageQueue,
    /// A segment of shared memory.
    SharedMemory,
    /// A semaphore.
    Semaphore,
}

impl Class {
    /// The numbers of the class and of the kind, which counts for a file only.
    fn numbers(self) -> (u64, u64) {
        match self {
            Class::File(FileKind::Regular) => (raw::CLASS_FILE, raw::KIND_REGULAR),
            Class::File(FileKind::Directory) => (raw::CLASS_FILE, raw::KIND_DIRECTORY),
            Class::File(FileKind::Other) => (raw::CLASS_FILE, raw::KIND_OTHER),
            Class::Fifo => (raw::CLASS_FIFO, raw::KIND_OTHER),
            Class::Process => (raw::CLASS_PROCESS, raw::KIND_OTHER),
            Class::MessageQueue => (raw::CLASS_MESSAGE_QUEUE, raw::KIND_OTHER),
            Class::SharedMemory => (raw::CLASS_SHARED_MEMORY, raw::KIND_OTHER),
            Class::Semaphore => (raw::CLASS_SEMAPHORE, raw::KIND_OTHER),
        }
    }
}

/// The object that is asked for. It has a label, a tuple or both; the label governs.
#[derive(Clone, Copy, Debug, PartialEq, Eq, Hash)]
pub struct Object {
    /// What it is.
    pub class: Class,
    /// Its label, where it has one.
    pub label: Option<Label>,
    /// Its tuple, where it has one.
    pub tuple: Option<Tuple>,
}

impl From<&Object> for raw::Object {
    fn from(object: &Object) -> raw::Object {
        let (class, kind) = object.class.numbers();
        raw::Object {
            r#type: class,
            kind,
            has_label: object.label.is_some().into(),
            has_tuple: object.tuple.is_some().into(),
            label: object.label.unwrap_or_default(),
            tuple: (&object.tuple.unwrap_or_default()).into(),
        }
    }
}

/// What the subject intends: one of the constants, or several joined by `|`. Any numbers can be held; those that are no such sum are refused.
///
/// The intents about an attribute say which, and the others have none. One call is about one attribute: to get the one and set the other together is
/// refused.
#[derive(Clone, Copy, Debug, PartialEq, Eq, Hash, Default)]
pub struct Intents {
    /// A sum of `INTENT_..` in [`raw`].
    pub sum: u64,
    /// One of `ATTRIBUTE_..` in [`raw`], or 0 where no intent is about an attribute.
    pub attribute: u64,
}

impl Intents {
    /// To write.
    pub const WRITE: Intents = Intents { sum: raw::INTENT_WRITE, attribute: 0 };
    /// To read. Of a [`Class::Fifo`] and a [`Class::MessageQueue`] that is to write too.
    pub const READ: Intents = Intents { sum: raw::INTENT_READ, attribute: 0 };
    /// To execute a regular file.
    pub const EXECUTE: Intents = Intents { sum: raw::INTENT_EXECUTE, attribute: 0 };
    /// To search a directory.
    pub const SEARCH: Intents = Intents { sum: raw::INTENT_SEARCH, attribute: 0 };
    /// To get the label.
    pub const GET_LABEL: Intents = Intents { sum: raw::INTENT_GET_ATTRIBUTE, attribute: raw::ATTRIBUTE_LABEL };
    /// To set the label.
    pub const SET_LABEL: Intents = Intents { sum: raw::INTENT_SET_ATTRIBUTE, attribute: raw::ATTRIBUTE_LABEL };
    /// To get the tuple.
    pub const GET_TUPLE: Intents = Intents { sum: raw::INTENT_GET_ATTRIBUTE, attribute: raw::ATTRIBUTE_TUPLE };
    /// To set the tuple.
    pub const SET_TUPLE: Intents = Intents { sum: raw::INTENT_SET_ATTRIBUTE, attribute: raw::ATTRIBUTE_TUPLE };
}

/// All that either intends.
impl BitOr for Intents {
    type Output = Intents;

    fn bitor(self, other: Intents) -> Intents {
        Intents { sum: self.sum | other.sum, attribute: self.attribute | other.attribute }
    }
}

/// How access was granted.
#[derive(Clone, Copy, Debug, PartialEq, Eq, Hash)]
pub enum Decision {
    /// No privilege of the subject was needed.
    Granted,
    /// A privilege of the subject was needed, and is there.
    Privileged,
}

/// Decides for the caller whether the subject may do all that it intends to the object.
///
/// [`Refusal::Invalid`]: what is asked can't be decided, or the caller's label is invalid, even with the read override. [`Refusal::Access`]: the
/// caller may not see the subject's label, or the object's where it has one; or, which is tried after that, what is intended is denied.
/// [`Refusal::Perm`]: to set an attribute takes the privilege to relabel.
///
/// ```
/// use lurmenize::{check, Caller, Class, Credentials, Decision, FileKind, Intents, Label, Object, Range, Refusal};
///
/// let label = Label::new(30, &[1]);
/// let caller = Caller { label, read_override: false };
/// let subject = Credentials { label, range: Range::new(label, label), ..Credentials::default() };
/// let file = Object { class: Class::File(FileKind::Regular), label: Some(Label::new(20, &[1])), tuple: None };
/// assert_eq!(check(&caller, &subject, &file, Intents::READ), Ok(Decision::Granted));
/// assert_eq!(check(&caller, &subject, &file, Intents::READ | Intents::WRITE), Err(Refusal::Access));
///
/// let writer = Credentials { write_override: true, ..subject };
/// assert_eq!(check(&caller, &writer, &file, Intents::READ | Intents::WRITE), Ok(Decision::Privileged));
/// ```
///
/// A caller that may not see both labels is refused whatever is intended, and the subject's privileges do not help it. Its own read override does,
/// which is no privilege of the subject:
///
/// ```
/// # use lurmenize::{check, Caller, Class, Credentials, Decision, FileKind, Intents, Label, Object, Range, Refusal};
/// # let label = Label::new(30, &[1]);
/// # let subject = Credentials { label, range: Range::new(label, label), ..Credentials::default() };
/// # let file = Object { class: Class::File(FileKind::Regular), label: Some(Label::new(20, &[1])), tuple: None };
/// let below = Caller { label: Label::new(20, &[1]), read_override: false };
/// assert_eq!(check(&below, &subject, &file, Intents::READ), Err(Refusal::Access));
/// assert_eq!(check(&below, &Credentials { read_override: true, ..subject }, &file, Intents::READ), Err(Refusal::Access));
/// assert_eq!(check(&Caller { read_override: true, ..below }, &subject, &file, Intents::READ), Ok(Decision::Granted));
/// ```
///
/// Which attribute is asked for is part of the intent:
///
/// ```
/// # use lurmenize::{check, Caller, Class, Credentials, Decision, FileKind, Intents, Label, Object, Range, Refusal};
/// # let label = Label::new(30, &[1]);
/// # let caller = Caller { label, read_override: false };
/// # let subject = Credentials { label, range: Range::new(label, label), ..Credentials::default() };
/// let file = Object { class: Class::File(FileKind::Regular), label: Some(label), tuple: None };
/// assert_eq!(check(&caller, &subject, &file, Intents::READ | Intents::GET_LABEL), Ok(Decision::Granted));
/// assert_eq!(check(&caller, &subject, &file, Intents::SET_LABEL), Err(Refusal::Perm));
/// assert_eq!(check(&caller, &subject, &file, Intents::GET_LABEL | Intents::GET_TUPLE), Err(Refusal::Invalid));
/// ```
pub fn check(caller: &Caller, credentials: &Credentials, object: &Object, intents: Intents) -> Result<Decision, Refusal> {
    let answer = raw::lurm_check(caller.into(), credentials.into(), object.into(), intents.sum, intents.attribute);
    answer.choice(&[Decision::Granted, Decision::Privileged])
}
