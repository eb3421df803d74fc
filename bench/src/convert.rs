//! Values of the ordinary version as the header has them: inputs are prepared once and handed to both, answers are compared in one form.

use crate::ordinary::board::{Board, Segment, Tenant};
use crate::ordinary::caller::Caller;
use crate::ordinary::label::Label;
use crate::ordinary::monitor::{Class, Credentials, FileKind, Object};
use crate::ordinary::range::{Range, Tuple};
use crate::ordinary::text::Style;
use crate::ordinary::Refusal;
use lurmenize::raw;

impl From<Label> for raw::Label {
    fn from(label: Label) -> raw::Label {
        raw::Label { hierarchy: label.hierarchy.into(), categories: label.categories }
    }
}

impl From<Range> for raw::Range {
    fn from(range: Range) -> raw::Range {
        raw::Range { low: range.low.into(), high: range.high.into() }
    }
}

impl From<Tuple> for raw::Tuple {
    fn from(tuple: Tuple) -> raw::Tuple {
        let present = |range: Range| raw::RegionRange { present: 1, range: range.into() };
        raw::Tuple { ranges: tuple.0.map(|range| range.map(present).unwrap_or_default()) }
    }
}

impl From<Caller> for raw::Caller {
    fn from(caller: Caller) -> raw::Caller {
        raw::Caller { label: caller.label.into(), read_override: caller.read_override.into() }
    }
}

impl From<Style> for raw::Style {
    fn from(style: Style) -> raw::Style {
        raw::Style { form: style.form as u64, variant: style.variant as u64 }
    }
}

impl From<Credentials> for raw::Credentials {
    fn from(credentials: Credentials) -> raw::Credentials {
        raw::Credentials {
            label: credentials.label.into(),
            range: credentials.range.into(),
            read_override: credentials.read_override.into(),
            write_override: credentials.write_override.into(),
            relabel: credentials.relabel.into(),
        }
    }
}

/// The numbers of a class and, for a file, of its kind.
fn class_numbers(class: Class) -> (u64, u64) {
    match class {
        Class::File(FileKind::Regular) => (0, 0),
        Class::File(FileKind::Directory) => (0, 1),
        Class::File(FileKind::Other) => (0, 2),
        Class::Fifo => (1, 0),
        Class::Process => (2, 0),
        Class::MessageQueue => (3, 0),
        Class::SharedMemory => (4, 0),
        Class::Semaphore => (5, 0),
    }
}

impl From<Object> for raw::Object {
    fn from(object: Object) -> raw::Object {
        let (class, kind) = class_numbers(object.class);
        raw::Object {
            r#type: class,
            kind,
            has_label: object.label.is_some().into(),
            has_tuple: object.tuple.is_some().into(),
            label: object.label.map(raw::Label::from).unwrap_or_default(),
            tuple: object.tuple.map(raw::Tuple::from).unwrap_or_default(),
        }
    }
}

impl From<Segment> for raw::Segment {
    fn from(segment: Segment) -> raw::Segment {
        raw::Segment { label: segment.label.into(), pages: segment.pages, version: segment.edition }
    }
}

impl From<&Board> for raw::State {
    fn from(board: &Board) -> raw::State {
        let tenant = |record: Tenant| raw::Tenant { ceiling: record.ceiling, clearance: record.clearance.into() };
        raw::State {
            pool: board.pool,
            tenants: board.tenants.map(|record| record.map(tenant).unwrap_or_default()),
            segments: board.places.map(|held| held.map(raw::Segment::from).unwrap_or_default()),
        }
    }
}

impl From<Refusal> for raw::Answer {
    fn from(refusal: Refusal) -> raw::Answer {
        let carried = refusal.carried();
        raw::Answer { refusal: refusal.number(), carries: carried.is_some().into(), value: carried.unwrap_or(0) as u64 }
    }
}

/// What is granted, or the refusal.
pub fn answer(result: Result<u64, Refusal>) -> raw::Answer {
    result.map_or_else(raw::Answer::from, |value| raw::Answer { refusal: 0, carries: 0, value })
}

/// The same of a label.
pub fn label_answer(result: Result<Label, Refusal>) -> raw::LabelAnswer {
    raw::LabelAnswer { answer: answer(result.map(|_| 0)), label: result.map(raw::Label::from).unwrap_or_default() }
}
