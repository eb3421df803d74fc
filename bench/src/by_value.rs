//! The ordinary version behind the interface of the header: structs are passed by value, flags, zeros and numbers are tested and decoded, and a
//! state is handed back. What it takes longer than the ordinary version is what the interface takes, whoever wrote the code behind it. The
//! functions are exported, so that the compiler keeps to the interface.

use crate::convert::{answer, label_answer};
use crate::ordinary::board::{Board, Place, Segment, Tenant, TenantId};
use crate::ordinary::caller::Caller;
use crate::ordinary::label::{inlined, Label};
use crate::ordinary::monitor::{check_inlined, Class, Credentials, FileKind, Object};
use crate::ordinary::range::{Range, Tuple};
use crate::ordinary::Refusal;
use lurmenize::raw;

/// Nothing where the hierarchy is too large for a label of the ordinary version.
fn label(from: &raw::Label) -> Option<Label> {
    Some(Label { hierarchy: u8::try_from(from.hierarchy).ok()?, categories: from.categories })
}

fn range(from: &raw::Range) -> Option<Range> {
    Some(Range { low: label(&from.low)?, high: label(&from.high)? })
}

fn flag(from: u64) -> Option<bool> {
    match from {
        0 => Some(false),
        1 => Some(true),
        _ => None,
    }
}

/// Nothing where a flag is no flag, or a range that is not there is not zeros.
fn tuple(from: &raw::Tuple) -> Option<Tuple> {
    let mut ranges = [None; 3];
    for (range_of_region, given) in ranges.iter_mut().zip(&from.ranges) {
        *range_of_region = match given.present {
            0 if given.range == raw::Range::default() => None,
            1 => Some(range(&given.range)?),
            _ => return None,
        };
    }
    Some(Tuple(ranges))
}

fn tenant(from: &raw::Tenant) -> Option<Option<Tenant>> {
    if *from == raw::Tenant::default() {
        return Some(None);
    }
    Some(Some(Tenant { ceiling: from.ceiling, clearance: tuple(&from.clearance)? }))
}

fn segment(from: &raw::Segment) -> Option<Option<Segment>> {
    if *from == raw::Segment::default() {
        return Some(None);
    }
    Some(Some(Segment { label: label(&from.label)?, pages: from.pages, edition: from.version }))
}

fn board(from: &raw::State) -> Option<Board> {
    let mut tenants = [None; 8];
    for (record, given) in tenants.iter_mut().zip(&from.tenants) {
        *record = tenant(given)?;
    }
    let mut places = [None; 64];
    for (place, given) in places.iter_mut().zip(&from.segments) {
        *place = segment(given)?;
    }
    Some(Board { pool: from.pool, tenants, places })
}

fn file_kind(kind: u64) -> Option<FileKind> {
    Some(match kind {
        0 => FileKind::Regular,
        1 => FileKind::Directory,
        2 => FileKind::Other,
        _ => return None,
    })
}

/// The kind counts for a file only.
fn class(class: u64, kind: u64) -> Option<Class> {
    Some(match class {
        0 => Class::File(file_kind(kind)?),
        1 => Class::Fifo,
        2 => Class::Process,
        3 => Class::MessageQueue,
        4 => Class::SharedMemory,
        5 => Class::Semaphore,
        _ => return None,
    })
}

fn caller(from: &raw::Caller) -> Option<Caller> {
    Some(Caller { label: label(&from.label)?, read_override: flag(from.read_override)? })
}

fn credentials(from: &raw::Credentials) -> Option<Credentials> {
    Some(Credentials {
        label: label(&from.label)?,
        range: range(&from.range)?,
        read_override: flag(from.read_override)?,
        write_override: flag(from.write_override)?,
        relabel: flag(from.relabel)?,
    })
}

fn object(from: &raw::Object) -> Option<Object> {
    let label = if flag(from.has_label)? { Some(label(&from.label)?) } else { None };
    let tuple = if flag(from.has_tuple)? { Some(tuple(&from.tuple)?) } else { None };
    Some(Object { class: class(from.r#type, from.kind)?, label, tuple })
}

/// What the function answers on both labels, where the ordinary version can hold them.
#[inline(always)]
fn on_labels<T>(a: raw::Label, b: raw::Label, call: impl Fn(&Label, &Label) -> Result<T, Refusal>) -> Result<T, Refusal> {
    match (label(&a), label(&b)) {
        (Some(a), Some(b)) => call(&a, &b),
        _ => Err(Refusal::Invalid),
    }
}

#[export_name = "bench_by_value_dominates"]
#[inline(never)]
pub extern "C" fn dominates(a: raw::Label, b: raw::Label) -> raw::Answer {
    answer(on_labels(a, b, inlined::dominates).map(u64::from))
}

#[export_name = "bench_by_value_upper_bound"]
#[inline(never)]
pub extern "C" fn upper_bound(a: raw::Label, b: raw::Label) -> raw::LabelAnswer {
    label_answer(on_labels(a, b, inlined::upper_bound))
}

#[export_name = "bench_by_value_lower_bound"]
#[inline(never)]
pub extern "C" fn lower_bound(a: raw::Label, b: raw::Label) -> raw::LabelAnswer {
    label_answer(on_labels(a, b, inlined::lower_bound))
}

#[export_name = "bench_by_value_check"]
#[inline(never)]
pub extern "C" fn check(who: raw::Caller, subject: raw::Credentials, asked: raw::Object, intents: u64, attribute: u64) -> raw::Answer {
    let (Some(who), Some(subject), Some(asked)) = (caller(&who), credentials(&subject), object(&asked)) else {
        return Refusal::Invalid.into();
    };
    answer(check_inlined(&who, &subject, &asked, intents, attribute).map(u64::from))
}

#[export_name = "bench_by_value_post"]
#[inline(never)]
pub extern "C" fn post(state: raw::State, tenant: raw::TenantId, subject: raw::Label, slot: raw::Slot, version: u64) -> raw::Outcome {
    let result = match (board(&state), label(&subject)) {
        (Some(mut board), Some(subject)) => board.post(TenantId(tenant.number), &subject, Place(slot.number), version),
        _ => Err(Refusal::Invalid),
    };
    let mut outcome = raw::Outcome { state, answer: answer(result.map(|_| 0)), shown: raw::Segment::default() };
    if result.is_ok() {
        outcome.state.segments[slot.number as usize].version = version;
    }
    outcome
}
