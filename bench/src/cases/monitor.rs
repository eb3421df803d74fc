//! Decisions of the monitor: grants, grants by privilege and denials. Callers mostly see both labels; once in eight times one passes by its read
//! override or is refused, so that this is timed and compared too.

use super::labels::{below, label, label_at};
use super::{prepared, Case};
use crate::by_value;
use crate::convert::answer;
use crate::harness::{side, Side, Sides};
use crate::ordinary::caller::Caller;
use crate::ordinary::label::{upper_bound, Label};
use crate::ordinary::monitor::{check, intent, Class, Credentials, FileKind, Object};
use crate::ordinary::range::{Range, Tuple};
use crate::random::Random;
use lurmenize::raw;

const REQUESTS: usize = 1024;

struct Request {
    caller: Caller,
    credentials: Credentials,
    object: Object,
    intents: u64,
    attribute: u64,
}

/// What the archive is handed.
type RawRequest = (raw::Caller, raw::Credentials, raw::Object, u64, u64);

impl From<&Request> for RawRequest {
    fn from(request: &Request) -> RawRequest {
        (request.caller.into(), request.credentials.into(), request.object.into(), request.intents, request.attribute)
    }
}

/// A subject in the middle of its range; it has each privilege once in four times.
fn credentials(random: &mut Random) -> Credentials {
    let high = label(random);
    let subject = below(random, &high);
    let low = below(random, &subject);
    Credentials {
        label: subject,
        range: Range { low, high },
        read_override: random.once_in(4),
        write_override: random.once_in(4),
        relabel: random.once_in(4),
    }
}

/// What is asked of an object of that class: reads and writes, a file's own intents, or attributes.
fn intents(random: &mut Random, class: Class) -> u64 {
    let own = match class {
        Class::File(FileKind::Regular) => intent::EXECUTE,
        Class::File(FileKind::Directory) => intent::SEARCH,
        _ => intent::READ,
    };
    random.pick(&[
        intent::READ,
        intent::READ,
        intent::WRITE,
        intent::READ | intent::WRITE,
        own,
        intent::READ | own,
        intent::GET_ATTRIBUTE,
        intent::SET_ATTRIBUTE,
    ])
}

/// Has the least label that sees the subject's and the object's. Once in eight times it has any other label, which hardly ever does: half of those
/// callers have the read override.
fn caller(random: &mut Random, subject: &Label, object: &Object) -> Caller {
    if random.once_in(8) {
        return Caller { label: label(random), read_override: random.once_in(2) };
    }
    let both = object.label.map(|label| upper_bound(subject, &label).expect("a bound of valid labels"));
    Caller { label: both.unwrap_or(*subject), read_override: false }
}

fn request(random: &mut Random, credentials: Credentials, object: Object) -> Request {
    let caller = caller(random, &credentials.label, &object);
    Request { caller, credentials, object, intents: intents(random, object.class), attribute: random.between(1, 2) }
}

/// A file whose label is the subject's, or one that it dominates, or any.
fn labelled_file(random: &mut Random) -> Request {
    let credentials = credentials(random);
    let label = match random.below(3) {
        0 => credentials.label,
        1 => below(random, &credentials.label),
        _ => label(random),
    };
    let kind = random.pick(&[FileKind::Regular, FileKind::Directory, FileKind::Other]);
    request(random, credentials, Object { class: Class::File(kind), label: Some(label), tuple: None })
}

/// A full tuple, whose ranges contain all labels or those of some categories.
fn tuple(random: &mut Random) -> Tuple {
    let all = random.once_in(2);
    Tuple([(0, 19), (20, 179), (180, 199)].map(|(low, high)| {
        let some = label_at(random, high);
        let categories = if all { [u64::MAX; 4] } else { some.categories };
        Some(Range { low: Label { hierarchy: low, categories: [0; 4] }, high: Label { categories, ..some } })
    }))
}

/// An object of any class but a file, that has a tuple alone.
fn object_with_tuple(random: &mut Random) -> Request {
    let credentials = credentials(random);
    let class = random.pick(&[Class::Fifo, Class::Process, Class::MessageQueue, Class::SharedMemory, Class::Semaphore]);
    let tuple = tuple(random);
    request(random, credentials, Object { class, label: None, tuple: Some(tuple) })
}

fn proved(requests: Vec<RawRequest>) -> Box<dyn Side<raw::Answer>> {
    side(
        (),
        requests,
        |_, (caller, credentials, object, intents, attribute)| raw::lurm_check(*caller, *credentials, *object, *intents, *attribute),
        |_, answer| answer,
    )
}

fn decision(random: &mut Random, make: fn(&mut Random) -> Request) -> Sides<raw::Answer> {
    let requests = prepared(REQUESTS, random, make);
    let raw_requests = requests.iter().map(RawRequest::from).collect();
    let ordinary = side(
        (),
        requests,
        |_, asked| check(&asked.caller, &asked.credentials, &asked.object, asked.intents, asked.attribute),
        |_, result| answer(result.map(u64::from)),
    );
    vec![ordinary, proved(raw_requests)]
}

/// The ordinary version behind the header's interface, and the proved one.
fn passed(random: &mut Random, make: fn(&mut Random) -> Request) -> Sides<raw::Answer> {
    let requests: Vec<RawRequest> = prepared(REQUESTS, random, make).iter().map(RawRequest::from).collect();
    let ordinary = side(
        (),
        requests.clone(),
        |_, (caller, credentials, object, intents, attribute)| by_value::check(*caller, *credentials, *object, *intents, *attribute),
        |_, answer| answer,
    );
    vec![ordinary, proved(requests)]
}

pub fn cases() -> Vec<Case> {
    vec![
        Case::new("decision, file with label", |random| decision(random, labelled_file)),
        Case::new("decision, object with tuple", |random| decision(random, object_with_tuple)),
        Case::new("decision, file with label, by value", |random| passed(random, labelled_file)),
        Case::new("decision, object with tuple, by value", |random| passed(random, object_with_tuple)),
    ]
}
