//! Both versions on odd inputs, which the timed ones leave out: what the one refuses, the other refuses alike.

use crate::by_value;
use crate::cases::names::NamedTable;
use crate::convert::{answer, label_answer};
use crate::ordinary::board::{Board, Place, Segment, Tenant, TenantId, PLACES, TENANTS};
use crate::ordinary::caller::Caller;
use crate::ordinary::label::{dominates, lower_bound, upper_bound, Label};
use crate::ordinary::line::{read_label, write_label};
use crate::ordinary::monitor::{check, Class, Credentials, FileKind, Object};
use crate::ordinary::range::{Range, Tuple};
use crate::ordinary::table::check_table;
use crate::ordinary::text::{read_label_text, write_label_text, write_label_text_by_walk, Form, Style, Variant};
use crate::ordinary::Refusal;
use crate::random::Random;
use lurmenize::raw;

const TURNS: usize = 20_000;

/// A label of few hierarchies and categories, so that many are equal or comparable; a few are invalid.
fn label(random: &mut Random) -> Label {
    let hierarchy = random.pick(&[0, 19, 20, 21, 30, 179, 180, 199, 200, 255]);
    Label { hierarchy, categories: [random.next() & 3, 0, 0, random.next() & random.next() & random.next() & 1 << 63] }
}

/// That label, or another.
fn or_other(random: &mut Random, given: Label) -> Label {
    let other = label(random);
    random.pick(&[given, other])
}

/// The least label that dominates both, where they are valid.
fn joined(a: Label, b: Label) -> Label {
    let categories = std::array::from_fn(|word| a.categories[word] | b.categories[word]);
    Label { hierarchy: a.hierarchy.max(b.hierarchy), categories }
}

fn range(random: &mut Random) -> Range {
    let (low, high) = (label(random), label(random));
    Range { low, high: if random.once_in(4) { high } else { joined(low, high) } }
}

fn tuple(random: &mut Random) -> Tuple {
    let ends = [(0, 19), (20, 179), (180, 199)];
    Tuple(ends.map(|(first, last)| {
        let Range { low, high } = range(random);
        let fitted = Range { low: Label { hierarchy: first, ..low }, high: Label { hierarchy: last, ..high } };
        random.once_in(2).then(|| if random.once_in(16) { Range { low, high } } else { fitted })
    }))
}

/// Changes one byte now and then.
fn spoil(random: &mut Random, bytes: &mut [u8]) {
    if random.once_in(2) && !bytes.is_empty() {
        let index = random.below(bytes.len());
        bytes[index] = random.pick(b"0123456789abcdefA:,\n- ");
    }
}

fn count_answer(result: Result<usize, Refusal>) -> raw::Answer {
    answer(result.map(|value| value as u64))
}

#[test]
fn labels() {
    let random = &mut Random::new(1);
    for _ in 0..TURNS {
        let (a, b) = (label(random), label(random));
        let (x, y) = (a.into(), b.into());
        assert_eq!(answer(dominates(&a, &b).map(u64::from)), raw::lurm_dominates(x, y));
        assert_eq!(label_answer(upper_bound(&a, &b)), raw::lurm_upper_bound(x, y));
        assert_eq!(label_answer(lower_bound(&a, &b)), raw::lurm_lower_bound(x, y));
    }
}

#[test]
fn lines() {
    let random = &mut Random::new(2);
    for _ in 0..TURNS {
        let label = label(random);
        let (mut ordinary, mut proved) = ([0xa5; 80], [0xa5; 80]);
        let length = random.between(65, 80) as usize;
        let written = count_answer(write_label(&label, &mut ordinary[..length]));
        // SAFETY, here and below: pointers go with their lengths.
        assert_eq!(written, unsafe { raw::lurm_write_label(label.into(), proved.as_mut_ptr(), length) });
        assert_eq!(ordinary, proved);
        let line = &mut ordinary[..random.pick(&[71, 71, 71, 70, 72, 0])];
        spoil(random, line);
        let read = label_answer(read_label(line));
        assert_eq!(read, unsafe { raw::lurm_read_label(line.as_ptr(), line.len()) });
    }
}

/// An alias table with a line too many, a spoiled byte, or neither.
fn table(random: &mut Random) -> (NamedTable, Vec<u8>) {
    let table = NamedTable::new(random, 16);
    let mut bytes = table.bytes.clone();
    if random.once_in(4) {
        let end = bytes.iter().position(|byte| *byte == b'\n').map_or(0, |index| index + 1);
        bytes.extend_from_within(..end);
    }
    if random.once_in(4) {
        spoil(random, &mut bytes);
    }
    (table, bytes)
}

#[test]
fn texts() {
    let random = &mut Random::new(3);
    for _ in 0..TURNS / 4 {
        let (names, table) = table(random);
        let (pointer, length, more) = (table.as_ptr(), table.len(), random.once_in(16));
        assert_eq!(count_answer(check_table(&table, more)), unsafe { raw::lurm_check_alias_table(pointer, length, more.into()) });
        let named = names.label(random);
        let caller = Caller { label: or_other(random, named), read_override: random.once_in(2) };
        let form = random.pick(&[Form::Definition, Form::Alias]);
        let style = Style { form, variant: random.pick(&[Variant::Names, Variant::Abbreviations]) };
        let written = or_other(random, named);
        let (mut ordinary, mut proved) = ([0xa5; 128], [0xa5; 128]);
        let room = random.pick(&[128, 128, 20]);
        let wrote = write_label_text(&table, more, &caller, style, &written, &mut ordinary[..room]);
        let (who, how, what, out) = (caller.into(), style.into(), written.into(), proved.as_mut_ptr());
        assert_eq!(count_answer(wrote), unsafe { raw::lurm_write_label_text(pointer, length, more.into(), who, how, what, out, room) });
        assert_eq!(ordinary, proved);
        let mut by_walk = [0xa5; 128];
        assert_eq!(write_label_text_by_walk(&table, more, &caller, style, &written, &mut by_walk[..room]), wrote);
        assert_eq!(ordinary, by_walk);
        let text = &mut ordinary[..wrote.unwrap_or(9)];
        spoil(random, text);
        let read = label_answer(read_label_text(&table, more, &caller, text));
        assert_eq!(read, unsafe { raw::lurm_read_label_text(pointer, length, more.into(), who, text.as_ptr(), text.len()) });
    }
}

/// A subject and an object, which often have the same label, and a caller, which often sees both.
fn request(random: &mut Random) -> (Caller, Credentials, Object) {
    let files = [FileKind::Regular, FileKind::Directory, FileKind::Other].map(Class::File);
    let others = [Class::Fifo, Class::Process, Class::MessageQueue, Class::SharedMemory, Class::Semaphore];
    let range = range(random);
    let credentials = Credentials {
        label: or_other(random, range.high),
        range,
        read_override: random.once_in(2),
        write_override: random.once_in(2),
        relabel: random.once_in(2),
    };
    let other = label(random);
    let label = or_other(random, credentials.label);
    let object = Object {
        class: if random.once_in(2) { random.pick(&files) } else { random.pick(&others) },
        label: random.once_in(2).then_some(label),
        tuple: random.once_in(2).then(|| tuple(random)),
    };
    let both = joined(credentials.label, label);
    let seen = random.pick(&[both, both, credentials.label, label, other]);
    (Caller { label: seen, read_override: random.once_in(4) }, credentials, object)
}

#[test]
fn decisions() {
    let random = &mut Random::new(4);
    for _ in 0..TURNS {
        let (caller, credentials, object) = request(random);
        let (intents, attribute) = (random.between(0, 65), random.between(0, 3));
        let decided = check(&caller, &credentials, &object, intents, attribute).map(u64::from);
        assert_eq!(answer(decided), raw::lurm_check(caller.into(), credentials.into(), object.into(), intents, attribute));
    }
}

/// A tenant of any ceiling, mostly one that is cleared for the user region.
fn tenant(random: &mut Random) -> Tenant {
    let high = Label { hierarchy: 179, ..label(random) };
    let user = Tuple([None, Some(Range { low: Label { hierarchy: 20, categories: [0; 4] }, high }), None]);
    let clearance = if random.once_in(16) { tuple(random) } else { user };
    Tenant { ceiling: random.between(0, 60), clearance }
}

/// A board that is sound or nearly so, with tenants missing and places empty.
fn board(random: &mut Random) -> Board {
    let tenants = std::array::from_fn(|_| {
        // A record of zeros would be an absent one in the header's form.
        let record = Some(tenant(random)).filter(|record| record.ceiling > 0 || !record.clearance.is_empty());
        record.filter(|_| random.once_in(2))
    });
    let mut board = Board { pool: random.between(100, 300), tenants, places: [None; PLACES] };
    for place in 0..PLACES {
        let held = Segment { label: label(random), pages: random.between(0, 3), edition: random.next() };
        let cleared = board.tenants[place / 8].is_some_and(|tenant| tenant.clearance.contains(&held.label));
        let filled = cleared && held.pages > 0 && random.once_in(2) || random.once_in(512);
        board.places[place] = filled.then_some(held);
    }
    board
}

/// Some call on both, and what they answer.
fn call(random: &mut Random, board: &mut Board, state: &mut raw::State) -> (raw::Answer, raw::Answer) {
    let (tenant, place, number) = (random.between(0, 8), random.between(0, 64), random.between(0, 30));
    let (id, at, clearance) = (TenantId(tenant), Place(place), tuple(random));
    let (tenant, slot) = (raw::TenantId::new(tenant), raw::Slot::new(place));
    let held = board.places.get(place as usize).copied().flatten().map_or(label(random), |held| held.label);
    let label = or_other(random, held);
    let (result, outcome) = match random.below(7) {
        0 => (board.open(id, &label, number).map(|place| place.0), raw::lurm_open(*state, tenant, label.into(), number)),
        1 => (board.size(id, &label, at, number).map(|_| 0), raw::lurm_size(*state, tenant, label.into(), slot, number)),
        2 => (board.post(id, &label, at, number).map(|_| 0), raw::lurm_post(*state, tenant, label.into(), slot, number)),
        3 => (board.close(id, &label, at).map(|_| 0), raw::lurm_close(*state, tenant, label.into(), slot)),
        4 => (board.look(id, &label, at).map(|_| 0), raw::lurm_look(*state, tenant, label.into(), slot)),
        5 => (board.admit(id, number, &clearance).map(|_| 0), raw::lurm_admit(*state, tenant, number, clearance.into())),
        _ => (board.set_ceiling(id, number).map(|_| 0), raw::lurm_set_ceiling(*state, tenant, number)),
    };
    *state = outcome.state;
    (answer(result), outcome.answer)
}

#[test]
fn boards() {
    let random = &mut Random::new(5);
    let mut granted = 0;
    for _ in 0..TURNS / 40 {
        let mut board = board(random);
        let mut state = raw::State::from(&board);
        assert_eq!(u64::from(board.is_sound()), raw::lurm_sound(state).value);
        for _ in 0..TENANTS * 4 {
            let (ordinary, proved) = call(random, &mut board, &mut state);
            assert_eq!(ordinary, proved);
            assert_eq!(raw::State::from(&board), state);
            granted += usize::from(proved.refusal == 0);
        }
    }
    assert!(granted > TURNS / 100, "too few grants: {granted}");
}

/// Changes a number now and then: to one that is hardly right anywhere, or that differs in its high bits alone.
fn spoil_number(random: &mut Random, number: &mut u64) {
    if random.once_in(8) {
        *number = random.pick(&[2, 7, 200, 255, *number + (1 << 8), *number + (1 << 32), u64::MAX]);
    }
}

/// Changes one of the numbers, now and then.
fn spoil_one<const N: usize>(random: &mut Random, numbers: [&mut u64; N]) {
    let chosen = random.below(N);
    spoil_number(random, numbers[chosen]);
}

fn spoiled_label(random: &mut Random) -> raw::Label {
    let mut label = raw::Label::from(label(random));
    spoil_number(random, &mut label.hierarchy);
    label
}

#[test]
fn labels_by_value() {
    let random = &mut Random::new(6);
    for _ in 0..TURNS {
        let (a, b) = (spoiled_label(random), spoiled_label(random));
        assert_eq!(by_value::dominates(a, b), raw::lurm_dominates(a, b));
        assert_eq!(by_value::upper_bound(a, b), raw::lurm_upper_bound(a, b));
        assert_eq!(by_value::lower_bound(a, b), raw::lurm_lower_bound(a, b));
    }
}

/// Changes what a tuple says of a region, now and then.
fn spoil_tuple(random: &mut Random, tuple: &mut raw::Tuple) {
    let region = &mut tuple.ranges[random.below(3)];
    spoil_number(random, &mut region.present);
    spoil_number(random, &mut region.range.high.hierarchy);
}

#[test]
fn decisions_by_value() {
    let random = &mut Random::new(7);
    for _ in 0..TURNS {
        let (caller, credentials, object) = request(random);
        let mut caller = raw::Caller::from(caller);
        let (mut credentials, mut object) = (raw::Credentials::from(credentials), raw::Object::from(object));
        let numbers = [
            &mut caller.label.hierarchy,
            &mut caller.read_override,
            &mut credentials.label.hierarchy,
            &mut credentials.range.low.hierarchy,
            &mut credentials.read_override,
            &mut credentials.write_override,
            &mut credentials.relabel,
            &mut object.r#type,
            &mut object.kind,
            &mut object.has_label,
            &mut object.has_tuple,
            &mut object.label.hierarchy,
        ];
        spoil_one(random, numbers);
        spoil_tuple(random, &mut object.tuple);
        let (intents, attribute) = (random.between(0, 65), random.between(0, 3));
        let decided = by_value::check(caller, credentials, object, intents, attribute);
        assert_eq!(decided, raw::lurm_check(caller, credentials, object, intents, attribute));
    }
}

/// A state, and a filled slot of it where there is one.
fn state_and_slot(random: &mut Random) -> (raw::State, usize) {
    let board = board(random);
    let filled: Vec<usize> = (0..PLACES).filter(|place| board.places[*place].is_some()).collect();
    (raw::State::from(&board), if filled.is_empty() { 0 } else { random.pick(&filled) })
}

#[test]
fn posts_by_value() {
    let random = &mut Random::new(8);
    let mut granted = 0;
    for _ in 0..TURNS / 4 {
        let (mut state, held) = state_and_slot(random);
        let (mut tenant, mut slot, mut label) = (held as u64 / 8, held as u64, state.segments[held].label);
        let numbers = [&mut state.segments[held].label.hierarchy, &mut tenant, &mut slot, &mut label.hierarchy];
        spoil_one(random, numbers);
        spoil_tuple(random, &mut state.tenants[held / 8].clearance);
        let (tenant, slot, version) = (raw::TenantId::new(tenant), raw::Slot::new(slot), random.next());
        let proved = raw::lurm_post(state, tenant, label, slot, version);
        assert!(by_value::post(state, tenant, label, slot, version) == proved);
        granted += usize::from(proved.answer.refusal == 0);
    }
    assert!(granted > TURNS / 100, "too few grants: {granted}");
}
