//! Document 01's examples, as far as the ordinary version has what they ask, one refusal of each kind, and document 02's rule of who asks the
//! monitor.

use super::board::{Board, Place, Tenant, TenantId, PLACES, TENANTS};
use super::caller::Caller;
use super::label::{dominates, list_categories, list_categories_by_walk, lower_bound, upper_bound, Label};
use super::line::{read_label, write_label};
use super::monitor::{check, intent, Class, Credentials, FileKind, Object};
use super::range::{Range, Tuple};
use super::table::check_table;
use super::text::{read_label_text, write_label_text, Form, Style, Variant};
use super::Refusal;

const TABLE: &[u8] = b"040114036c6f770092\n04020704656173740165dc\n";
const LINE: &[u8; 71] = b"011e0600000000000000000000000000000000000000000000000000000000000000db\n";
const NAMES: Style = Style { form: Form::Definition, variant: Variant::Names };
const ABBREVIATIONS: Style = Style { form: Form::Alias, variant: Variant::Abbreviations };

fn label(hierarchy: u8, categories: &[u8]) -> Label {
    let mut label = Label { hierarchy, categories: [0; 4] };
    categories.iter().for_each(|category| label.add_category(*category));
    label
}

fn user(low: Label, high: Label) -> Tuple {
    Tuple([None, Some(Range { low, high }), None])
}

fn caller(label: Label) -> Caller {
    Caller { label, read_override: false }
}

#[test]
fn labels() {
    assert_eq!(dominates(&label(30, &[1, 2]), &label(20, &[2])), Ok(true));
    assert_eq!(dominates(&label(20, &[2]), &label(30, &[])), Ok(false));
    assert_eq!(dominates(&label(30, &[]), &label(20, &[2])), Ok(false));
    assert_eq!(upper_bound(&label(20, &[1]), &label(30, &[2])), Ok(label(30, &[1, 2])));
    assert_eq!(lower_bound(&label(20, &[1]), &label(30, &[2])), Ok(label(20, &[])));
    assert_eq!(dominates(&label(199, &[]), &label(200, &[])), Err(Refusal::Invalid));
}

#[test]
fn lines() {
    let mut out = [0xa5; 72];
    assert_eq!(write_label(&label(30, &[1, 2]), &mut out), Ok(71));
    assert_eq!((&out[..71], out[71]), (&LINE[..], 0xa5));
    assert_eq!(write_label(&label(30, &[1, 2]), &mut out[..70]), Err(Refusal::BufferShort(71)));
    assert_eq!(write_label(&label(200, &[]), &mut []), Err(Refusal::Invalid));
    assert_eq!(read_label(LINE), Ok(label(30, &[1, 2])));
    for index in 0..LINE.len() {
        let mut faulty = *LINE;
        faulty[index] ^= 1;
        assert_eq!(read_label(&faulty), Err(Refusal::Invalid));
        assert_eq!(read_label(&LINE[..index]), Err(Refusal::Invalid));
    }
    assert_eq!(read_label(b"0300fd\n"), Err(Refusal::Invalid));
}

#[test]
fn categories() {
    let all: Vec<u8> = (0..=255).collect();
    for numbers in [&[][..], &[0], &[255], &[7, 63, 64, 200], &all] {
        for list in [list_categories, list_categories_by_walk] {
            let mut out = [0xa5; 256];
            assert_eq!(list(&label(20, numbers), &mut out), numbers.len());
            assert_eq!(out[..numbers.len()], *numbers);
            assert!(out[numbers.len()..].iter().all(|byte| *byte == 0xa5));
        }
    }
}

#[test]
fn tables() {
    assert_eq!(check_table(TABLE, false), Ok(2));
    assert_eq!(check_table(TABLE, true), Err(Refusal::BadLine(2)));
    assert_eq!(check_table(&TABLE[..TABLE.len() - 1], false), Err(Refusal::BadLine(1)));
    assert_eq!(check_table(&TABLE.repeat(2), false), Err(Refusal::BadLine(2)));
    assert_eq!(check_table(b"", false), Ok(0));
    assert_eq!(check_table(b"0300fd\n", false), Err(Refusal::BadLine(0)));
    assert_eq!(check_table(&many(512), false), Ok(512));
    assert_eq!(check_table(&many(513), false), Err(Refusal::BadLine(512)));
}

/// So many entries for category 7, with names of three letters.
fn many(lines: usize) -> Vec<u8> {
    let letter = |number: usize| b'a' + (number % 26) as u8;
    let line = |number: usize| {
        let mut bytes = vec![4, 2, 7, 3, letter(number / 676), letter(number / 26), letter(number), 0];
        bytes.push(bytes.iter().fold(0, |sum: u8, byte| sum.wrapping_sub(*byte)));
        bytes.iter().map(|byte| format!("{byte:02x}")).collect::<String>() + "\n"
    };
    (0..lines).map(line).collect::<String>().into_bytes()
}

#[test]
fn texts() {
    let (low, east) = (label(20, &[]), label(20, &[7]));
    let mut out = [0xa5; 9];
    assert_eq!(write_label_text(TABLE, false, &caller(east), NAMES, &east, &mut out[..7]), Err(Refusal::BufferShort(8)));
    assert_eq!(write_label_text(TABLE, false, &caller(low), NAMES, &east, &mut out), Err(Refusal::Denied));
    assert_eq!(write_label_text(TABLE, false, &caller(east), NAMES, &label(19, &[]), &mut out), Err(Refusal::NoName));
    assert_eq!(out, [0xa5; 9]);
    assert_eq!(write_label_text(TABLE, false, &caller(east), NAMES, &east, &mut out), Ok(8));
    assert_eq!(&out, b"low:east\xa5");
    assert_eq!(write_label_text(TABLE, false, &caller(east), ABBREVIATIONS, &east, &mut out), Ok(5));
    assert_eq!(&out[..5], b"low:e");
    for (text, answer) in [
        (&b"low"[..], Ok(low)),
        (b"low:e", Ok(east)),
        (b"low:e,east", Err(Refusal::Invalid)),
        (b"low:", Err(Refusal::Invalid)),
        (b"east", Err(Refusal::Invalid)),
        (b"", Err(Refusal::Invalid)),
    ] {
        assert_eq!(read_label_text(TABLE, false, &caller(east), text), answer);
    }
    assert_eq!(read_label_text(TABLE, false, &caller(low), b"low:east"), Err(Refusal::Invalid));
    assert_eq!(read_label_text(TABLE, true, &caller(label(200, &[])), b"low"), Err(Refusal::BadLine(2)));
}

fn file(label: Label) -> Object {
    Object { class: Class::File(FileKind::Regular), label: Some(label), tuple: None }
}

fn fifo(label: Label) -> Object {
    Object { class: Class::Fifo, ..file(label) }
}

fn queue(label: Label) -> Object {
    Object { class: Class::MessageQueue, ..file(label) }
}

fn memory(tuple: Tuple) -> Object {
    Object { class: Class::SharedMemory, label: None, tuple: Some(tuple) }
}

/// At (30,{}), between (20,{}) and (40,{}), without a privilege.
fn plain() -> Credentials {
    Credentials {
        label: label(30, &[]),
        range: Range { low: label(20, &[]), high: label(40, &[]) },
        read_override: false,
        write_override: false,
        relabel: false,
    }
}

/// The intents in PROGRAMS.md's worked run of the monitor, for a caller that sees all labels there.
#[test]
fn decisions() {
    let plain = plain();
    let writer = Credentials { write_override: true, ..plain };
    let (low, own, high) = (label(20, &[]), label(30, &[]), label(40, &[]));
    let contains = user(low, high);
    let queue_with_tuple = Object { class: Class::MessageQueue, ..memory(user(low, label(25, &[]))) };
    let both = Object { tuple: Some(contains), ..file(high) };
    let directory = Object { class: Class::File(FileKind::Directory), ..file(low) };
    let outside = Credentials { label: label(50, &[]), ..plain };
    let neither = Object { label: None, ..file(low) };
    for (credentials, object, intents, answer) in [
        (plain, file(low), intent::READ, Ok(false)),
        (plain, file(high), intent::READ, Err(Refusal::Denied)),
        (Credentials { read_override: true, ..plain }, file(high), intent::READ, Ok(true)),
        (plain, file(low), intent::WRITE, Err(Refusal::Denied)),
        (plain, file(own), intent::WRITE, Ok(false)),
        (plain, file(low), intent::READ | intent::WRITE, Err(Refusal::Denied)),
        (writer, file(low), intent::READ | intent::WRITE, Ok(true)),
        (plain, fifo(low), intent::READ, Err(Refusal::Denied)),
        (plain, fifo(own), intent::READ, Ok(false)),
        (plain, queue(low), intent::READ, Err(Refusal::Denied)),
        (plain, queue(own), intent::READ, Ok(false)),
        (writer, queue(low), intent::READ, Ok(true)),
        (writer, queue(high), intent::READ, Err(Refusal::Denied)),
        (Credentials { read_override: true, ..writer }, queue(high), intent::READ, Ok(true)),
        (writer, queue_with_tuple, intent::READ, Err(Refusal::Denied)),
        (Credentials { read_override: true, ..writer }, queue_with_tuple, intent::READ, Ok(true)),
        (plain, Object { class: Class::SharedMemory, ..file(low) }, intent::READ, Ok(false)),
        (plain, memory(contains), intent::WRITE, Ok(false)),
        (plain, memory(user(low, label(25, &[]))), intent::WRITE, Err(Refusal::Denied)),
        (plain, both, intent::READ, Err(Refusal::Denied)),
        (plain, directory, intent::GET_ATTRIBUTE, Ok(false)),
        (plain, file(own), intent::SET_ATTRIBUTE, Err(Refusal::NoPrivilege)),
        (Credentials { relabel: true, ..plain }, file(own), intent::SET_ATTRIBUTE, Ok(true)),
        (plain, directory, intent::EXECUTE, Err(Refusal::Invalid)),
        (plain, neither, intent::READ, Err(Refusal::Invalid)),
        (outside, file(low), intent::READ, Err(Refusal::Invalid)),
        (plain, file(low), 64, Err(Refusal::Invalid)),
    ] {
        assert_eq!(check(&caller(high), &credentials, &object, intents, 1), answer);
    }
    assert_eq!(check(&caller(high), &plain, &directory, intent::GET_ATTRIBUTE, 3), Err(Refusal::Invalid));
}

/// The caller has to see the two labels, and no end of a range or tuple; that is tested after what is invalid and before the intents.
#[test]
fn callers() {
    let (plain, invalid) = (plain(), label(200, &[]));
    let all = Credentials { read_override: true, write_override: true, relabel: true, ..plain };
    let no_relabel = Credentials { relabel: false, ..all };
    let (low, own, aside) = (label(20, &[]), label(30, &[]), label(20, &[1]));
    let memory = memory(user(low, label(40, &[])));
    let both = Object { label: Some(aside), ..memory };
    let sees_all = Caller { read_override: true, ..caller(low) };
    for (caller, credentials, object, intents, answer) in [
        (caller(own), plain, file(low), intent::READ, Ok(false)),
        (caller(own), plain, memory, intent::WRITE, Ok(false)),
        (caller(low), all, file(low), intent::READ, Err(Refusal::Denied)),
        (caller(low), all, memory, intent::READ, Err(Refusal::Denied)),
        (caller(own), all, file(aside), intent::WRITE, Err(Refusal::Denied)),
        (caller(own), all, both, intent::READ, Err(Refusal::Denied)),
        (caller(label(30, &[1])), all, both, intent::READ, Ok(true)),
        (sees_all, plain, file(own), intent::READ | intent::WRITE, Ok(false)),
        (sees_all, plain, file(aside), intent::READ, Err(Refusal::Denied)),
        (sees_all, all, file(aside), intent::READ, Ok(true)),
        (caller(low), no_relabel, file(own), intent::SET_ATTRIBUTE, Err(Refusal::Denied)),
        (caller(own), no_relabel, file(own), intent::SET_ATTRIBUTE, Err(Refusal::NoPrivilege)),
        (caller(low), all, file(low), 0, Err(Refusal::Invalid)),
        (caller(invalid), plain, file(low), intent::WRITE, Err(Refusal::Invalid)),
        (Caller { read_override: true, ..caller(invalid) }, all, file(low), intent::READ, Err(Refusal::Invalid)),
    ] {
        assert_eq!(check(&caller, &credentials, &object, intents, 1), answer);
    }
}

/// Pool 100, two tenants with ceilings of 60 and 40, all labels (20,{}).
fn board() -> Board {
    let low = label(20, &[]);
    let mut board = Board { pool: 100, tenants: [None; TENANTS], places: [None; PLACES] };
    board.admit(TenantId(0), 60, &user(low, low)).unwrap();
    board.admit(TenantId(1), 40, &user(low, low)).unwrap();
    board
}

#[test]
fn ceilings() {
    let low = label(20, &[]);
    let mut board = board();
    assert_eq!(board.admit(TenantId(2), 1, &user(low, low)), Err(Refusal::NoPages));
    assert_eq!(board.open(TenantId(0), &low, 60), Ok(Place(0)));
    assert_eq!(board.open(TenantId(0), &low, 1), Err(Refusal::NoPages));
    assert_eq!(board.open(TenantId(1), &low, 40), Ok(Place(8)));
    assert_eq!(board.size(TenantId(0), &low, Place(0), 59), Ok(()));
    assert_eq!(board.open(TenantId(0), &low, 1), Ok(Place(1)));
    assert_eq!(board.set_ceiling(TenantId(0), 59), Err(Refusal::InUse));
    assert_eq!(board.set_ceiling(TenantId(0), 61), Err(Refusal::NoPages));
    assert_eq!(board.set_ceiling(TenantId(0), u64::MAX), Err(Refusal::NoPages));
    assert_eq!(board.set_ceiling(TenantId(2), 1), Err(Refusal::Invalid));
    assert_eq!(board.admit(TenantId(0), 1, &user(low, low)), Err(Refusal::InUse));
    assert_eq!(board.admit(TenantId(8), 1, &user(low, low)), Err(Refusal::Invalid));
    assert_eq!(board.admit(TenantId(2), 1, &Tuple([None; 3])), Err(Refusal::Invalid));
}

#[test]
fn segments() {
    let low = label(20, &[]);
    let mut board = board();
    (0..8).for_each(|place| assert_eq!(board.open(TenantId(0), &low, 1), Ok(Place(place))));
    assert_eq!(board.open(TenantId(0), &low, 1), Err(Refusal::NoPlace));
    assert_eq!(board.open(TenantId(0), &low, 0), Err(Refusal::Invalid));
    assert_eq!(board.post(TenantId(0), &low, Place(3), 7), Ok(()));
    assert_eq!(board.look(TenantId(1), &low, Place(3)).map(|held| held.edition), Ok(7));
    assert_eq!(board.look(TenantId(1), &low, Place(8)), Err(Refusal::Denied));
    assert_eq!(board.look(TenantId(1), &low, Place(64)), Err(Refusal::Invalid));
    assert_eq!(board.look(TenantId(1), &label(21, &[]), Place(3)), Err(Refusal::NoPrivilege));
    assert_eq!(board.close(TenantId(1), &low, Place(3)), Err(Refusal::Denied));
    assert_eq!(board.close(TenantId(0), &low, Place(3)), Ok(()));
    assert_eq!(board.close(TenantId(0), &low, Place(3)), Err(Refusal::Denied));
    assert_eq!(board.open(TenantId(0), &low, 53), Ok(Place(3)));
}

#[test]
fn unsound_boards() {
    let low = label(20, &[]);
    let mut sound = board();
    sound.open(TenantId(0), &low, 60).unwrap();
    let changed = |change: fn(&mut Board)| {
        let mut board = sound.clone();
        change(&mut board);
        board
    };
    let record = |board: &mut Board, ceiling| board.tenants[0].as_mut().map(|tenant: &mut Tenant| tenant.ceiling = ceiling);
    assert!(sound.is_sound());
    assert!(!changed(|board| board.pool = 0).is_sound());
    assert!(!changed(|board| board.pool = 99).is_sound());
    assert!(!changed(|board| board.tenants[0] = None).is_sound());
    assert!(!changed(|board| board.places[0].as_mut().unwrap().pages = 0).is_sound());
    assert!(!changed(|board| board.places[0].as_mut().unwrap().pages = 61).is_sound());
    assert!(!changed(|board| board.places[0].as_mut().unwrap().label.hierarchy = 21).is_sound());
    assert!(!changed(|board| board.places[1] = board.places[0]).is_sound());
    for ceiling in [0, 59, 61, u64::MAX] {
        let mut board = sound.clone();
        record(&mut board, ceiling);
        assert!(!board.is_sound());
        assert_eq!(board.clone().close(TenantId(0), &low, Place(0)), Err(Refusal::Invalid));
    }
}
