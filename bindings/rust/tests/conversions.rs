//! What comes in is held as it is or refused: no value is cut, and nothing that is invalid becomes valid, on the way to the library or back.

use lurmenize::*;

/// Numbers that would become 0, 1, 20 or 255 in a type of fewer bits, and others that are too large.
const WIDE: [u64; 8] = [256, 257, 256 + 20, 1 << 16, (1 << 32) + 1, (1 << 32) + 20, (1 << 63) + 20, u64::MAX];

fn label(hierarchy: u64) -> Label {
    Label::new(hierarchy, &[1])
}

fn user() -> Tuple {
    Tuple { ranges: [None, Some(Range::new(label(20), label(40))), None] }
}

#[test]
fn hierarchies_are_not_cut() {
    for hierarchy in WIDE {
        let (valid, invalid) = (label(20), label(hierarchy));
        assert_eq!(invalid.dominates(&valid), Err(Refusal::Invalid));
        assert_eq!(valid.equal(&invalid), Err(Refusal::Invalid));
        assert_eq!(invalid.region(), Err(Refusal::Invalid));
        assert_eq!(invalid.to_line(), Err(Refusal::Invalid));
        assert_eq!(invalid.has_category(1), Err(Refusal::Invalid));
        assert_eq!(Range::new(valid, invalid).split(), Err(Refusal::Invalid));
        assert_eq!(Tuple { ranges: [None, Some(Range::new(valid, invalid)), None] }.is_empty(), Err(Refusal::Invalid));
        assert_eq!(Entry::new(Named::Hierarchy(hierarchy), "n", "").to_line(), Err(Refusal::Invalid));
        assert_eq!(Entry::new(Named::Label(invalid), "n", "").to_line(), Err(Refusal::Invalid));
        let caller = Caller { label: invalid, read_override: true };
        assert_eq!(AliasTable::new(b"").label_text(&caller, Style::default(), &valid), Err(Refusal::Invalid));
        let subject = Credentials { label: valid, range: Range::new(valid, valid), ..Credentials::default() };
        let fifo = Object { class: Class::Fifo, label: Some(valid), tuple: None };
        assert_eq!(check(&caller, &subject, &fifo, Intents::READ), Err(Refusal::Invalid));
    }
}

#[test]
fn categories_are_not_cut() {
    let none = Label::new(20, &[]);
    for category in WIDE {
        assert_eq!(none.with_category(category), Err(Refusal::Invalid));
        assert_eq!(none.has_category(category), Err(Refusal::Invalid));
        assert_eq!(Entry::new(Named::Category(category), "n", "").to_line(), Err(Refusal::Invalid));
    }
    assert_eq!(none.with_category(255), Ok(Label::new(20, &[255])));
    assert_eq!(Label::new(20, &[255]).has_category(255), Ok(true));
    assert_eq!(Label::new(20, &[255]).has_category(254), Ok(false));
}

#[test]
fn categories_rise_and_are_all_there() {
    let all: Vec<u8> = (0..=255).collect();
    for categories in [&[][..], &[0], &[255], &[63, 64], &[0, 63, 64, 127, 128, 191, 192, 255], &all] {
        let (label, invalid) = (Label::new(20, categories), Label::new(u64::MAX, categories));
        assert_eq!(label.categories().collect::<Vec<u8>>(), categories);
        assert!(invalid.categories().eq(label.categories()));
        assert!(label.categories().all(|category| label.has_category(category.into()) == Ok(true)));
        let mut left = label.categories();
        for known in (0..=categories.len()).rev() {
            assert_eq!((left.len(), left.next().is_some()), (known, known > 0));
        }
    }
    let mut over = Label::new(20, &[255]).categories();
    assert_eq!((over.next(), over.next(), over.next(), over.len()), (Some(255), None, None, 0));
}

#[test]
fn displays() {
    let x = Range::new(Label::new(20, &[]), Label::new(40, &[1, 2]));
    let administrative = Range::new(Label::new(180, &[]), Label::new(199, &[255]));
    assert_eq!(x.high.to_string(), "(40,{1,2})");
    assert_eq!(x.to_string(), "[(20,{}),(40,{1,2})]");
    assert_eq!(Tuple { ranges: [None, Some(x), None] }.to_string(), x.to_string());
    let both = Tuple { ranges: [None, Some(x), Some(administrative)] };
    assert_eq!(both.to_string(), "[(20,{}),(40,{1,2})] [(180,{}),(199,{255})]");
    assert_eq!(Tuple::default().to_string(), "[]");
    assert_eq!(Label::new(u64::MAX, &[0]).to_string(), "(18446744073709551615,{0})");
}

#[test]
fn tuples_come_back_as_they_were() {
    let ranges = user().ranges;
    for tuple in [Tuple::default(), user(), Tuple { ranges: [ranges[1], ranges[1], None] }] {
        assert_eq!(Tuple::try_from(raw::Tuple::from(&tuple)), Ok(tuple));
    }
}

#[test]
fn flags_of_tuples_are_not_dropped() {
    let given = raw::Tuple::from(&user());
    for present in WIDE.into_iter().chain([2, 3]) {
        let (mut absent, mut there) = (given, given);
        absent.ranges[0].present = present;
        there.ranges[1].present = present;
        assert_eq!([absent, there].map(Tuple::try_from), [Err(Refusal::Invalid); 2]);
    }
    let mut hidden = given;
    hidden.ranges[1].present = 0;
    assert_eq!(Tuple::try_from(hidden), Err(Refusal::Invalid));
    let mut one_bit = raw::Tuple::default();
    one_bit.ranges[2].range.high.categories[3] = 1 << 63;
    assert_eq!(Tuple::try_from(one_bit), Err(Refusal::Invalid));
}

fn raw_entry(names: Named) -> raw::Entry {
    raw::Entry::try_from(&Entry::new(names, "east", "e")).unwrap()
}

#[test]
fn entries_come_back_as_they_were() {
    for entry in [
        Entry::new(Named::Hierarchy(20), "east", "e"),
        Entry::new(Named::Hierarchy(u64::MAX), "", ""),
        Entry::new(Named::Category(256), b"a\0b", b"\0"),
        Entry::new(Named::Label(label(20)), b"\xff\xc3", b"\0\0"),
        Entry::new(Named::Label(label(300)), [b'n'; 31], [b's'; 15]),
    ] {
        let numbers = raw::Entry::try_from(&entry).unwrap();
        assert_eq!((numbers.name.length, numbers.abbreviation.length), (entry.name.len(), entry.abbreviation.len()));
        assert_eq!(Entry::try_from(numbers), Ok(entry));
    }
}

#[test]
fn odd_names_are_refused() {
    for name in [&b""[..], b"\0", b"a\0", b"a\0b", b"\xff", b"caf\xc3\xa9", b"a b", &[b'n'; 32], &[b'n'; 33], &[b'n'; 300]] {
        assert_eq!(Entry::new(Named::Category(7), name, "").to_line(), Err(Refusal::Invalid));
        if !name.is_empty() {
            assert_eq!(Entry::new(Named::Category(7), "east", name).to_line(), Err(Refusal::Invalid));
        }
    }
}

/// The entry with one change, which is one that no entry of the crate can hold.
fn refuses(names: Named, change: impl Fn(&mut raw::Entry)) {
    let mut entry = raw_entry(names);
    change(&mut entry);
    assert_eq!(Entry::try_from(entry), Err(Refusal::Invalid), "{entry:?}");
}

#[test]
fn entries_that_name_nothing_are_refused() {
    for names in [0, 4, 9].into_iter().chain(WIDE) {
        refuses(Named::Hierarchy(20), |entry| entry.names = names);
    }
    refuses(Named::Label(label(20)), |entry| entry.number = 1);
    refuses(Named::Hierarchy(20), |entry| entry.label.hierarchy = 1);
    refuses(Named::Category(7), |entry| entry.label.categories[3] = 1);
}

#[test]
fn lengths_that_are_not_those_of_the_bytes_are_refused() {
    for (name, short) in [(0, 0), (3, 0), (32, 16), (33, 17), (256 + 4, 256 + 1), (usize::MAX, usize::MAX)] {
        refuses(Named::Category(7), |entry| entry.name.length = name);
        refuses(Named::Category(7), |entry| entry.abbreviation.length = short);
    }
    refuses(Named::Category(7), |entry| entry.name.bytes[31] = 1);
    refuses(Named::Category(7), |entry| entry.name.bytes = [b'n'; raw::NAME_BYTES]);
    refuses(Named::Category(7), |entry| entry.abbreviation.bytes[15] = 1);
}

/// An alias table with a name of 31 bytes for a hierarchy and for each category.
fn longest_names() -> String {
    let entry = |names, at: u16| Entry::new(names, format!("{:n<28}{at:03}", ""), "").to_line().unwrap();
    (0..256).map(|category| entry(Named::Category(category.into()), category)).chain([entry(Named::Hierarchy(20), 256)]).collect()
}

/// 257 names with one byte between two, twice, and what stands before each.
#[test]
fn the_longest_texts_are_whole() {
    let lines = longest_names();
    let (aliases, label) = (AliasTable::new(lines.as_bytes()), Label::new(20, &(0..=255).collect::<Vec<u8>>()));
    let (caller, range) = (Caller { label, read_override: false }, Range::new(label, label));
    let text = aliases.label_text(&caller, Style::default(), &label).unwrap();
    assert_eq!(text.len(), 257 * 31 + 256);
    assert_eq!(aliases.read_label(&caller, text.as_bytes()), Ok(label));
    let (both, ends) = aliases.range_text(&caller, Style::default(), &range).unwrap();
    assert_eq!((both, ends), (format!("-L {text} -H {text}"), Ends::Both));
    assert_eq!(aliases.write_label(&caller, Style::default(), &label, &mut []), Err(Refusal::TooBig(text.len())));
}

/// A state with a tenant and a segment.
fn state() -> State {
    let mut state = State::make(100).unwrap();
    state.admit(TenantId::new(1), 40, &user()).unwrap();
    assert_eq!(state.open(TenantId::new(1), &label(20), 30), Ok(Slot::new(8)));
    state
}

#[test]
fn unsound_states_are_refused() {
    let sound = *state().as_raw();
    assert_eq!(State::try_from(sound), Ok(state()));
    let refuses = |change: &dyn Fn(&mut raw::State)| {
        let mut changed = sound;
        change(&mut changed);
        assert_eq!(State::try_from(changed), Err(Refusal::Invalid));
    };
    for number in WIDE {
        refuses(&|state| state.tenants[1].clearance.ranges[0].present = number);
        refuses(&|state| state.tenants[1].clearance.ranges[1].present = number);
        refuses(&|state| state.segments[8].label.hierarchy = number);
        refuses(&|state| state.segments[8].pages = number);
    }
    refuses(&|state| state.pool = 0);
    refuses(&|state| state.segments[0].version = 1);
}

#[test]
fn tenants_and_slots_are_not_cut() {
    let (mut state, own) = (state(), Slot::new(8));
    for wide in [1 << 8, 1 << 16, 1 << 32, 1 << 63] {
        let (tenant, slot, before) = (TenantId::new(1 + wide), Slot::new(8 + wide), state.clone());
        assert_eq!(state.admit(TenantId::new(2 + wide), 1, &user()), Err(Refusal::Invalid));
        assert_eq!(state.pages_in_use(tenant), Err(Refusal::Invalid));
        assert_eq!(state.close(tenant, &label(20), own), Err(Refusal::Invalid));
        assert_eq!(state.close(TenantId::new(1), &label(20), slot), Err(Refusal::Invalid));
        assert_eq!(state.close(TenantId::new(1), &label(20 + wide), own), Err(Refusal::Invalid));
        assert_eq!(state, before);
    }
    assert_eq!(state.close(TenantId::new(1), &label(20), own), Ok(()));
}
