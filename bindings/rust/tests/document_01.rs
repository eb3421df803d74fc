//! The examples of document 01, in its order, and its table of the monitor in a few requests, with what document 02 adds: who asks, and receiving.

use lurmenize::*;

fn range(low: Label, high: Label) -> Range {
    Range::new(low, high)
}

fn label(hierarchy: u64, categories: &[u8]) -> Label {
    Label::new(hierarchy, categories)
}

#[test]
fn dominance() {
    assert_eq!(label(30, &[1, 2]).dominates(&label(20, &[2])), Ok(true));
    assert_eq!(label(20, &[2]).dominates(&label(30, &[])), Ok(false));
    assert_eq!(label(30, &[]).dominates(&label(20, &[2])), Ok(false));
}

#[test]
fn bounds() {
    let (a, b) = (label(20, &[1]), label(30, &[2]));
    assert_eq!(a.upper_bound(&b), Ok(label(30, &[1, 2])));
    assert_eq!(a.lower_bound(&b), Ok(label(20, &[])));
}

#[test]
fn meets() {
    let x = range(label(20, &[]), label(40, &[1, 2]));
    let y = range(label(30, &[2]), label(50, &[2, 3]));
    assert_eq!(x.meet(&y), Ok(range(label(30, &[2]), label(40, &[2]))));
    let x = range(label(20, &[1]), label(40, &[1]));
    let y = range(label(20, &[]), label(40, &[2]));
    assert_eq!(x.meet(&y), Err(Refusal::Domain));
}

#[test]
fn split() {
    let cut = range(label(10, &[]), label(30, &[4])).split().unwrap();
    let virus_prevention = range(label(10, &[]), label(19, &[4]));
    let user = range(label(20, &[]), label(30, &[4]));
    assert_eq!(cut, Tuple { ranges: [Some(virus_prevention), Some(user), None] });
}

#[test]
fn lines_and_hierarchies() {
    assert_eq!(Tuple::default().to_line().unwrap(), "0300fd\n");
    assert_eq!(Tuple::read_line(b"0300fd\n"), Ok(Tuple::default()));
    assert_eq!(Tuple::default().is_empty(), Ok(true));
    assert_eq!(label(199, &[]).region(), Ok(Region::Administrative));
    assert_eq!(label(200, &[]).region(), Err(Refusal::Invalid));
}

#[test]
fn texts() {
    let aliases = AliasTable::new(b"040114036c6f770092\n04020704656173740165dc\n");
    assert_eq!(aliases.check(), Ok(2));
    let (low, east) = (label(20, &[]), label(20, &[7]));
    let caller = Caller { label: east, read_override: false };
    assert_eq!(aliases.label_text(&caller, Style::default(), &east).unwrap(), "low:east");
    let mut buffer = [0xa5; 7];
    assert_eq!(aliases.write_label(&caller, Style::default(), &east, &mut buffer), Err(Refusal::TooBig(8)));
    assert_eq!(buffer, [0xa5; 7]);
    let caller = Caller { label: low, read_override: false };
    let text = aliases.range_text(&caller, Style::default(), &range(low, east)).unwrap();
    assert_eq!(text, ("-L low -H ?".to_string(), Ends::LowOnly));
}

#[test]
fn pages() {
    let label = label(20, &[]);
    let clearance = range(label, label).split().unwrap();
    let [first, second, third] = [0, 1, 2].map(TenantId::new);
    let mut state = State::make(100).unwrap();
    assert_eq!(state.admit(first, 60, &clearance), Ok(()));
    assert_eq!(state.admit(second, 40, &clearance), Ok(()));
    assert_eq!(state.admit(third, 1, &clearance), Err(Refusal::NoMem));
    assert_eq!(state.open(first, &label, 60), Ok(Slot::new(0)));
    let before = state.clone();
    assert_eq!(state.open(first, &label, 1), Err(Refusal::NoMem));
    assert_eq!(state, before);
    assert_eq!(state.open(second, &label, 40), Ok(Slot::new(8)));
    assert_eq!(state.size(first, &label, Slot::new(0), 59), Ok(()));
    assert_eq!(state.open(first, &label, 1), Ok(Slot::new(1)));
    assert_eq!((state.pages_in_use(first), state.pages_in_use(second)), (Ok(60), Ok(40)));
    assert_eq!(State::try_from(*state.as_raw()), Ok(state));
}

#[test]
fn decisions() {
    let (low, high) = (label(20, &[]), label(30, &[1]));
    let subject = Credentials { label: high, range: range(low, high), ..Credentials::default() };
    let caller = Caller { label: high, read_override: false };
    let fifo = Object { class: Class::Fifo, label: Some(low), tuple: None };
    let memory = Object { class: Class::SharedMemory, ..fifo };
    assert_eq!(check(&caller, &subject, &memory, Intents::READ), Ok(Decision::Granted));
    assert_eq!(check(&caller, &subject, &fifo, Intents::READ), Err(Refusal::Access));
    let writer = Credentials { write_override: true, ..subject };
    assert_eq!(check(&caller, &writer, &fifo, Intents::READ), Ok(Decision::Privileged));
    assert_eq!(check(&caller, &writer, &fifo, Intents::SET_LABEL), Err(Refusal::Perm));
    let all = Credentials { relabel: true, ..writer };
    assert_eq!(check(&caller, &all, &fifo, Intents::SET_LABEL), Ok(Decision::Privileged));
    assert_eq!(check(&caller, &all, &fifo, Intents::GET_TUPLE | Intents::SET_TUPLE), Ok(Decision::Privileged));
    assert_eq!(check(&caller, &all, &fifo, Intents::GET_TUPLE | Intents::SET_LABEL), Err(Refusal::Invalid));
    assert_eq!(check(&caller, &all, &fifo, Intents { attribute: 0, ..Intents::SET_LABEL }), Err(Refusal::Invalid));
    assert_eq!(check(&caller, &all, &fifo, Intents { sum: 64, attribute: 0 }), Err(Refusal::Invalid));
    assert_eq!(check(&caller, &all, &fifo, Intents::default()), Err(Refusal::Invalid));
}

/// Document 02's request 2026-01: who asks is tested after what is invalid and before the intents.
#[test]
fn callers() {
    let (low, own, high) = (label(20, &[]), label(30, &[1]), label(40, &[1, 2]));
    let subject = Credentials { label: own, range: range(low, high), ..Credentials::default() };
    let all = Credentials { read_override: true, write_override: true, relabel: true, ..subject };
    let memory = |label, tuple| Object { class: Class::SharedMemory, label, tuple };
    let clearance = range(low, high).split().unwrap();
    let (lower, higher, cleared) = (memory(Some(low), None), memory(Some(high), Some(clearance)), memory(None, Some(clearance)));
    let [at_low, at_own, at_high] = [low, own, high].map(|label| Caller { label, read_override: false });
    let seeing = Caller { read_override: true, ..at_low };
    assert_eq!(check(&at_own, &subject, &lower, Intents::READ), Ok(Decision::Granted));
    assert_eq!(check(&at_own, &subject, &cleared, Intents::READ | Intents::WRITE), Ok(Decision::Granted));
    assert_eq!(check(&at_low, &all, &lower, Intents::READ), Err(Refusal::Access));
    assert_eq!(check(&at_low, &all, &cleared, Intents::READ), Err(Refusal::Access));
    assert_eq!(check(&at_own, &all, &higher, Intents::WRITE), Err(Refusal::Access));
    assert_eq!(check(&at_high, &all, &higher, Intents::WRITE), Ok(Decision::Privileged));
    assert_eq!(check(&at_high, &subject, &higher, Intents::READ), Err(Refusal::Access));
    assert_eq!(check(&seeing, &subject, &lower, Intents::READ), Ok(Decision::Granted));
    assert_eq!(check(&seeing, &subject, &higher, Intents::READ), Err(Refusal::Access));
    assert_eq!(check(&seeing, &all, &higher, Intents::READ), Ok(Decision::Privileged));
    let no_relabel = Credentials { relabel: false, ..all };
    assert_eq!(check(&at_own, &no_relabel, &higher, Intents::SET_LABEL), Err(Refusal::Access));
    assert_eq!(check(&at_high, &no_relabel, &higher, Intents::SET_LABEL), Err(Refusal::Perm));
    assert_eq!(check(&at_low, &all, &lower, Intents::default()), Err(Refusal::Invalid));
    assert_eq!(check(&Caller { label: label(200, &[]), read_override: true }, &subject, &lower, Intents::READ), Err(Refusal::Invalid));
}

/// Document 02's request 2026-03: to receive is to read and to write, so that it takes equality, the write override where the subject dominates, and
/// both overrides elsewhere. What else is done to a queue is decided as for any object, and a read that takes nothing away by dominance.
#[test]
fn receiving() {
    let [low, own, high] = [20, 30, 40].map(|hierarchy| label(hierarchy, &[]));
    let none = Credentials { label: own, range: range(low, high), ..Credentials::default() };
    let [read, write] = [Credentials { read_override: true, ..none }, Credentials { write_override: true, ..none }];
    let both = Credentials { read_override: true, ..write };
    let caller = Caller { label: high, read_override: false };
    let at = |class, label| Object { class, label: Some(label), tuple: None };
    let cleared = |low, high| Object { class: Class::MessageQueue, label: None, tuple: Some(range(low, high).split().unwrap()) };
    let answers = |object, intents| [none, read, write, both].map(|subject| check(&caller, &subject, &object, intents));
    let (denied, granted, privileged) = (Err(Refusal::Access), Ok(Decision::Granted), Ok(Decision::Privileged));
    for class in [Class::MessageQueue, Class::Fifo] {
        assert_eq!(answers(at(class, low), Intents::READ), [denied, denied, privileged, privileged]);
        assert_eq!(answers(at(class, own), Intents::READ), [granted; 4]);
        assert_eq!(answers(at(class, high), Intents::READ), [denied, denied, denied, privileged]);
        assert_eq!(answers(at(class, high), Intents::WRITE), [denied, denied, privileged, privileged]);
        assert_eq!(answers(at(class, low), Intents::GET_LABEL), [granted; 4]);
    }
    assert_eq!(answers(cleared(low, high), Intents::READ), [granted; 4]);
    assert_eq!(answers(cleared(low, low), Intents::READ), [denied, denied, denied, privileged]);
    for class in [Class::File(FileKind::Regular), Class::Process, Class::SharedMemory, Class::Semaphore] {
        assert_eq!(answers(at(class, low), Intents::READ), [granted; 4]);
        assert_eq!(answers(at(class, high), Intents::READ), [denied, privileged, denied, privileged]);
    }
}

#[test]
fn refusals_that_carry_a_number() {
    let (good, bad): (&[u8], &[u8]) = (b"040114036c6f770092\n", b"0300fd\n");
    let (first, second) = ([bad, good].concat(), [good, bad].concat());
    let caller = Caller::default();
    assert_eq!(AliasTable::new(&first).check(), Err(Refusal::BadLine(0)));
    assert_eq!(AliasTable::new(&second).check(), Err(Refusal::BadLine(1)));
    assert_eq!(AliasTable { lines: good, more: true }.check(), Err(Refusal::BadLine(1)));
    assert_eq!(AliasTable::new(&second).read_label(&caller, b"low"), Err(Refusal::BadLine(1)));
    assert_eq!(AliasTable::new(good).read_label(&caller, b"?"), Err(Refusal::Invalid));
}

/// A bad line 0 is told from what else is invalid by every function that takes an alias table.
#[test]
fn a_bad_first_line_is_no_invalid_argument() {
    let (label, caller, style) = (label(20, &[]), Caller::default(), Style::default());
    for (lines, refusal) in [(&b"0300fd\n"[..], Refusal::BadLine(0)), (b"", Refusal::Invalid)] {
        let (aliases, invalid) = (AliasTable::new(lines), Label { hierarchy: 200, ..label });
        assert_eq!(aliases.write_label(&caller, style, &invalid, &mut []), Err(refusal));
        assert_eq!(aliases.label_text(&caller, style, &invalid), Err(refusal));
        assert_eq!(aliases.write_range(&caller, style, &range(label, invalid), &mut []), Err(refusal));
        assert_eq!(aliases.range_text(&caller, style, &range(label, invalid)), Err(refusal));
        assert_eq!(aliases.read_label(&caller, b"low"), Err(refusal));
        assert_eq!(aliases.read_range(&caller, b"-L low -H low"), Err(refusal));
    }
}

#[test]
fn refusals_are_errors() {
    let error: Box<dyn std::error::Error> = Refusal::TooBig(8).into();
    assert_eq!(error.to_string(), "buffer short: 8 bytes are needed");
    assert_eq!((Refusal::BadLine(3).number(), Refusal::Domain.number()), (22, 33));
}

#[test]
fn what_is_too_long_is_refused_and_not_cut() {
    let entry = |name: usize, short: usize| Entry::new(Named::Hierarchy(20), "n".repeat(name), "s".repeat(short));
    assert!(entry(31, 15).to_line().is_ok());
    assert_eq!(entry(32, 15).to_line(), Err(Refusal::Invalid));
    assert_eq!(entry(31, 16).to_line(), Err(Refusal::Invalid));
}
