//! Calls of every function but those on a state.

use crate::call;
use crate::case::{bytes, value, Answered, Cases, FILL};
use crate::random::Random;
use crate::{inputs, lines, tables};
use lurmenize::raw::*;

pub fn labels(random: &mut Random, cases: &mut Cases) {
    let a = inputs::input_label(random);
    let b = inputs::related(random, &a);
    let (a, b) = if random.once_in(2) { (a, b) } else { (b, a) };
    call!(cases, lurm_dominates(a, b));
    call!(cases, lurm_equal(a, b));
    call!(cases, lurm_upper_bound(a, b));
    call!(cases, lurm_lower_bound(a, b));
    call!(cases, lurm_region_of(a));
    let any = random.number();
    let category = random.pick(&[0, 1, 2, 63, 64, 127, 128, 254, 255, 256, 257, 256 + 64, (1 << 32) + 1, u64::MAX, any, any % 256, any % 256]);
    call!(cases, lurm_has_category(a, category));
    call!(cases, lurm_with_category(a, category));
    call!(cases, lurm_next_category(a, category));
}

pub fn ranges(random: &mut Random, cases: &mut Cases) {
    let x = inputs::input_range(random);
    let y = inputs::related_range(random, &x);
    let inside = inputs::label_in(random, &x);
    let l = inputs::related(random, &inside);
    call!(cases, lurm_range_contains(x, l));
    call!(cases, lurm_range_meet(x, y));
    call!(cases, lurm_range_split(x));
}

pub fn tuples(random: &mut Random, cases: &mut Cases) {
    let u = inputs::input_tuple(random);
    let t = inputs::related_tuple(random, &u);
    let l = inputs::input_label(random);
    let with = inputs::tuple_with(random, &l);
    let with = inputs::as_input(random, with);
    let sparse = if random.once_in(4) { inputs::empty_tuple() } else { t };
    call!(cases, lurm_tuple_is_empty(sparse));
    call!(cases, lurm_tuple_contains(u, l));
    call!(cases, lurm_tuple_contains(with, l));
    call!(cases, lurm_tuple_within(t, u));
    call!(cases, lurm_tuple_meet(t, u));
}

/// Calls a function that reads one slice, and keeps the call.
macro_rules! reads {
    ($cases:expr, $line:expr, $($function:ident)*) => {
        $({
            let line: &[u8] = &$line;
            // SAFETY: the pointer and the length are a slice's.
            let answered = unsafe { $function(line.as_ptr(), line.len()) };
            $cases.add(stringify!($function), &[bytes(line)], &answered);
        })*
    };
}

/// Calls a writer with a buffer that is exact, one short, empty, longer, or of some other length, and keeps the call. Gives what was written.
fn writes<A: Answered>(
    random: &mut Random,
    cases: &mut Cases,
    function: &'static str,
    arguments: &[String],
    write: impl Fn(*mut u8, usize) -> A,
) -> Vec<u8> {
    let mut empty = [];
    let needed = match write(empty.as_mut_ptr(), 0).answer() {
        Answer { refusal: E2BIG, value, .. } => value as usize,
        _ => 40,
    };
    let length = match random.below(8) {
        0 => needed.saturating_sub(1),
        1 => 0,
        2 => random.index(needed + 2),
        3 | 4 => needed + random.index(40),
        _ => needed,
    };
    let mut buffer = vec![FILL; length];
    let answered = write(buffer.as_mut_ptr(), length);
    cases.add_written(function, arguments, &answered, &buffer);
    buffer.truncate(if answered.answer().refusal == 0 { answered.answer().value as usize } else { 0 });
    buffer
}

/// Calls a writer of lines.
macro_rules! writes_line {
    ($random:expr, $cases:expr, $function:ident($contents:expr)) => {{
        let contents = $contents;
        // SAFETY: `writes` gives the pointer and the length of a slice that it alone has.
        writes($random, $cases, stringify!($function), &[value(&contents)], |out, length| unsafe { $function(contents, out, length) });
    }};
}

pub fn hex_lines(random: &mut Random, cases: &mut Cases) {
    writes_line!(random, cases, lurm_write_label(inputs::input_label(random)));
    writes_line!(random, cases, lurm_write_range(inputs::input_range(random)));
    writes_line!(random, cases, lurm_write_tuple(inputs::input_tuple(random)));
    writes_line!(random, cases, lurm_write_entry(inputs::input_entry(random)));
    let (label, range, tuple, entry) = (inputs::label(random), inputs::range(random), inputs::tuple(random), inputs::input_entry(random));
    reads!(cases, lines::as_input(random, lines::of_label(&label)), lurm_line_kind lurm_read_label);
    reads!(cases, lines::as_input(random, lines::of_range(&range)), lurm_line_kind lurm_read_range);
    reads!(cases, lines::as_input(random, lines::of_tuple(&tuple)), lurm_line_kind lurm_read_tuple);
    reads!(cases, lines::as_input(random, lines::of_entry(&entry)), lurm_line_kind lurm_read_entry);
    reads!(cases, lines::any(random), lurm_line_kind lurm_read_label lurm_read_range lurm_read_tuple lurm_read_entry);
}

pub fn check_alias_table(cases: &mut Cases, aliases: &[u8], more: u64) {
    // SAFETY: the pointer and the length are a slice's.
    let answered = unsafe { lurm_check_alias_table(aliases.as_ptr(), aliases.len(), more) };
    cases.add("lurm_check_alias_table", &[bytes(aliases), value(&more)], &answered);
}

/// Who asks for a text, and how.
struct Asked {
    more: u64,
    caller: Caller,
    style: Style,
    label: Label,
    range: Range,
}

fn asked(random: &mut Random, names: &tables::Names) -> Asked {
    let (label, range) = (tables::label(random, names), tables::range(random, names));
    let seen = random.pick(&[label, range.low, range.high]);
    Asked { more: tables::more(random), caller: inputs::caller(random, &seen), style: tables::style(random), label, range }
}

pub fn texts(random: &mut Random, cases: &mut Cases) {
    let names = tables::input(random);
    check_alias_table(cases, &names.lines, tables::more(random));
    texts_by(random, cases, &names);
}

fn texts_by(random: &mut Random, cases: &mut Cases, names: &tables::Names) {
    let asked = asked(random, names);
    let (label, range) = write_texts(random, cases, names, &asked);
    let text = if label.is_empty() || random.once_in(2) { tables::text(random, names) } else { label };
    let range_text = if range.is_empty() || random.once_in(4) { tables::range_text(random, names) } else { range };
    read_texts(cases, names, &asked, &text, &range_text);
}

/// Writes the label and the range, and gives the two texts; one that is refused is empty.
fn write_texts(random: &mut Random, cases: &mut Cases, names: &tables::Names, asked: &Asked) -> (Vec<u8>, Vec<u8>) {
    let (aliases, aliases_length) = (names.lines.as_ptr(), names.lines.len());
    let &Asked { more, caller, style, label, range } = asked;
    let before = [bytes(&names.lines), value(&more), value(&caller), value(&style)];
    let arguments = |last| [&before[..], &[last]].concat();
    // SAFETY: the first pointer and length are a slice's, and `writes` gives those of another that it alone has.
    let label_text = writes(random, cases, "lurm_write_label_text", &arguments(value(&label)), |out, length| unsafe {
        lurm_write_label_text(aliases, aliases_length, more, caller, style, label, out, length)
    });
    // SAFETY: as above.
    let range_text = writes(random, cases, "lurm_write_range_text", &arguments(value(&range)), |out, length| unsafe {
        lurm_write_range_text(aliases, aliases_length, more, caller, style, range, out, length)
    });
    (label_text, range_text)
}

fn read_texts(cases: &mut Cases, names: &tables::Names, asked: &Asked, text: &[u8], range_text: &[u8]) {
    let (aliases, aliases_length) = (names.lines.as_ptr(), names.lines.len());
    let &Asked { more, caller, .. } = asked;
    let before = [bytes(&names.lines), value(&more), value(&caller)];
    let arguments = |text: &[u8]| [&before[..], &[bytes(text)]].concat();
    // SAFETY: the pointers and lengths are those of slices.
    let answered = unsafe { lurm_read_label_text(aliases, aliases_length, more, caller, text.as_ptr(), text.len()) };
    cases.add("lurm_read_label_text", &arguments(text), &answered);
    // SAFETY: as above.
    let answered = unsafe { lurm_read_range_text(aliases, aliases_length, more, caller, range_text.as_ptr(), range_text.len()) };
    cases.add("lurm_read_range_text", &arguments(range_text), &answered);
}

/// Alias tables of as many lines as there may be, and of one more.
pub fn large_alias_tables(random: &mut Random, cases: &mut Cases) {
    for length in [MAX_ALIAS_LINES - 1, MAX_ALIAS_LINES, MAX_ALIAS_LINES + 1] {
        let names = tables::good(random, length);
        check_alias_table(cases, &names.lines, 0);
        check_alias_table(cases, &names.lines, 1);
        texts_by(random, cases, &names);
    }
}

fn credentials(random: &mut Random) -> Credentials {
    let range = inputs::range(random);
    let label = inputs::label_in(random, &range);
    let mut flag = || random.below(2);
    let mut credentials = Credentials { label, range, read_override: flag(), write_override: flag(), relabel: flag() };
    if random.once_in(40) {
        let flags = [&mut credentials.read_override, &mut credentials.write_override, &mut credentials.relabel];
        *flags[random.index(3)] = inputs::no_flag(random);
    }
    inputs::as_input(random, credentials)
}

fn object(random: &mut Random, subject: &Label) -> Object {
    let (has_label, has_tuple) = random.pick(&[(1, 0), (1, 0), (0, 1), (1, 1), (1, 1), (0, 0)]);
    let object = Object {
        r#type: random.pick(&[0, 0, 0, 1, 1, 2, 3, 4, 5]),
        kind: random.below(3),
        has_label,
        has_tuple,
        label: if has_label == 1 { inputs::related(random, subject) } else { inputs::input_label(random) },
        tuple: if random.once_in(2) { inputs::tuple_with(random, subject) } else { inputs::tuple(random) },
    };
    match random.below(8) {
        0 | 1 if has_tuple == 0 => Object { tuple: inputs::input_tuple(random), ..object },
        2 => odd_object(random, object),
        _ => inputs::as_input(random, object),
    }
}

/// The object with a number that stands for no choice, in its tuple too.
fn odd_object(random: &mut Random, mut object: Object) -> Object {
    let (class, kind, flag) = (random.wider(object.r#type), random.wider(object.kind), inputs::no_flag(random));
    match random.below(8) {
        0 => object.r#type = random.pick(&[6, 7, class]),
        1 => object.has_label = flag,
        2 => object.has_tuple = flag,
        3 | 4 => object.tuple.ranges[random.index(REGIONS)].present = flag,
        _ => object.kind = random.pick(&[3, 7, kind]),
    }
    object
}

pub fn monitor(random: &mut Random, cases: &mut Cases) {
    let credentials = credentials(random);
    let object = object(random, &credentials.label);
    let both = inputs::joined(&credentials.label, &object.label);
    let seen = random.pick(&[both, both, credentials.label, object.label]);
    let caller = inputs::caller(random, &seen);
    let intents = match random.below(10) {
        0 => random.pick(&[0, 12, 64, 65, 256 + 2, (1 << 32) + 2, u64::MAX]),
        1 | 2 => random.below(64),
        _ => 1 << random.below(6),
    };
    let attribute = random.pick(&[1, 1, 1, 1, 2, 2, 2, 2, 0, 3, 256 + 1, (1 << 32) + 2, u64::MAX]);
    call!(cases, lurm_check(caller, credentials, object, intents, attribute));
}
