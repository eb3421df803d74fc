//! Labels, ranges, tuples and alias entries: valid ones, ones that stand in some relation to another, and damaged ones.

use crate::numbers::{one_off, Numbers};
use crate::random::Random;
use lurmenize::raw::*;

/// The first and the last hierarchy of each region.
const REGION_ENDS: [(u64, u64); REGIONS] = [(0, 19), (20, 179), (180, 199)];
const HIERARCHIES: [u64; 14] = [0, 1, 10, 19, 20, 21, 30, 40, 178, 179, 180, 181, 198, 199];
const EDGES: [u8; 8] = [0, 63, 64, 127, 128, 191, 192, 255];

type Words = [u64; WORDS];

fn combined(a: &Words, b: &Words, combine: impl Fn(u64, u64) -> u64) -> Words {
    std::array::from_fn(|at| combine(a[at], b[at]))
}

fn random_words(random: &mut Random) -> Words {
    std::array::from_fn(|_| random.number())
}

fn some_of(random: &mut Random, from: &[u8]) -> Words {
    let mut words = [0; WORDS];
    for _ in 0..random.below(4) {
        let category = random.pick(from);
        words[usize::from(category / 64)] |= 1 << (category % 64);
    }
    words
}

fn categories(random: &mut Random) -> Words {
    match random.below(8) {
        0 => [0; WORDS],
        1..=3 => some_of(random, &[1, 2, 3]),
        4 | 5 => some_of(random, &EDGES),
        6 => [u64::MAX; WORDS],
        _ => random_words(random),
    }
}

/// A valid label.
pub fn label(random: &mut Random) -> Label {
    let hierarchy = if random.once_in(4) { random.within(0, MAX_HIERARCHY) } else { random.pick(&HIERARCHIES) };
    Label { hierarchy, categories: categories(random) }
}

/// A label that `label` dominates, with a hierarchy from `first` on.
fn under(random: &mut Random, label: &Label, first: u64) -> Label {
    let hierarchy = random.within(first.min(label.hierarchy), label.hierarchy);
    let mask = if random.once_in(3) { [u64::MAX; WORDS] } else { random_words(random) };
    Label { hierarchy, categories: combined(&label.categories, &mask, |a, b| a & b) }
}

pub fn dominated_by(random: &mut Random, label: &Label) -> Label {
    under(random, label, 0)
}

pub fn dominating(random: &mut Random, label: &Label) -> Label {
    let hierarchy = random.within(label.hierarchy.min(MAX_HIERARCHY), MAX_HIERARCHY);
    let more = if random.once_in(3) { [0; WORDS] } else { categories(random) };
    Label { hierarchy, categories: combined(&label.categories, &more, |a, b| a | b) }
}

/// The least label that dominates both, where they are valid.
pub fn joined(a: &Label, b: &Label) -> Label {
    Label { hierarchy: a.hierarchy.max(b.hierarchy), categories: combined(&a.categories, &b.categories, |a, b| a | b) }
}

/// A label that is equal to another, dominates it, is dominated by it, is next to it, or has nothing to do with it.
pub fn related(random: &mut Random, to: &Label) -> Label {
    match random.below(6) {
        0 | 1 => *to,
        2 => dominated_by(random, to),
        3 => dominating(random, to),
        4 => one_off(random, to),
        _ => label(random),
    }
}

/// The value, or once in a while one that differs in a number.
pub fn as_input<T: Numbers>(random: &mut Random, value: T) -> T {
    if random.once_in(8) {
        one_off(random, &value)
    } else {
        value
    }
}

/// A label as it may come in: some are invalid, by a hierarchy that is just too large or one that needs more bits.
pub fn input_label(random: &mut Random) -> Label {
    let valid = label(random);
    match random.below(20) {
        0 => Label { hierarchy: random.within(MAX_HIERARCHY + 1, 255), ..valid },
        1 => Label { hierarchy: random.wider(valid.hierarchy), ..valid },
        _ => as_input(random, valid),
    }
}

/// A valid range.
pub fn range(random: &mut Random) -> Range {
    let high = label(random);
    Range { low: dominated_by(random, &high), high }
}

/// A range as it may come in: its ends may stand in any relation.
pub fn input_range(random: &mut Random) -> Range {
    let valid = range(random);
    match random.below(12) {
        0 => Range { low: valid.high, high: valid.low },
        1 => Range { low: input_label(random), high: valid.high },
        _ => as_input(random, valid),
    }
}

/// A label in a valid range.
pub fn label_in(random: &mut Random, range: &Range) -> Label {
    let high = under(random, &range.high, range.low.hierarchy);
    Label { hierarchy: high.hierarchy, categories: combined(&high.categories, &range.low.categories, |a, b| a | b) }
}

/// A valid range whose ends lie between those of another.
fn range_in(random: &mut Random, within: &Range) -> Range {
    let high = label_in(random, within);
    Range { low: label_in(random, &Range { low: within.low, high }), high }
}

/// A range that has labels in common with another, or may have.
pub fn related_range(random: &mut Random, to: &Range) -> Range {
    match random.below(4) {
        0 => *to,
        1 => range_in(random, to),
        2 => Range { low: to.low, high: dominating(random, &to.high) },
        _ => input_range(random),
    }
}

fn region_range(random: &mut Random, region: usize) -> Range {
    let (first, last) = REGION_ENDS[region];
    let high = Label { hierarchy: random.within(first, last), categories: categories(random) };
    Range { low: under(random, &high, first), high }
}

const NO_RANGE: RegionRange = RegionRange { present: 0, range: Range { low: ZERO, high: ZERO } };
const ZERO: Label = Label { hierarchy: 0, categories: [0; WORDS] };

/// A valid tuple; it may be empty.
pub fn tuple(random: &mut Random) -> Tuple {
    Tuple {
        ranges: std::array::from_fn(|region| match random.below(3) {
            0 => NO_RANGE,
            _ => RegionRange { present: 1, range: region_range(random, region) },
        }),
    }
}

pub fn empty_tuple() -> Tuple {
    Tuple { ranges: [NO_RANGE; REGIONS] }
}

/// The tuple of all labels.
pub fn whole_tuple() -> Tuple {
    let end = |hierarchy, word| Label { hierarchy, categories: [word; WORDS] };
    Tuple { ranges: REGION_ENDS.map(|(first, last)| RegionRange { present: 1, range: Range { low: end(first, 0), high: end(last, u64::MAX) } }) }
}

/// A valid tuple that has a label if the label is valid.
pub fn tuple_with(random: &mut Random, label: &Label) -> Tuple {
    let mut with = tuple(random);
    for (region, &(first, last)) in REGION_ENDS.iter().enumerate() {
        if (first..=last).contains(&label.hierarchy) {
            let high = Label { hierarchy: random.within(label.hierarchy, last), ..dominating(random, label) };
            with.ranges[region] = RegionRange { present: 1, range: Range { low: under(random, label, first), high } };
        }
    }
    with
}

/// A flag that is none.
pub fn no_flag(random: &mut Random) -> u64 {
    let flag = random.below(2);
    let (wider, any) = (random.wider(flag), random.number());
    random.pick(&[2, 3, 255, wider, wider, any])
}

/// 0 or 1, or once in a while another number.
pub fn flag(random: &mut Random) -> u64 {
    if random.once_in(25) {
        no_flag(random)
    } else {
        random.below(2)
    }
}

/// A caller that mostly sees the label.
pub fn caller(random: &mut Random, label: &Label) -> Caller {
    let label = match random.below(4) {
        0 => related(random, label),
        1 => input_label(random),
        _ => dominating(random, label),
    };
    Caller { label, read_override: flag(random) }
}

/// A tuple as it may come in: a range may be in another region's place, or stand where none is said to be, or a flag may be none.
pub fn input_tuple(random: &mut Random) -> Tuple {
    let mut valid = tuple(random);
    let region = random.index(REGIONS);
    match random.below(12) {
        0 => valid.ranges.rotate_left(1),
        1 => valid.ranges[region].present ^= 1,
        2 => valid.ranges[region].present = no_flag(random),
        _ => return as_input(random, valid),
    }
    valid
}

/// A tuple that is within another, or may be.
pub fn related_tuple(random: &mut Random, to: &Tuple) -> Tuple {
    if random.once_in(4) {
        return input_tuple(random);
    }
    Tuple {
        ranges: to.ranges.map(|region| match random.below(4) {
            0 => NO_RANGE,
            1 => region,
            _ if region.present == 0 => NO_RANGE,
            _ => RegionRange { present: 1, range: range_in(random, &region.range) },
        }),
    }
}

/// The front of an array is `text`, the rest zeros.
fn padded<const N: usize>(text: &[u8]) -> [u8; N] {
    std::array::from_fn(|at| text.get(at).copied().unwrap_or(0))
}

pub fn entry_of(names: u64, number: u64, label: Label, name: &[u8], abbreviation: &[u8]) -> Entry {
    Entry {
        names,
        number,
        label,
        name: Name { bytes: padded(name), length: name.len() },
        abbreviation: Abbreviation { bytes: padded(abbreviation), length: abbreviation.len() },
    }
}

fn name(random: &mut Random, length: usize) -> Vec<u8> {
    const REST: &[u8] = b"abcxyzABCXYZ0189_-.";
    (0..length).map(|at| random.pick(if at == 0 { &REST[..12] } else { REST })).collect()
}

/// An entry that names a hierarchy, a category or a label.
pub fn entry(random: &mut Random) -> Entry {
    let length = random.pick(&[1, 3, MAX_NAME]);
    let name_bytes = name(random, length);
    let length = random.pick(&[0, 1, MAX_ABBREVIATION]);
    let short = name(random, length);
    match random.below(3) {
        0 => entry_of(NAMES_HIERARCHY, label(random).hierarchy, ZERO, &name_bytes, &short),
        1 => entry_of(NAMES_CATEGORY, random.pick(&EDGES).into(), ZERO, &name_bytes, &short),
        _ => entry_of(NAMES_LABEL, 0, label(random), &name_bytes, &short),
    }
}

/// An entry as it may come in.
pub fn input_entry(random: &mut Random) -> Entry {
    let mut given = entry(random);
    let (names, number) = (random.wider(given.names), random.wider(given.number));
    match random.below(14) {
        0 => given.names = random.pick(&[0, 1, 2, 3, 4, 5, names]),
        1 => given.number = random.pick(&[199, 200, 255, 256, number, number]),
        2 => given.label = input_label(random),
        3 => given.name.length = random.pick(&[0, 30, 32, 33, 256 + given.name.length, usize::MAX]),
        4 => given.abbreviation.length = random.pick(&[14, 16, 17, 256 + given.abbreviation.length, usize::MAX]),
        5 => given.name.bytes[0] = random.pick(b"0_-. :,@[`{\0\xc3"),
        6 => given.abbreviation.bytes[0] = random.pick(b"0_-. :,@[`{\0\xc3"),
        7 => given.name = Name { bytes: [b'n'; NAME_BYTES], length: random.pick(&[MAX_NAME, NAME_BYTES]) },
        8 => given.abbreviation = Abbreviation { bytes: [b's'; ABBREVIATION_BYTES], length: random.pick(&[MAX_ABBREVIATION, ABBREVIATION_BYTES]) },
        _ => return as_input(random, given),
    }
    given
}
