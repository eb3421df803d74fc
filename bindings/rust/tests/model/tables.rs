//! Alias tables, and texts in their names.

use crate::random::Random;
use crate::{inputs, lines};
use lurmenize::raw::*;

/// An alias table: its entries, and its lines, which may have been damaged since.
pub struct Names {
    pub entries: Vec<Entry>,
    pub lines: Vec<u8>,
}

const NUMBERS: [u64; 6] = [0, 1, 2, 3, 20, 30];
const ZERO: Label = Label { hierarchy: 0, categories: [0; WORDS] };

/// An entry whose name is its own: it ends in its number in the alias table. Its abbreviation is the same in upper case.
fn entry(random: &mut Random, at: usize) -> Entry {
    let name = if random.once_in(6) { format!("{:a<28}{at:03}", "n") } else { format!("n{at}") };
    let short = if random.once_in(2) { format!("N{at}") } else { String::new() };
    let (name, short) = (name.as_bytes(), short.as_bytes());
    match random.below(5) {
        0 | 1 => inputs::entry_of(NAMES_HIERARCHY, random.pick(&NUMBERS), ZERO, name, short),
        2 | 3 => inputs::entry_of(NAMES_CATEGORY, random.pick(&NUMBERS), ZERO, name, short),
        _ => inputs::entry_of(NAMES_LABEL, 0, Label { hierarchy: 20, categories: [random.below(16), 0, 0, 0] }, name, short),
    }
}

/// A good alias table with so many entries.
pub fn good(random: &mut Random, length: usize) -> Names {
    let entries: Vec<Entry> = (0..length).map(|at| entry(random, at)).collect();
    let lines = entries.iter().flat_map(lines::of_entry).collect();
    Names { entries, lines }
}

/// A small alias table as it may come in.
pub fn input(random: &mut Random) -> Names {
    let length = random.index(14);
    let mut names = good(random, length);
    if random.once_in(5) {
        names.lines = damaged(random, &names);
    }
    names
}

/// The alias table with one line that is damaged, of another kind, or has a name again.
fn damaged(random: &mut Random, names: &Names) -> Vec<u8> {
    let mut rows: Vec<Vec<u8>> = names.entries.iter().map(lines::of_entry).collect();
    let at = random.index(rows.len() + 1);
    let again = names.entries.first().map_or(b"n0".to_vec(), |first| first.name.bytes[..first.name.length].to_vec());
    match random.below(6) {
        0 if at < rows.len() => rows[at] = lines::damaged(random, &rows[at]),
        1 => rows.insert(at, lines::any(random)),
        2 => rows.insert(at, lines::of_entry(&inputs::entry_of(NAMES_CATEGORY, 9, ZERO, b"other", &again[..again.len().min(15)]))),
        3 => rows.insert(at, lines::of_entry(&inputs::entry_of(NAMES_CATEGORY, 9, ZERO, b"same", b"same"))),
        4 => rows.extend(rows.first().cloned()),
        _ => return lines::damaged(random, &names.lines),
    }
    rows.concat()
}

/// The entries of a class.
fn of_class(names: &Names, class: u64) -> Vec<Entry> {
    names.entries.iter().filter(|entry| entry.names == class).copied().collect()
}

/// A label that mostly has a text: its parts have names, or it has one itself.
pub fn label(random: &mut Random, names: &Names) -> Label {
    let (hierarchies, categories, whole) = (of_class(names, NAMES_HIERARCHY), of_class(names, NAMES_CATEGORY), of_class(names, NAMES_LABEL));
    if hierarchies.is_empty() || random.once_in(12) {
        return inputs::input_label(random);
    }
    if !whole.is_empty() && random.once_in(3) {
        return random.pick(&whole).label;
    }
    let count = if categories.is_empty() { 0 } else { random.below(4) };
    let word = (0..count).fold(0, |word, _| word | 1 << random.pick(&categories).number);
    Label { hierarchy: random.pick(&hierarchies).number, categories: [word, 0, 0, 0] }
}

/// A range whose ends mostly have texts.
pub fn range(random: &mut Random, names: &Names) -> Range {
    let (low, high) = (label(random, names), label(random, names));
    let common = std::array::from_fn(|at| low.categories[at] & high.categories[at]);
    match random.below(4) {
        0 => Range { low, high },
        _ if low.hierarchy > high.hierarchy => Range { low: Label { categories: common, ..high }, high: low },
        _ => Range { low: Label { categories: common, ..low }, high },
    }
}

pub fn style(random: &mut Random) -> Style {
    Style { form: inputs::flag(random), variant: inputs::flag(random) }
}

/// Whether the alias table is cut off; mostly not.
pub fn more(random: &mut Random) -> u64 {
    if random.once_in(10) {
        inputs::flag(random)
    } else {
        0
    }
}

fn word(random: &mut Random, entries: &[Entry]) -> Vec<u8> {
    if entries.is_empty() {
        return b"nobody".to_vec();
    }
    let entry = random.pick(entries);
    match entry.abbreviation.length {
        short if short > 0 && random.once_in(2) => entry.abbreviation.bytes[..short].to_vec(),
        _ => entry.name.bytes[..entry.name.length].to_vec(),
    }
}

/// A text of a label, mostly in the names of an alias table.
pub fn text(random: &mut Random, names: &Names) -> Vec<u8> {
    let class = random.pick(&[NAMES_HIERARCHY, NAMES_HIERARCHY, NAMES_HIERARCHY, NAMES_LABEL, NAMES_CATEGORY]);
    let mut text = word(random, &of_class(names, class));
    let categories = of_class(names, NAMES_CATEGORY);
    for at in 0..random.below(3) {
        text.push(if at == 0 { b':' } else { b',' });
        text.extend(word(random, &categories));
    }
    if random.once_in(8) {
        let at = random.index(text.len());
        text[at] = random.pick(b":, -?nN0\n\0");
    }
    text
}

/// A text of a range, mostly well formed.
pub fn range_text(random: &mut Random, names: &Names) -> Vec<u8> {
    let low = text(random, names);
    let high = if random.once_in(8) { b"?".to_vec() } else { text(random, names) };
    let before = random.pick(&[&b"-L "[..], b"-L ", b"-L ", b"-L ", b"-L ", b"-L ", b"-l ", b"-L  "]);
    let between = random.pick(&[&b" -H "[..], b" -H ", b" -H ", b" -H ", b" -H ", b" -H ", b" -H", b"  -H "]);
    [before, &low, between, &high].concat()
}
