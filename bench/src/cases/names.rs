//! Alias tables with such names as sites and projects have.

use crate::ordinary::label::Label;
use crate::ordinary::table::Value;
use crate::random::Random;
use std::collections::HashSet;

const WORDS: [&str; 24] = [
    "amsterdam", "frankfurt", "london", "stockholm", "madrid", "vienna", "warsaw", "zurich", "public", "internal", "restricted", "secret",
    "peering", "transit", "customer", "backbone", "filters", "routes", "north", "south", "east", "west", "audit", "finance",
];
const MAX_NAME: usize = 31;
const MAX_ABBREVIATION: usize = 15;
const LABEL_CATEGORIES: usize = 3;

/// A table's lines, and what they name: labels are named in full by their hierarchy and categories, some by an alias too.
pub struct NamedTable {
    pub bytes: Vec<u8>,
    hierarchies: Vec<u8>,
    categories: Vec<u8>,
    aliased: Vec<Label>,
}

impl NamedTable {
    /// A table of so many entries in any order: one in eight names a label, three in eight a hierarchy, the rest a category.
    pub fn new(random: &mut Random, entries: usize) -> NamedTable {
        let mut table = NamedTable {
            bytes: Vec::new(),
            hierarchies: distinct(random, 0..=199, entries * 3 / 8),
            categories: distinct(random, 0..=255, entries / 2),
            aliased: Vec::new(),
        };
        table.aliased = (0..entries / 8).map(|_| table.definable_label(random)).collect();
        let hierarchies = table.hierarchies.iter().copied().map(Value::Hierarchy);
        let categories = table.categories.iter().copied().map(Value::Category);
        let mut values: Vec<_> = hierarchies.chain(categories).chain(table.aliased.iter().copied().map(Value::Label)).collect();
        random.shuffle(&mut values);
        let mut used = HashSet::new();
        table.bytes = values.into_iter().flat_map(|value| entry_line(random, &mut used, value)).collect();
        table
    }

    /// A label of three categories whose hierarchy and categories have names.
    pub fn definable_label(&self, random: &mut Random) -> Label {
        let mut categories = self.categories.clone();
        random.shuffle(&mut categories);
        let mut label = Label { hierarchy: random.pick(&self.hierarchies), categories: [0; 4] };
        categories[..LABEL_CATEGORIES].iter().for_each(|category| label.add_category(*category));
        label
    }

    /// Such a label, which in half of all cases has an alias.
    pub fn label(&self, random: &mut Random) -> Label {
        if random.once_in(2) {
            random.pick(&self.aliased)
        } else {
            self.definable_label(random)
        }
    }
}

/// `count` numbers that differ.
fn distinct(random: &mut Random, numbers: impl Iterator<Item = u8>, count: usize) -> Vec<u8> {
    let mut numbers: Vec<u8> = numbers.collect();
    random.shuffle(&mut numbers);
    numbers.truncate(count);
    numbers
}

/// A spelling of at most `limit` bytes that the table does not have yet.
fn unused(used: &mut HashSet<String>, limit: usize, mut spell: impl FnMut() -> String) -> String {
    loop {
        let name = spell();
        if name.len() <= limit && used.insert(name.clone()) {
            return name;
        }
    }
}

/// One to three words, such as `east`, `frankfurt-peering` or `north_audit.17`.
fn spell_name(random: &mut Random) -> String {
    let mut name = random.pick(&WORDS).to_string();
    for _ in 0..random.below(3) {
        name.push(random.pick(&['-', '_', '.']));
        name.push_str(random.pick(&WORDS));
    }
    if random.once_in(2) {
        name.push_str(&format!(".{}", random.below(100)));
    }
    name
}

/// The head of a word and a number, such as `fra27`.
fn spell_abbreviation(random: &mut Random) -> String {
    let head = random.between(2, 4) as usize;
    format!("{}{}", &random.pick(&WORDS)[..head], random.below(1000))
}

/// The line of an entry; half of all entries have an abbreviation.
fn entry_line(random: &mut Random, used: &mut HashSet<String>, value: Value) -> Vec<u8> {
    let name = unused(used, MAX_NAME, || spell_name(random));
    let abbreviation = match random.once_in(2) {
        true => unused(used, MAX_ABBREVIATION, || spell_abbreviation(random)),
        false => String::new(),
    };
    let mut bytes = vec![4];
    match value {
        Value::Hierarchy(hierarchy) => bytes.extend([1, hierarchy]),
        Value::Category(category) => bytes.extend([2, category]),
        Value::Label(label) => {
            bytes.extend([3, label.hierarchy]);
            bytes.extend(label.categories.iter().flat_map(|word| word.to_le_bytes()));
        }
    }
    for name in [name, abbreviation] {
        bytes.push(name.len() as u8);
        bytes.extend(name.bytes());
    }
    bytes.push(bytes.iter().fold(0, |sum: u8, byte| sum.wrapping_sub(*byte)));
    let digits: String = bytes.iter().map(|byte| format!("{byte:02x}")).collect();
    (digits + "\n").into_bytes()
}
