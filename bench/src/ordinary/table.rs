//! Alias tables: up to 512 lines, each of which names a hierarchy, a category or a label.

use super::label::Label;
use super::line::{decode, label_from};
use super::{require, Refusal};
use std::collections::HashMap;

const ENTRY_KIND: u8 = 4;
const MAX_LINES: usize = 512;
const MAX_NAME: usize = 31;
const MAX_ABBREVIATION: usize = 15;
/// About as many bytes as most lines have, to reserve memory by.
const USUAL_LINE: usize = 50;

#[derive(Clone, Copy, Debug, PartialEq, Eq)]
pub enum Value {
    Hierarchy(u8),
    Category(u8),
    Label(Label),
}

/// A length, up to `limit`, and as many bytes of a name at the front of `bytes`, and what follows them.
fn take_name(bytes: &[u8], limit: usize) -> Option<(&[u8], &[u8])> {
    let (&length, rest) = bytes.split_first()?;
    let (name, rest) = rest.split_at_checked(length.into())?;
    (name.len() <= limit && is_name(name)).then_some((name, rest))
}

/// Which bytes a name may have after its first.
const NAME_BYTES: [bool; 256] = name_bytes();

const fn name_bytes() -> [bool; 256] {
    let mut allowed = [false; 256];
    let mut byte = 0u8;
    while byte < 128 {
        allowed[byte as usize] = byte.is_ascii_alphanumeric() || matches!(byte, b'_' | b'-' | b'.');
        byte += 1;
    }
    allowed
}

/// Whether `bytes` are empty, or a letter and then letters, digits, `_`, `-` and `.`.
fn is_name(bytes: &[u8]) -> bool {
    bytes.first().is_none_or(u8::is_ascii_alphabetic) && bytes.iter().all(|byte| NAME_BYTES[usize::from(*byte)])
}

#[derive(Clone, Copy, Debug)]
pub struct Entry<'a> {
    pub value: Value,
    pub name: &'a [u8],
    /// Empty where there is none.
    pub abbreviation: &'a [u8],
}

impl<'a> Entry<'a> {
    /// The entry in a line, read into `buffer`.
    fn read(line: &[u8], buffer: &'a mut [u8]) -> Option<Entry<'a>> {
        let [ENTRY_KIND, class, rest @ ..] = decode(line, buffer)? else {
            return None;
        };
        let (value, rest) = take_value(*class, rest)?;
        let (name, rest) = take_name(rest, MAX_NAME)?;
        let (abbreviation, rest) = take_name(rest, MAX_ABBREVIATION)?;
        (!name.is_empty() && rest.is_empty()).then_some(Entry { value, name, abbreviation })
    }
}

/// The value of that class at the front of `bytes`, and what follows it.
fn take_value(class: u8, bytes: &[u8]) -> Option<(Value, &[u8])> {
    match (class, bytes) {
        (1, [hierarchy @ 0..=199, rest @ ..]) => Some((Value::Hierarchy(*hierarchy), rest)),
        (2, [category, rest @ ..]) => Some((Value::Category(*category), rest)),
        (3, _) => {
            let (label, rest) = bytes.split_first_chunk()?;
            Some((Value::Label(label_from(label)?), rest))
        }
        _ => None,
    }
}

/// A table that has been tested.
pub struct Table<'a> {
    entries: Vec<Entry<'a>>,
    /// For each name and abbreviation the number of its entry. Hashing is as fast as sorting at 8 entries, and faster at 64 and 512.
    names: HashMap<&'a [u8], usize>,
}

impl<'a> Table<'a> {
    /// Tests each line and that all names differ. A table of which `more` follows is bad at its end. Names stay in `buffer`.
    pub fn read(bytes: &[u8], more: bool, buffer: &'a mut Vec<u8>) -> Result<Table<'a>, Refusal> {
        buffer.resize(bytes.len() / 2, 0);
        let lines = (bytes.len() / USUAL_LINE).min(MAX_LINES);
        let mut table = Table { entries: Vec::with_capacity(lines), names: HashMap::with_capacity(2 * lines) };
        let mut rest = &mut buffer[..];
        for (number, line) in bytes.split_inclusive(|byte| *byte == b'\n').enumerate() {
            let (front, back) = rest.split_at_mut(line.len() / 2);
            rest = back;
            let entry = Entry::read(line, front).filter(|_| number < MAX_LINES);
            entry.and_then(|entry| table.add(entry)).ok_or(Refusal::BadLine(number))?;
        }
        require(!more, Refusal::BadLine(table.entries.len()))?;
        Ok(table)
    }

    /// Adds an entry, if its names are new.
    fn add(&mut self, entry: Entry<'a>) -> Option<()> {
        let number = self.entries.len();
        for name in [entry.name, entry.abbreviation] {
            if !name.is_empty() && self.names.insert(name, number).is_some() {
                return None;
            }
        }
        self.entries.push(entry);
        Some(())
    }

    /// What a name or an abbreviation stands for.
    pub fn value(&self, name: &[u8]) -> Option<Value> {
        self.names.get(name).map(|number| self.entries[*number].value)
    }

    /// The last entry for a value.
    pub fn entry(&self, value: Value) -> Option<&Entry<'a>> {
        self.entries.iter().rev().find(|entry| entry.value == value)
    }
}

#[inline(never)]
pub fn check_table(table: &[u8], more: bool) -> Result<usize, Refusal> {
    Table::read(table, more, &mut Vec::new()).map(|table| table.entries.len())
}
