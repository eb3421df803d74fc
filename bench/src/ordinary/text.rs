//! Labels as text, by the names of a table.

use super::caller::Caller;
use super::label::Label;
use super::table::{Entry, Table, Value};
use super::{require, Refusal};

#[derive(Clone, Copy, Debug, PartialEq, Eq)]
pub enum Form {
    Definition,
    Alias,
}

#[derive(Clone, Copy, Debug, PartialEq, Eq)]
pub enum Variant {
    Names,
    Abbreviations,
}

#[derive(Clone, Copy, Debug)]
pub struct Style {
    pub form: Form,
    pub variant: Variant,
}

fn written<'a>(entry: &Entry<'a>, variant: Variant) -> &'a [u8] {
    match variant {
        Variant::Abbreviations if !entry.abbreviation.is_empty() => entry.abbreviation,
        _ => entry.name,
    }
}

/// The parts of a label's text, which follow one another: names and what joins them. `categories` are those of the label.
fn parts<'a>(table: &Table<'a>, style: Style, label: &Label, categories: impl Iterator<Item = u8>) -> Result<Vec<&'a [u8]>, Refusal> {
    if style.form == Form::Alias {
        if let Some(entry) = table.entry(Value::Label(*label)) {
            return Ok(vec![written(entry, style.variant)]);
        }
    }
    let name = |value| table.entry(value).map(|entry| written(entry, style.variant)).ok_or(Refusal::NoName);
    let mut parts = vec![name(Value::Hierarchy(label.hierarchy))?];
    for category in categories {
        parts.push(if parts.len() == 1 { b":" } else { b"," });
        parts.push(name(Value::Category(category))?);
    }
    Ok(parts)
}

#[inline(never)]
pub fn write_label_text(table: &[u8], more: bool, caller: &Caller, style: Style, label: &Label, out: &mut [u8]) -> Result<usize, Refusal> {
    write_listed(table, more, caller, style, label, label.category_numbers(), out)
}

/// The same, with the categories found by a walk over all of them.
#[inline(never)]
pub fn write_label_text_by_walk(
    table: &[u8],
    more: bool,
    caller: &Caller,
    style: Style,
    label: &Label,
    out: &mut [u8],
) -> Result<usize, Refusal> {
    write_listed(table, more, caller, style, label, label.category_numbers_by_walk(), out)
}

#[inline(always)]
fn write_listed(
    table: &[u8],
    more: bool,
    caller: &Caller,
    style: Style,
    label: &Label,
    categories: impl Iterator<Item = u8>,
    out: &mut [u8],
) -> Result<usize, Refusal> {
    let mut buffer = Vec::new();
    let table = Table::read(table, more, &mut buffer)?;
    require(label.is_valid() && caller.label.is_valid(), Refusal::Invalid)?;
    require(caller.may_see(label), Refusal::Denied)?;
    let parts = parts(&table, style, label, categories)?;
    let length = parts.iter().map(|part| part.len()).sum();
    let mut rest = out.get_mut(..length).ok_or(Refusal::BufferShort(length))?;
    for part in parts {
        let (front, back) = rest.split_at_mut(part.len());
        front.copy_from_slice(part);
        rest = back;
    }
    Ok(length)
}

/// The label that a text says, whoever asks.
fn parse(table: &Table, text: &[u8]) -> Option<Label> {
    let mut fields = text.splitn(2, |byte| *byte == b':');
    let (first, categories) = (fields.next()?, fields.next());
    let mut label = match table.value(first)? {
        Value::Hierarchy(hierarchy) => Label { hierarchy, categories: [0; 4] },
        Value::Label(label) if categories.is_none() => label,
        _ => return None,
    };
    for name in categories.into_iter().flat_map(|names| names.split(|byte| *byte == b',')) {
        match table.value(name)? {
            Value::Category(category) if !label.has_category(category) => label.add_category(category),
            _ => return None,
        }
    }
    Some(label)
}

#[inline(never)]
pub fn read_label_text(table: &[u8], more: bool, caller: &Caller, text: &[u8]) -> Result<Label, Refusal> {
    let mut buffer = Vec::new();
    let table = Table::read(table, more, &mut buffer)?;
    require(caller.label.is_valid(), Refusal::Invalid)?;
    parse(&table, text).filter(|label| caller.may_see(label)).ok_or(Refusal::Invalid)
}
