//! The categories of a label listed from one to the next, and by a walk over all 256: in the text of a label, and alone.

use super::names::NamedTable;
use super::texts::{ordinary_texts, proved_texts, Written, BUFFER, LABELS, SIZES};
use super::{prepared, Case};
use crate::harness::{side, Side, Sides};
use crate::ordinary::caller::Caller;
use crate::ordinary::label::{list_categories, list_categories_by_walk, Label};
use crate::ordinary::text::{write_label_text, write_label_text_by_walk, Form, Style, Variant};
use crate::random::Random;
use lurmenize::raw;

/// Names of the hierarchy and of each category.
const NAMES: Style = Style { form: Form::Definition, variant: Variant::Names };

/// Sees every label.
const CALLER: Caller = Caller { label: Label { hierarchy: 0, categories: [0; 4] }, read_override: true };

fn written(random: &mut Random, entries: usize) -> Sides<Written> {
    let table = NamedTable::new(random, entries);
    let writings = prepared(LABELS, random, |random| (CALLER, NAMES, table.definable_label(random)));
    let bytes = table.bytes.into();
    vec![
        ordinary_texts(&bytes, &writings, write_label_text),
        proved_texts(&bytes, &writings, raw::lurm_write_label_text),
        ordinary_texts(&bytes, &writings, write_label_text_by_walk),
    ]
}

/// How many categories there are, and the buffer with their numbers.
type Listed = (usize, [u8; 256]);

fn ordinary_lists(labels: &[Label], list: impl Fn(&Label, &mut [u8]) -> usize + 'static) -> Box<dyn Side<Listed>> {
    side(BUFFER, labels.to_vec(), move |buffer, label| list(label, buffer), |buffer, count| (count, *buffer))
}

/// Lists as a C program does: by one call for each category, and one that finds no more.
fn proved_lists(labels: &[Label], next: impl Fn(raw::Label, u64) -> raw::Answer + 'static) -> Box<dyn Side<Listed>> {
    let list = move |buffer: &mut [u8; 256], label: &raw::Label| {
        let (mut count, mut found) = (0, next(*label, 0).value);
        while found < raw::CATEGORIES {
            buffer[count] = found as u8;
            count += 1;
            found = next(*label, found + 1).value;
        }
        count
    };
    side(BUFFER, labels.iter().map(|label| (*label).into()).collect(), list, |buffer, count| (count, *buffer))
}

fn listed(random: &mut Random) -> Sides<Listed> {
    let table = NamedTable::new(random, 512);
    let labels = prepared(LABELS, random, |random| table.definable_label(random));
    vec![
        ordinary_lists(&labels, list_categories),
        proved_lists(&labels, |label, from| raw::lurm_next_category(label, from)),
        ordinary_lists(&labels, list_categories_by_walk),
    ]
}

pub fn cases() -> Vec<Case> {
    let texts = SIZES.map(|size| Case::by_walk_too(format!("three categories written, {size} names"), move |random| written(random, size)));
    texts.into_iter().chain([Case::by_walk_too("three categories listed", listed)]).collect()
}
