//! Alias tables tested, and labels written and read as text by them.

use super::labels::label;
use super::names::NamedTable;
use super::{prepared, Case};
use crate::convert::{answer, label_answer};
use crate::harness::{side, Side, Sides};
use crate::ordinary::caller::Caller;
use crate::ordinary::label::Label;
use crate::ordinary::table::check_table;
use crate::ordinary::text::{read_label_text, write_label_text, Form, Style, Variant};
use crate::ordinary::Refusal;
use crate::random::Random;
use lurmenize::raw;
use std::rc::Rc;

pub const SIZES: [usize; 3] = [8, 64, 512];
pub const LABELS: usize = 256;
/// Room for any text of three categories. It is not cleared between calls, for either version.
pub const BUFFER: [u8; 256] = [0xa5; 256];

/// Tables to check: fewer where they are longer, so that all fit the processor's second cache.
fn tables(random: &mut Random, entries: usize) -> Vec<Vec<u8>> {
    prepared((2048 / entries).max(16), random, |random| NamedTable::new(random, entries).bytes)
}

fn check(random: &mut Random, entries: usize) -> Sides<raw::Answer> {
    let tables = tables(random, entries);
    vec![
        side((), tables.clone(), |_, table| check_table(table, false), |_, result| answer(result.map(|lines| lines as u64))),
        // SAFETY: pointer and length are those of the table.
        side((), tables, |_, table| unsafe { raw::lurm_check_alias_table(table.as_ptr(), table.len(), 0) }, |_, answer| answer),
    ]
}

/// Either dominates every label, or has the read override.
fn caller(random: &mut Random) -> Caller {
    if random.once_in(2) {
        Caller { label: Label { hierarchy: 199, categories: [u64::MAX; 4] }, read_override: false }
    } else {
        Caller { label: label(random), read_override: true }
    }
}

fn style(random: &mut Random) -> Style {
    let form = random.pick(&[Form::Definition, Form::Alias]);
    Style { form, variant: random.pick(&[Variant::Names, Variant::Abbreviations]) }
}

pub type Writing = (Caller, Style, Label);

/// The answer, and the buffer after the call.
pub type Written = (raw::Answer, [u8; 256]);

fn writings(random: &mut Random, table: &NamedTable) -> Vec<Writing> {
    prepared(LABELS, random, |random| (caller(random), style(random), table.label(random)))
}

/// Texts by an ordinary writer.
pub fn ordinary_texts(
    table: &Rc<[u8]>,
    writings: &[Writing],
    write: impl Fn(&[u8], bool, &Caller, Style, &Label, &mut [u8]) -> Result<usize, Refusal> + 'static,
) -> Box<dyn Side<Written>> {
    let table = table.clone();
    side(
        BUFFER,
        writings.to_vec(),
        move |buffer, (caller, style, label)| write(&table, false, caller, *style, label, buffer),
        |buffer, result| (answer(result.map(|length| length as u64)), *buffer),
    )
}

/// What the header declares as `lurm_write_label_text`.
pub type RawWriter = unsafe extern "C" fn(*const u8, usize, u64, raw::Caller, raw::Style, raw::Label, *mut u8, usize) -> raw::Answer;

/// Texts by a proved writer.
pub fn proved_texts(table: &Rc<[u8]>, writings: &[Writing], write: RawWriter) -> Box<dyn Side<Written>> {
    let table = table.clone();
    side(
        BUFFER,
        writings.iter().map(|(caller, style, label)| ((*caller).into(), (*style).into(), (*label).into())).collect(),
        move |buffer, (caller, style, label): &(raw::Caller, raw::Style, raw::Label)| {
            let (bytes, out) = (table.as_ptr(), buffer.as_mut_ptr());
            // SAFETY: pointers and lengths are those of the table and the buffer.
            unsafe { write(bytes, table.len(), 0, *caller, *style, *label, out, buffer.len()) }
        },
        |buffer, answer| (answer, *buffer),
    )
}

fn write(random: &mut Random, entries: usize) -> Sides<Written> {
    let table = NamedTable::new(random, entries);
    let (writings, bytes) = (writings(random, &table), table.bytes.into());
    vec![ordinary_texts(&bytes, &writings, write_label_text), proved_texts(&bytes, &writings, raw::lurm_write_label_text)]
}

/// What is written of each label, with the caller that reads it back.
fn readings(random: &mut Random, table: &NamedTable) -> Vec<(Caller, Vec<u8>)> {
    let read_back = |(caller, style, label): Writing| {
        let mut buffer = BUFFER;
        let length = write_label_text(&table.bytes, false, &caller, style, &label, &mut buffer).expect("a text of a named label");
        (caller, buffer[..length].to_vec())
    };
    writings(random, table).into_iter().map(read_back).collect()
}

fn read(random: &mut Random, entries: usize) -> Sides<raw::LabelAnswer> {
    let table = NamedTable::new(random, entries);
    let readings = readings(random, &table);
    let raw_readings: Vec<(raw::Caller, Vec<u8>)> = readings.iter().map(|(caller, text)| ((*caller).into(), text.clone())).collect();
    let bytes: Rc<[u8]> = table.bytes.into();
    let raw_bytes = bytes.clone();
    vec![
        side((), readings, move |_, (caller, text)| read_label_text(&bytes, false, caller, text), |_, result| label_answer(result)),
        side(
            (),
            raw_readings,
            move |_, (caller, text)| {
                let (table, length) = (raw_bytes.as_ptr(), raw_bytes.len());
                // SAFETY: pointers and lengths are those of the table and the text.
                unsafe { raw::lurm_read_label_text(table, length, 0, *caller, text.as_ptr(), text.len()) }
            },
            |_, answer| answer,
        ),
    ]
}

pub fn cases() -> Vec<Case> {
    let checks = SIZES.map(|size| Case::new(format!("table check, {size} names"), move |random| check(random, size)));
    let writes = SIZES.map(|size| Case::new(format!("text written, {size} names"), move |random| write(random, size)));
    let reads = SIZES.map(|size| Case::new(format!("text read, {size} names"), move |random| read(random, size)));
    checks.into_iter().chain(writes).chain(reads).collect()
}
