//! A label's hex line, written and read.

use super::labels::label;
use super::{prepared, Case};
use crate::convert::{answer, label_answer};
use crate::harness::{side, Sides};
use crate::ordinary::label::Label;
use crate::ordinary::line::{read_label, write_label};
use crate::random::Random;
use lurmenize::raw;

const LINES: usize = 1024;
/// Document 01's line buffer. It is not cleared between calls, for either version.
const BUFFER: [u8; 512] = [0xa5; 512];
const LABEL_LINE: usize = 71;

fn labels(random: &mut Random) -> Vec<Label> {
    prepared(LINES, random, label)
}

fn write(random: &mut Random) -> Sides<(raw::Answer, [u8; 512])> {
    let labels = labels(random);
    let raw_labels = labels.iter().map(|label| raw::Label::from(*label)).collect();
    vec![
        side(
            BUFFER,
            labels,
            |buffer, label| write_label(label, buffer),
            |buffer, result| (answer(result.map(|length| length as u64)), *buffer),
        ),
        // SAFETY: pointer and length are those of the buffer.
        side(
            BUFFER,
            raw_labels,
            |buffer, label| unsafe { raw::lurm_write_label(*label, buffer.as_mut_ptr(), buffer.len()) },
            |buffer, answer| (answer, *buffer),
        ),
    ]
}

fn read(random: &mut Random) -> Sides<raw::LabelAnswer> {
    let line = |label: &Label| {
        let mut line = [0; LABEL_LINE];
        write_label(label, &mut line).expect("a line of a valid label");
        line
    };
    let lines: Vec<_> = labels(random).iter().map(line).collect();
    vec![
        side((), lines.clone(), |_, line| read_label(line), |_, result| label_answer(result)),
        // SAFETY: pointer and length are those of the line.
        side((), lines, |_, line| unsafe { raw::lurm_read_label(line.as_ptr(), line.len()) }, |_, answer| answer),
    ]
}

pub fn cases() -> Vec<Case> {
    vec![Case::new("hex line written", write), Case::new("hex line read", read)]
}
