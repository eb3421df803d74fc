//! Hex lines: of anything, valid or not, with a right sum, and damaged ones.

use crate::inputs;
use crate::random::Random;
use lurmenize::raw::*;

/// The line of a kind and a body.
fn sealed(frame: &[u8]) -> Vec<u8> {
    let sum = frame.iter().fold(0u8, |sum, byte| sum.wrapping_add(*byte));
    let digits = frame.iter().chain([&sum.wrapping_neg()]).map(|byte| format!("{byte:02x}")).collect::<String>();
    (digits + "\n").into_bytes()
}

/// A hierarchy that needs more bits than a line has for it is cut.
fn label_body(label: &Label) -> Vec<u8> {
    let words = label.categories.map(u64::to_le_bytes);
    [&[label.hierarchy as u8], words.concat().as_slice()].concat()
}

fn range_body(range: &Range) -> Vec<u8> {
    [label_body(&range.low), label_body(&range.high)].concat()
}

pub fn of_label(label: &Label) -> Vec<u8> {
    sealed(&[vec![1], label_body(label)].concat())
}

pub fn of_range(range: &Range) -> Vec<u8> {
    sealed(&[vec![2], range_body(range)].concat())
}

pub fn of_tuple(tuple: &Tuple) -> Vec<u8> {
    let mut frame = vec![3, 0];
    for (region, held) in tuple.ranges.iter().enumerate() {
        if held.present != 0 {
            frame[1] |= 1 << region;
            frame.extend(range_body(&held.range));
        }
    }
    sealed(&frame)
}

pub fn of_entry(entry: &Entry) -> Vec<u8> {
    let counted = |bytes: &[u8], length: usize| [&[length as u8], &bytes[..length.min(bytes.len())]].concat();
    let value = if entry.names == NAMES_LABEL { label_body(&entry.label) } else { vec![entry.number as u8] };
    let name = counted(&entry.name.bytes, entry.name.length);
    let abbreviation = counted(&entry.abbreviation.bytes, entry.abbreviation.length);
    sealed(&[vec![4, entry.names as u8], value, name, abbreviation].concat())
}

/// A line of some kind, whose contents may be invalid.
pub fn any(random: &mut Random) -> Vec<u8> {
    match random.below(5) {
        0 => of_label(&inputs::input_label(random)),
        1 => of_range(&inputs::input_range(random)),
        2 => of_tuple(&inputs::input_tuple(random)),
        3 => of_entry(&inputs::input_entry(random)),
        _ => short_frame(random),
    }
}

/// A frame that has a right sum and little else.
fn short_frame(random: &mut Random) -> Vec<u8> {
    let length = random.index(5);
    let mut frame: Vec<u8> = (0..length).map(|_| random.below(6) as u8).collect();
    if let Some(presence) = frame.get_mut(1) {
        *presence = random.number() as u8;
    }
    sealed(&frame)
}

/// The line with one fault of its form, or of one of its bytes under a right sum.
pub fn damaged(random: &mut Random, line: &[u8]) -> Vec<u8> {
    let mut line = line.to_vec();
    let at = random.index(line.len().max(1));
    match random.below(8) {
        _ if line.is_empty() => line.push(b'\n'),
        0 => line.truncate(at),
        1 => drop(line.pop()),
        2 => line.extend(b"\n"),
        3 => line.insert(at, random.pick(b"0f \r\n")),
        4 => line[at] = random.number() as u8,
        5 => line[at] = line[at].to_ascii_uppercase(),
        6 => drop(line.remove(at)),
        _ => return resealed(random, &line),
    }
    line
}

/// The line with another byte in its frame, and the sum of that.
fn resealed(random: &mut Random, line: &[u8]) -> Vec<u8> {
    let digit = |byte: u8| (byte as char).to_digit(16).unwrap_or(0) as u8;
    let mut frame: Vec<u8> = line.chunks_exact(2).map(|pair| digit(pair[0]) << 4 | digit(pair[1])).collect();
    frame.pop();
    if !frame.is_empty() {
        let at = random.index(frame.len());
        frame[at] = random.number() as u8;
    }
    sealed(&frame)
}

/// The line as it may come in.
pub fn as_input(random: &mut Random, line: Vec<u8>) -> Vec<u8> {
    match random.below(8) {
        0 | 1 => damaged(random, &line),
        2 => any(random),
        3 => (0..random.below(80)).map(|_| random.pick(b"0123456789abcdef\n")).collect(),
        _ => line,
    }
}
