//! Hex lines: two digits a byte, a last byte that makes the sum 0, then LF.

use super::label::{Label, WORDS};
use super::{require, Refusal};

const LABEL_KIND: u8 = 1;
/// Bytes of a label wherever it stands in a line.
const LABEL_BYTES: usize = 33;
/// A label's line: kind, label, sum.
const LABEL_LINE_BYTES: usize = LABEL_BYTES + 2;

const NO_DIGIT: u8 = 0xff;
const DIGIT_VALUES: [u8; 256] = digit_values();

const fn digit_values() -> [u8; 256] {
    let digits = b"0123456789abcdef";
    let mut values = [NO_DIGIT; 256];
    let mut value = 0;
    while value < digits.len() {
        values[digits[value] as usize] = value as u8;
        value += 1;
    }
    values
}

fn digit(value: u8) -> u8 {
    value + if value < 10 { b'0' } else { b'a' - 10 }
}

/// Writes a line of `bytes`, the last of which is its sum, to the front of `out`.
fn encode(bytes: &[u8], out: &mut [u8]) -> Result<usize, Refusal> {
    let length = 2 * bytes.len() + 1;
    let line = out.get_mut(..length).ok_or(Refusal::BufferShort(length))?;
    for (digits, byte) in line.chunks_exact_mut(2).zip(bytes) {
        digits[0] = digit(byte >> 4);
        digits[1] = digit(byte & 15);
    }
    line[length - 1] = b'\n';
    Ok(length)
}

/// Reads a line's bytes into `buffer` and gives them without the sum; `None` where the frame is bad or too long for the buffer.
pub fn decode<'a>(line: &[u8], buffer: &'a mut [u8]) -> Option<&'a [u8]> {
    let digits = line.strip_suffix(b"\n")?;
    let bytes = buffer.get_mut(..digits.len() / 2)?;
    let (mut sum, mut seen) = (0u8, 0u8);
    for (byte, pair) in bytes.iter_mut().zip(digits.chunks_exact(2)) {
        let (high, low) = (DIGIT_VALUES[usize::from(pair[0])], DIGIT_VALUES[usize::from(pair[1])]);
        seen |= high | low;
        *byte = high << 4 | low & 15;
        sum = sum.wrapping_add(*byte);
    }
    let framed = digits.len() % 2 == 0 && seen != NO_DIGIT && sum == 0;
    bytes.split_last().filter(|_| framed).map(|(_, body)| body)
}

/// The label in a line's bytes, if it is valid.
pub fn label_from(bytes: &[u8; LABEL_BYTES]) -> Option<Label> {
    let mut categories = [0; WORDS];
    for (word, bytes) in categories.iter_mut().zip(bytes[1..].as_chunks().0) {
        *word = u64::from_le_bytes(*bytes);
    }
    let label = Label { hierarchy: bytes[0], categories };
    label.is_valid().then_some(label)
}

#[inline(never)]
pub fn write_label(label: &Label, out: &mut [u8]) -> Result<usize, Refusal> {
    require(label.is_valid(), Refusal::Invalid)?;
    let mut bytes = [0; LABEL_LINE_BYTES];
    bytes[0] = LABEL_KIND;
    bytes[1] = label.hierarchy;
    for (bytes, word) in bytes[2..].as_chunks_mut().0.iter_mut().zip(label.categories) {
        *bytes = word.to_le_bytes();
    }
    bytes[LABEL_LINE_BYTES - 1] = bytes.iter().fold(0, |sum: u8, byte| sum.wrapping_sub(*byte));
    encode(&bytes, out)
}

#[inline(never)]
pub fn read_label(line: &[u8]) -> Result<Label, Refusal> {
    let mut buffer = [0; LABEL_LINE_BYTES];
    let body = decode(line, &mut buffer).ok_or(Refusal::Invalid)?;
    let (&LABEL_KIND, label) = body.split_first().ok_or(Refusal::Invalid)? else {
        return Err(Refusal::Invalid);
    };
    let label = label.try_into().map_err(|_| Refusal::Invalid)?;
    label_from(label).ok_or(Refusal::Invalid)
}
