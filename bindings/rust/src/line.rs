//! Hex lines, and the alias entries that some of them hold.

use crate::raw;
use crate::{Label, Range, Refusal, Tuple};

/// What a hex line holds.
#[derive(Clone, Copy, Debug, PartialEq, Eq, Hash)]
pub enum LineKind {
    /// For [`Label::read_line`].
    Label,
    /// For [`Range::read_line`].
    Range,
    /// For [`Tuple::read_line`].
    Tuple,
    /// For [`Entry::read_line`].
    Entry,
}

/// Which reader a line with its LF is for. [`Refusal::Invalid`] where it is no line of a known kind.
///
/// ```
/// use lurmenize::{line_kind, LineKind, Refusal, Tuple};
///
/// assert_eq!(line_kind(b"0300fd\n"), Ok(LineKind::Tuple));
/// assert_eq!(Tuple::read_line(b"0300fd\n"), Ok(Tuple::default()));
/// assert_eq!(line_kind(b"0300fd"), Err(Refusal::Invalid));
/// ```
pub fn line_kind(line: &[u8]) -> Result<LineKind, Refusal> {
    // SAFETY: a slice's pointer is not null and has as many bytes as the slice's length.
    let answer = unsafe { raw::lurm_line_kind(line.as_ptr(), line.len()) };
    match answer.number()? {
        raw::LINE_LABEL => Ok(LineKind::Label),
        raw::LINE_RANGE => Ok(LineKind::Range),
        raw::LINE_TUPLE => Ok(LineKind::Tuple),
        raw::LINE_ENTRY => Ok(LineKind::Entry),
        _ => Err(Refusal::Unknown(answer)),
    }
}

/// What an alias entry names.
#[derive(Clone, Copy, Debug, PartialEq, Eq, Hash)]
pub enum Named {
    /// A hierarchy, 0 to 199 where it is valid.
    Hierarchy(u64),
    /// A category, 0 to 255 where it is valid.
    Category(u64),
    /// A whole label.
    Label(Label),
}

/// An alias entry, a line of an [`AliasTable`](crate::AliasTable). Any value can be held; functions refuse one that names an invalid hierarchy,
/// category or label, or whose name or abbreviation is too long or not made of the right bytes, with [`Refusal::Invalid`].
///
/// ```
/// use lurmenize::{Entry, Named, Refusal};
///
/// let east = Entry::new(Named::Category(7), "east", "e");
/// assert_eq!(east.to_line().unwrap(), "04020704656173740165dc\n");
/// assert_eq!(Entry::read_line(b"04020704656173740165dc\n"), Ok(east));
/// assert_eq!(Entry::new(Named::Category(7), "7th", "").to_line(), Err(Refusal::Invalid));
/// assert_eq!(Entry::new(Named::Category(256 + 7), "east", "e").to_line(), Err(Refusal::Invalid));
/// ```
#[derive(Clone, Debug, PartialEq, Eq, Hash)]
pub struct Entry {
    /// What it names.
    pub names: Named,
    /// Its name, 1 to 31 bytes where it is valid.
    pub name: Vec<u8>,
    /// Its abbreviation, up to 15 bytes where it is valid; empty where there is none.
    pub abbreviation: Vec<u8>,
}

impl Entry {
    /// The entry with this name and abbreviation, valid or not.
    pub fn new(names: Named, name: impl Into<Vec<u8>>, abbreviation: impl Into<Vec<u8>>) -> Entry {
        Entry { names, name: name.into(), abbreviation: abbreviation.into() }
    }
}

/// `text` in an array, with zeros after it, at least one. [`Refusal::Invalid`] where it is too long for that.
fn padded<const N: usize>(text: &[u8]) -> Result<[u8; N], Refusal> {
    let mut bytes = [0; N];
    let (_, room) = bytes.split_last_mut().ok_or(Refusal::Invalid)?;
    room.get_mut(..text.len()).ok_or(Refusal::Invalid)?.copy_from_slice(text);
    Ok(bytes)
}

/// The first `length` of `bytes`. [`Refusal::Invalid`] where they are not what [`padded`] makes of a text of that length.
fn unpadded(bytes: &[u8], length: usize) -> Result<Vec<u8>, Refusal> {
    let (text, rest) = bytes.split_at_checked(length).ok_or(Refusal::Invalid)?;
    if rest.is_empty() || rest.iter().any(|byte| *byte != 0) {
        return Err(Refusal::Invalid);
    }
    Ok(text.to_vec())
}

/// [`Refusal::Invalid`] where a name has more than 31 bytes, or an abbreviation more than 15. All else is held as it is, valid or not.
impl TryFrom<&Entry> for raw::Entry {
    type Error = Refusal;

    fn try_from(entry: &Entry) -> Result<raw::Entry, Refusal> {
        let (names, number, label) = match entry.names {
            Named::Hierarchy(hierarchy) => (raw::NAMES_HIERARCHY, hierarchy, Label::default()),
            Named::Category(category) => (raw::NAMES_CATEGORY, category, Label::default()),
            Named::Label(label) => (raw::NAMES_LABEL, 0, label),
        };
        let name = raw::Name { bytes: padded(&entry.name)?, length: entry.name.len() };
        let abbreviation = raw::Abbreviation { bytes: padded(&entry.abbreviation)?, length: entry.abbreviation.len() };
        Ok(raw::Entry { names, number, label, name, abbreviation })
    }
}

/// [`Refusal::Invalid`] where `names` is none of `NAMES_..`, a number stands beside a label or a label beside a number, a length is above 31 or 15,
/// or the bytes past it are not zeros. All else is held as it is, valid or not.
impl TryFrom<raw::Entry> for Entry {
    type Error = Refusal;

    fn try_from(entry: raw::Entry) -> Result<Entry, Refusal> {
        let no_label = entry.label == Label::default();
        let names = match entry.names {
            raw::NAMES_HIERARCHY if no_label => Named::Hierarchy(entry.number),
            raw::NAMES_CATEGORY if no_label => Named::Category(entry.number),
            raw::NAMES_LABEL if entry.number == 0 => Named::Label(entry.label),
            _ => return Err(Refusal::Invalid),
        };
        let name = unpadded(&entry.name.bytes, entry.name.length)?;
        let abbreviation = unpadded(&entry.abbreviation.bytes, entry.abbreviation.length)?;
        Ok(Entry { names, name, abbreviation })
    }
}

/// The writer and the reader of each kind of line; `numbers` gives the struct that the writer takes, or refuses.
macro_rules! lines {
    ($($type:ident: $numbers:expr, $write:ident, $read:ident;)*) => {
        $(impl $type {
            /// What the library answers where it is to write the line.
            fn answer_line(&self, out: &mut [u8]) -> Result<raw::Answer, Refusal> {
                let numbers = $numbers(self)?;
                // SAFETY: a slice's pointer is not null and has as many bytes as the slice's length, and no one else has a slice that is lent
                // for writing.
                Ok(unsafe { raw::$write(numbers, out.as_mut_ptr(), out.len()) })
            }

            /// Writes its hex line to the front of `out` and gives the line's length, its LF included. The bytes past it stay.
            /// [`Refusal::Invalid`] where it is invalid, [`Refusal::TooBig`] where `out` is too short; nothing is written then.
            pub fn write_line(&self, out: &mut [u8]) -> Result<usize, Refusal> {
                self.answer_line(out)?.length_in(out)
            }

            /// Its hex line with its LF. [`Refusal::Invalid`] where it is invalid.
            pub fn to_line(&self) -> Result<String, Refusal> {
                let mut line = [0; raw::MAX_LINE];
                self.answer_line(&mut line)?.text_in(&line)
            }

            /// What a hex line with its LF says. [`Refusal::Invalid`] where it is not the line of a valid one.
            pub fn read_line(line: &[u8]) -> Result<$type, Refusal> {
                // SAFETY: a slice's pointer is not null and has as many bytes as the slice's length.
                unsafe { raw::$read(line.as_ptr(), line.len()) }.granted()
            }
        })*
    };
}

lines! {
    Label: |label: &Label| Ok::<_, Refusal>(*label), lurm_write_label, lurm_read_label;
    Range: |range: &Range| Ok::<_, Refusal>(*range), lurm_write_range, lurm_read_range;
    Tuple: |tuple: &Tuple| Ok::<_, Refusal>(tuple.into()), lurm_write_tuple, lurm_read_tuple;
    Entry: raw::Entry::try_from, lurm_write_entry, lurm_read_entry;
}
