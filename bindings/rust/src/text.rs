//! Labels and ranges as text, by the names of an alias table.

use crate::raw;
use crate::{Caller, Label, Range, Refusal};

/// What is named in a text.
#[derive(Clone, Copy, Debug, PartialEq, Eq, Hash, Default)]
#[repr(u64)]
pub enum Form {
    /// The hierarchy and the categories.
    #[default]
    Definition = raw::FORM_DEFINITION,
    /// The whole label where it has a name, else as above.
    Alias = raw::FORM_ALIAS,
}

/// By what it is named in a text.
#[derive(Clone, Copy, Debug, PartialEq, Eq, Hash, Default)]
#[repr(u64)]
pub enum Variant {
    /// By names.
    #[default]
    Names = raw::VARIANT_NAMES,
    /// By abbreviations where there are any.
    Abbreviations = raw::VARIANT_ABBREVIATIONS,
}

/// How a text is written.
#[derive(Clone, Copy, Debug, PartialEq, Eq, Hash, Default)]
pub struct Style {
    /// What is named.
    pub form: Form,
    /// By what.
    pub variant: Variant,
}

impl From<Style> for raw::Style {
    fn from(style: Style) -> raw::Style {
        raw::Style { form: style.form as u64, variant: style.variant as u64 }
    }
}

/// Which ends of a range were written.
#[derive(Clone, Copy, Debug, PartialEq, Eq, Hash)]
pub enum Ends {
    /// Both.
    Both,
    /// The low one; the caller may not see the high one, and `?` stands for it.
    LowOnly,
}

/// An alias table: 0 to 512 lines of [`Entry`](crate::Entry), one after another. Any bytes can be held.
///
/// Every function tests the alias table first, and refuses a bad one with [`Refusal::BadLine`]; then the caller, and what else it is passed, and
/// refuses what is invalid with [`Refusal::Invalid`].
///
/// ```
/// use lurmenize::{AliasTable, Caller, Label, Refusal, Style};
///
/// let aliases = AliasTable::new(b"040114036c6f770092\n04020704656173740165dc\n");
/// let label = Label::new(20, &[7]);
/// let caller = Caller { label, read_override: false };
/// assert_eq!(aliases.label_text(&caller, Style::default(), &label).unwrap(), "low:east");
/// assert_eq!(aliases.read_label(&caller, b"low:e"), Ok(label));
/// assert_eq!(aliases.write_label(&caller, Style::default(), &label, &mut [0; 7]), Err(Refusal::TooBig(8)));
/// ```
#[derive(Clone, Copy, Debug, PartialEq, Eq, Hash, Default)]
pub struct AliasTable<'a> {
    /// The lines, each with its LF.
    pub lines: &'a [u8],
    /// Whether the alias table was cut off here and more lines follow: it is then bad at the end.
    pub more: bool,
}

/// The longest text of a label: a hierarchy's name and those of all categories, with one byte between two.
const LONGEST_LABEL: usize = (raw::MAX_NAME + 1) * (1 + raw::CATEGORIES as usize) - 1;
/// The longest text of a range.
const LONGEST_RANGE: usize = "-L ".len() + LONGEST_LABEL + " -H ".len() + LONGEST_LABEL;

impl<'a> AliasTable<'a> {
    /// The alias table that has these lines and no more.
    pub fn new(lines: &'a [u8]) -> AliasTable<'a> {
        AliasTable { lines, more: false }
    }

    /// How many lines it has.
    pub fn check(&self) -> Result<usize, Refusal> {
        // SAFETY: a slice's pointer is not null and has as many bytes as the slice's length.
        unsafe { raw::lurm_check_alias_table(self.lines.as_ptr(), self.lines.len(), self.more.into()) }.count()
    }

    /// What the library answers where it is to write a label's text.
    fn answer_label(&self, caller: &Caller, style: Style, label: &Label, out: &mut [u8]) -> raw::Answer {
        let (lines, more) = (self.lines, self.more.into());
        let (caller, style) = (caller.into(), style.into());
        // SAFETY: a slice's pointer is not null and has as many bytes as the slice's length, and what is lent for writing overlaps no other.
        unsafe { raw::lurm_write_label_text(lines.as_ptr(), lines.len(), more, caller, style, *label, out.as_mut_ptr(), out.len()) }
    }

    /// The same of a range, with the ends that it writes.
    fn answer_range(&self, caller: &Caller, style: Style, range: &Range, out: &mut [u8]) -> Result<(raw::Answer, Ends), Refusal> {
        let (lines, more) = (self.lines, self.more.into());
        let (caller, style) = (caller.into(), style.into());
        // SAFETY: as in `answer_label`.
        let written = unsafe { raw::lurm_write_range_text(lines.as_ptr(), lines.len(), more, caller, style, *range, out.as_mut_ptr(), out.len()) };
        match written.status {
            0 => Ok((written.answer, Ends::Both)),
            1 => Ok((written.answer, Ends::LowOnly)),
            _ => Err(Refusal::Unknown(written.answer)),
        }
    }

    /// Writes the text of a label to the front of `out` and gives its length. The bytes past it stay.
    ///
    /// [`Refusal::Access`] where the caller may not see the label, [`Refusal::NoEnt`] where a number has no name, [`Refusal::TooBig`] where `out`
    /// is too short; nothing is written then.
    pub fn write_label(&self, caller: &Caller, style: Style, label: &Label, out: &mut [u8]) -> Result<usize, Refusal> {
        self.answer_label(caller, style, label, out).length_in(out)
    }

    /// The same of a range, with the ends that were written. [`Refusal::Access`] where the caller may not see the low end.
    pub fn write_range(&self, caller: &Caller, style: Style, range: &Range, out: &mut [u8]) -> Result<(usize, Ends), Refusal> {
        let (answer, ends) = self.answer_range(caller, style, range, out)?;
        Ok((answer.length_in(out)?, ends))
    }

    /// The text of a label, as [`write_label`](AliasTable::write_label) writes it.
    pub fn label_text(&self, caller: &Caller, style: Style, label: &Label) -> Result<String, Refusal> {
        let mut out = [0; LONGEST_LABEL];
        self.answer_label(caller, style, label, &mut out).text_in(&out)
    }

    /// The text of a range, as [`write_range`](AliasTable::write_range) writes it.
    pub fn range_text(&self, caller: &Caller, style: Style, range: &Range) -> Result<(String, Ends), Refusal> {
        let mut out = [0; LONGEST_RANGE];
        let (answer, ends) = self.answer_range(caller, style, range, &mut out)?;
        Ok((answer.text_in(&out)?, ends))
    }

    /// The label that a text says. [`Refusal::Invalid`] where it is malformed, has an unknown name, or says a label that the caller may not see.
    pub fn read_label(&self, caller: &Caller, text: &[u8]) -> Result<Label, Refusal> {
        let (lines, more) = (self.lines, self.more.into());
        // SAFETY: a slice's pointer is not null and has as many bytes as the slice's length.
        unsafe { raw::lurm_read_label_text(lines.as_ptr(), lines.len(), more, caller.into(), text.as_ptr(), text.len()) }.granted()
    }

    /// The same of a range.
    pub fn read_range(&self, caller: &Caller, text: &[u8]) -> Result<Range, Refusal> {
        let (lines, more) = (self.lines, self.more.into());
        // SAFETY: a slice's pointer is not null and has as many bytes as the slice's length.
        unsafe { raw::lurm_read_range_text(lines.as_ptr(), lines.len(), more, caller.into(), text.as_ptr(), text.len()) }.granted()
    }
}
