//! Labels.

use crate::raw;
pub use crate::raw::Label;
use crate::Refusal;
use std::fmt;
use std::iter::FusedIterator;

/// A part of the hierarchies.
#[derive(Clone, Copy, Debug, PartialEq, Eq, Hash)]
pub enum Region {
    /// Hierarchies 0 to 19.
    VirusPrevention,
    /// Hierarchies 20 to 179.
    User,
    /// Hierarchies 180 to 199.
    Administrative,
}

impl Region {
    /// By number.
    const ALL: [Region; raw::REGIONS] = [Region::VirusPrevention, Region::User, Region::Administrative];
}

/// Every function that takes an invalid label refuses it with [`Refusal::Invalid`], but for [`categories`](Label::categories) and what displays it.
///
/// ```
/// use lurmenize::{Label, Refusal};
///
/// let a = Label::new(30, &[1, 2]);
/// let b = Label::new(20, &[2]);
/// assert_eq!(a.dominates(&b), Ok(true));
/// assert_eq!(b.dominates(&a), Ok(false));
/// assert_eq!(Label::new(250, &[]).dominates(&b), Err(Refusal::Invalid));
/// assert_eq!(Label::new(256 + 30, &[1, 2]).dominates(&b), Err(Refusal::Invalid));
/// ```
impl Label {
    /// The label with this hierarchy, which may be invalid, and these categories.
    pub fn new(hierarchy: u64, categories: &[u8]) -> Label {
        let mut words = [0; raw::WORDS];
        for category in categories {
            words[usize::from(category / 64)] |= 1 << (category % 64);
        }
        Label { hierarchy, categories: words }
    }

    /// Whether this label dominates the other: its hierarchy is at least the other's, and it has all categories of the other.
    pub fn dominates(&self, other: &Label) -> Result<bool, Refusal> {
        raw::lurm_dominates(*self, *other).test()
    }

    /// Whether both are valid and the same. (`==` compares any two labels, valid or not.)
    pub fn equal(&self, other: &Label) -> Result<bool, Refusal> {
        raw::lurm_equal(*self, *other).test()
    }

    /// The least label that dominates both.
    pub fn upper_bound(&self, other: &Label) -> Result<Label, Refusal> {
        raw::lurm_upper_bound(*self, *other).granted()
    }

    /// The greatest label that both dominate.
    pub fn lower_bound(&self, other: &Label) -> Result<Label, Refusal> {
        raw::lurm_lower_bound(*self, *other).granted()
    }

    /// The region of its hierarchy.
    pub fn region(&self) -> Result<Region, Refusal> {
        raw::lurm_region_of(*self).choice(&Region::ALL)
    }

    /// Whether it has the category. [`Refusal::Invalid`] where the category is above 255.
    pub fn has_category(&self, category: u64) -> Result<bool, Refusal> {
        raw::lurm_has_category(*self, category).test()
    }

    /// The label with the category, which it may have already. [`Refusal::Invalid`] where the category is above 255.
    ///
    /// ```
    /// use lurmenize::{Label, Refusal};
    ///
    /// let with = |categories: &[u64]| categories.iter().try_fold(Label::new(20, &[]), |label, category| label.with_category(*category));
    /// assert_eq!(with(&[1, 255]), Ok(Label::new(20, &[1, 255])));
    /// assert_eq!(with(&[1, 256]), Err(Refusal::Invalid));
    /// ```
    pub fn with_category(&self, category: u64) -> Result<Label, Refusal> {
        raw::lurm_with_category(*self, category).granted()
    }

    /// Its categories in rising order, also where its hierarchy is invalid.
    ///
    /// ```
    /// use lurmenize::Label;
    ///
    /// let label = Label::new(20, &[255, 1, 64]);
    /// assert_eq!(label.categories().len(), 3);
    /// assert_eq!(label.categories().collect::<Vec<u8>>(), [1, 64, 255]);
    /// ```
    pub fn categories(&self) -> Categories {
        let left = self.categories.iter().map(|word| word.count_ones() as usize).sum();
        Categories { set: Label { hierarchy: 0, categories: self.categories }, from: 0, left }
    }
}

/// The categories of a label in rising order, by [`Label::categories`]. It goes from one to the next by
/// [`raw::lurm_next_category`], whatever lies between them.
#[derive(Clone, Debug)]
pub struct Categories {
    /// The set, with a valid hierarchy: the step refuses an invalid label, and the hierarchy has no part in what it finds.
    set: Label,
    /// The next one is the least at or above this.
    from: u64,
    /// How many are still to come.
    left: usize,
}

impl Iterator for Categories {
    type Item = u8;

    fn next(&mut self) -> Option<u8> {
        let found = raw::lurm_next_category(self.set, self.from).value;
        // Where there is none, `found` is one past the last category, which is no `u8`.
        let category = u8::try_from(found).ok()?;
        self.from = found + 1;
        self.left -= 1;
        Some(category)
    }

    fn size_hint(&self) -> (usize, Option<usize>) {
        (self.left, Some(self.left))
    }
}

impl ExactSizeIterator for Categories {}

impl FusedIterator for Categories {}

/// The hierarchy and the categories, valid or not.
///
/// ```
/// use lurmenize::Label;
///
/// assert_eq!(Label::new(20, &[2, 1]).to_string(), "(20,{1,2})");
/// assert_eq!(Label::new(20, &[]).to_string(), "(20,{})");
/// ```
impl fmt::Display for Label {
    fn fmt(&self, f: &mut fmt::Formatter<'_>) -> fmt::Result {
        write!(f, "({},{{", self.hierarchy)?;
        let mut between = "";
        for category in self.categories() {
            write!(f, "{between}{category}")?;
            between = ",";
        }
        f.write_str("})")
    }
}
