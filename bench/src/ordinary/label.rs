//! Labels: a hierarchy and a set of categories.

use super::{require, Refusal};

pub const WORDS: usize = 4;
const MAX_HIERARCHY: u8 = 199;

/// Category c is bit c % 64 of `categories[c / 64]`.
#[derive(Clone, Copy, Debug, PartialEq, Eq)]
pub struct Label {
    pub hierarchy: u8,
    pub categories: [u64; WORDS],
}

#[derive(Clone, Copy, Debug, PartialEq, Eq)]
pub enum Region {
    VirusPrevention,
    User,
    Administrative,
}

impl Label {
    pub fn is_valid(&self) -> bool {
        self.hierarchy <= MAX_HIERARCHY
    }

    pub fn dominates(&self, other: &Label) -> bool {
        self.hierarchy >= other.hierarchy && self.includes(other)
    }

    fn includes(&self, other: &Label) -> bool {
        self.categories.iter().zip(&other.categories).fold(0, |missing, (own, others)| missing | others & !own) == 0
    }

    pub fn region(&self) -> Region {
        match self.hierarchy {
            0..=19 => Region::VirusPrevention,
            20..=179 => Region::User,
            _ => Region::Administrative,
        }
    }

    pub fn has_category(&self, category: u8) -> bool {
        self.categories[usize::from(category / 64)] >> (category % 64) & 1 == 1
    }

    pub fn add_category(&mut self, category: u8) {
        self.categories[usize::from(category / 64)] |= 1 << (category % 64);
    }

    /// The categories in rising order.
    pub fn category_numbers(&self) -> impl Iterator<Item = u8> + '_ {
        (0u8..).zip(&self.categories).flat_map(|(index, &word)| {
            let mut left = word;
            std::iter::from_fn(move || {
                let bit = left.trailing_zeros();
                left &= left.wrapping_sub(1);
                (bit < 64).then(|| 64 * index + bit as u8)
            })
        })
    }

    /// The same by a walk over all categories, for the comparison of the two ways.
    pub fn category_numbers_by_walk(&self) -> impl Iterator<Item = u8> + '_ {
        (0..=u8::MAX).filter(|category| self.has_category(*category))
    }
}

fn require_valid(labels: &[&Label]) -> Result<(), Refusal> {
    require(labels.iter().all(|label| label.is_valid()), Refusal::Invalid)
}

/// Puts numbers at the front of `out`, and answers how many they are.
#[inline(always)]
fn put_numbers(numbers: impl Iterator<Item = u8>, out: &mut [u8]) -> usize {
    let mut count = 0;
    for number in numbers {
        out[count] = number;
        count += 1;
    }
    count
}

/// The categories of a label in rising order, at the front of `out`, and how many they are.
#[inline(never)]
pub fn list_categories(label: &Label, out: &mut [u8]) -> usize {
    put_numbers(label.category_numbers(), out)
}

#[inline(never)]
pub fn list_categories_by_walk(label: &Label, out: &mut [u8]) -> usize {
    put_numbers(label.category_numbers_by_walk(), out)
}

#[inline(never)]
pub fn dominates(a: &Label, b: &Label) -> Result<bool, Refusal> {
    inlined::dominates(a, b)
}

#[inline(never)]
pub fn upper_bound(a: &Label, b: &Label) -> Result<Label, Refusal> {
    inlined::upper_bound(a, b)
}

#[inline(never)]
pub fn lower_bound(a: &Label, b: &Label) -> Result<Label, Refusal> {
    inlined::lower_bound(a, b)
}

/// The same, for callers that are timed themselves.
pub mod inlined {
    use super::{require_valid, Label, Refusal};

    #[inline(always)]
    pub fn dominates(a: &Label, b: &Label) -> Result<bool, Refusal> {
        require_valid(&[a, b])?;
        Ok(a.dominates(b))
    }

    #[inline(always)]
    pub fn upper_bound(a: &Label, b: &Label) -> Result<Label, Refusal> {
        require_valid(&[a, b])?;
        Ok(Label { hierarchy: a.hierarchy.max(b.hierarchy), categories: std::array::from_fn(|i| a.categories[i] | b.categories[i]) })
    }

    #[inline(always)]
    pub fn lower_bound(a: &Label, b: &Label) -> Result<Label, Refusal> {
        require_valid(&[a, b])?;
        Ok(Label { hierarchy: a.hierarchy.min(b.hierarchy), categories: std::array::from_fn(|i| a.categories[i] & b.categories[i]) })
    }
}
