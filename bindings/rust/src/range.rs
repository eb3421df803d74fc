//! Ranges and tuples.

use crate::raw;
pub use crate::raw::Range;
use crate::{Label, Refusal};
use std::fmt;

/// Every function that takes an invalid range refuses it with [`Refusal::Invalid`].
///
/// ```
/// use lurmenize::{Label, Range, Refusal};
///
/// let x = Range::new(Label::new(20, &[]), Label::new(40, &[1, 2]));
/// let y = Range::new(Label::new(30, &[2]), Label::new(50, &[2, 3]));
/// assert_eq!(x.meet(&y), Ok(Range::new(Label::new(30, &[2]), Label::new(40, &[2]))));
///
/// let other = Range::new(Label::new(50, &[]), Label::new(60, &[]));
/// assert_eq!(x.meet(&other), Err(Refusal::Domain));
/// ```
impl Range {
    /// The range with these ends, valid or not.
    pub fn new(low: Label, high: Label) -> Range {
        Range { low, high }
    }

    /// Whether the label is in the range.
    pub fn contains(&self, label: &Label) -> Result<bool, Refusal> {
        raw::lurm_range_contains(*self, *label).test()
    }

    /// The labels that are in both; [`Refusal::Domain`] where there is none.
    pub fn meet(&self, other: &Range) -> Result<Range, Refusal> {
        raw::lurm_range_meet(*self, *other).granted()
    }

    /// The tuple that has the same labels.
    pub fn split(&self) -> Result<Tuple, Refusal> {
        raw::lurm_range_split(*self).granted()
    }
}

/// Its ends, valid or not.
///
/// ```
/// use lurmenize::{Label, Range};
///
/// let range = Range::new(Label::new(20, &[]), Label::new(40, &[1]));
/// assert_eq!(range.to_string(), "[(20,{}),(40,{1})]");
/// ```
impl fmt::Display for Range {
    fn fmt(&self, f: &mut fmt::Formatter<'_>) -> fmt::Result {
        write!(f, "[{},{}]", self.low, self.high)
    }
}

/// For each region a range whose ends lie in it, or none. Any value can be held; functions refuse one with a range that is invalid or not in its
/// region, with [`Refusal::Invalid`].
///
/// ```
/// use lurmenize::{Label, Range, Region, Tuple};
///
/// let user = Range::new(Label::new(20, &[]), Label::new(40, &[1]));
/// let tuple = Tuple { ranges: [None, Some(user), None] };
/// assert_eq!(tuple.ranges[Region::User as usize], Some(user));
/// assert_eq!(tuple.contains(&Label::new(30, &[1])), Ok(true));
/// assert_eq!(tuple.contains(&Label::new(190, &[1])), Ok(false));
/// ```
#[derive(Clone, Copy, Debug, PartialEq, Eq, Hash, Default)]
pub struct Tuple {
    /// By [`Region`](crate::Region).
    pub ranges: [Option<Range>; raw::REGIONS],
}

impl Tuple {
    /// Whether it has no range.
    pub fn is_empty(&self) -> Result<bool, Refusal> {
        raw::lurm_tuple_is_empty(self.into()).test()
    }

    /// Whether the label is in it.
    pub fn contains(&self, label: &Label) -> Result<bool, Refusal> {
        raw::lurm_tuple_contains(self.into(), *label).test()
    }

    /// Whether each of its labels is in the other.
    pub fn within(&self, other: &Tuple) -> Result<bool, Refusal> {
        raw::lurm_tuple_within(self.into(), other.into()).test()
    }

    /// The labels that are in both. It may be empty.
    pub fn meet(&self, other: &Tuple) -> Result<Tuple, Refusal> {
        raw::lurm_tuple_meet(self.into(), other.into()).granted()
    }
}

/// The ranges that it has, in the order of the regions, valid or not.
///
/// ```
/// use lurmenize::{Label, Range, Tuple};
///
/// let tuple = Range::new(Label::new(10, &[]), Label::new(30, &[4])).split().unwrap();
/// assert_eq!(tuple.to_string(), "[(10,{}),(19,{4})] [(20,{}),(30,{4})]");
/// assert_eq!(Tuple::default().to_string(), "[]");
/// ```
impl fmt::Display for Tuple {
    fn fmt(&self, f: &mut fmt::Formatter<'_>) -> fmt::Result {
        let mut ranges = self.ranges.iter().flatten();
        let Some(first) = ranges.next() else {
            return f.write_str("[]");
        };
        write!(f, "{first}")?;
        ranges.try_for_each(|range| write!(f, " {range}"))
    }
}

impl From<&Tuple> for raw::Tuple {
    fn from(tuple: &Tuple) -> raw::Tuple {
        raw::Tuple { ranges: tuple.ranges.map(|range| raw::RegionRange { present: range.is_some().into(), range: range.unwrap_or_default() }) }
    }
}

/// [`Refusal::Invalid`] where `present` is neither 0 nor 1, or where there is no range and not zeros. A range that is there is held as it is, valid
/// or not.
impl TryFrom<raw::Tuple> for Tuple {
    type Error = Refusal;

    fn try_from(tuple: raw::Tuple) -> Result<Tuple, Refusal> {
        let mut ranges = [None; raw::REGIONS];
        for (held, given) in ranges.iter_mut().zip(tuple.ranges) {
            *held = match given.present {
                0 if given.range == Range::default() => None,
                1 => Some(given.range),
                _ => return Err(Refusal::Invalid),
            };
        }
        Ok(Tuple { ranges })
    }
}
