//! Ranges, and tuples of one range for each region.

use super::label::{Label, Region};

#[derive(Clone, Copy, Debug, PartialEq, Eq)]
pub struct Range {
    pub low: Label,
    pub high: Label,
}

impl Range {
    pub fn is_valid(&self) -> bool {
        self.low.is_valid() && self.high.is_valid() && self.high.dominates(&self.low)
    }

    pub fn contains(&self, label: &Label) -> bool {
        self.high.dominates(label) && label.dominates(&self.low)
    }

    fn lies_in(&self, region: Region) -> bool {
        self.low.region() == region && self.high.region() == region
    }
}

/// A range for each region, in the order of `Region`, or none.
#[derive(Clone, Copy, Debug, PartialEq, Eq)]
pub struct Tuple(pub [Option<Range>; 3]);

impl Tuple {
    pub fn is_valid(&self) -> bool {
        let regions = [Region::VirusPrevention, Region::User, Region::Administrative];
        let mut present = self.0.iter().zip(regions).filter_map(|(range, region)| Some((range.as_ref()?, region)));
        present.all(|(range, region)| range.is_valid() && range.lies_in(region))
    }

    pub fn is_empty(&self) -> bool {
        self.0.iter().all(Option::is_none)
    }

    pub fn contains(&self, label: &Label) -> bool {
        self.0[label.region() as usize].as_ref().is_some_and(|range| range.contains(label))
    }
}
