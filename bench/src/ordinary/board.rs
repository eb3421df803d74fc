//! The board: which tenant holds which pages of shared memory.

use super::label::Label;
use super::range::Tuple;
use super::{require, Refusal};

pub const TENANTS: usize = 8;
pub const PLACES: usize = 64;
const PLACES_EACH: usize = PLACES / TENANTS;
const MAX_PAGES: u64 = 1 << 20;

#[derive(Clone, Copy, Debug, PartialEq, Eq)]
pub struct TenantId(pub u64);

#[derive(Clone, Copy, Debug, PartialEq, Eq)]
pub struct Place(pub u64);

impl Place {
    fn is_valid(self) -> bool {
        self.0 < PLACES as u64
    }
}

#[derive(Clone, Copy, Debug, PartialEq, Eq)]
pub struct Tenant {
    pub ceiling: u64,
    pub clearance: Tuple,
}

impl Tenant {
    fn is_valid(&self) -> bool {
        self.ceiling >= 1 && !self.clearance.is_empty() && self.clearance.is_valid()
    }
}

#[derive(Clone, Copy, Debug, PartialEq, Eq)]
pub struct Segment {
    pub label: Label,
    pub pages: u64,
    pub edition: u64,
}

/// Tenant t owns the places 8t to 8t + 7.
#[derive(Clone, Debug, PartialEq, Eq)]
pub struct Board {
    pub pool: u64,
    pub tenants: [Option<Tenant>; TENANTS],
    pub places: [Option<Segment>; PLACES],
}

/// The sum, unless it is above `limit`.
fn sum_within(mut numbers: impl Iterator<Item = u64>, limit: u64) -> Option<u64> {
    numbers.try_fold(0u64, |sum, number| sum.checked_add(number).filter(|sum| *sum <= limit))
}

fn is_count_of_pages(pages: u64) -> bool {
    (1..=MAX_PAGES).contains(&pages)
}

/// Whether a tenant's record and its places are sound.
fn tenant_sound(tenant: &Option<Tenant>, places: &[Option<Segment>]) -> bool {
    let mut segments = places.iter().flatten();
    let Some(tenant) = tenant else {
        return segments.next().is_none();
    };
    tenant.is_valid()
        && sum_within(segments.clone().map(|held| held.pages), tenant.ceiling).is_some()
        && segments.all(|held| held.pages >= 1 && held.label.is_valid() && tenant.clearance.contains(&held.label))
}

impl Board {
    #[inline(never)]
    pub fn is_sound(&self) -> bool {
        let ceilings = self.tenants.iter().flatten().map(|tenant| tenant.ceiling);
        let mut tenants = self.tenants.iter().zip(self.places.chunks_exact(PLACES_EACH));
        is_count_of_pages(self.pool)
            && sum_within(ceilings, self.pool).is_some()
            && tenants.all(|(tenant, places)| tenant_sound(tenant, places))
    }

    fn require_sound(&self) -> Result<(), Refusal> {
        require(self.is_sound(), Refusal::Invalid)
    }

    /// The index and the record of an admitted tenant.
    fn admitted(&self, tenant: TenantId) -> Result<(usize, &Tenant), Refusal> {
        let index = usize::try_from(tenant.0).map_err(|_| Refusal::Invalid)?;
        let tenant = self.tenants.get(index).and_then(Option::as_ref).ok_or(Refusal::Invalid)?;
        Ok((index, tenant))
    }

    /// The index of a tenant on a sound board that may act under that label. `valid` is whether the call's numbers are.
    fn cleared(&self, tenant: TenantId, label: &Label, valid: bool) -> Result<usize, Refusal> {
        self.require_sound()?;
        let (index, tenant) = self.admitted(tenant)?;
        require(valid && label.is_valid(), Refusal::Invalid)?;
        require(tenant.clearance.contains(label), Refusal::NoPrivilege)?;
        Ok(index)
    }

    /// The index of a place that is the tenant's own and has that label, and what it holds. `valid` is as above.
    fn own(&self, tenant: TenantId, label: &Label, place: Place, valid: bool) -> Result<(usize, Segment), Refusal> {
        let owner = self.cleared(tenant, label, valid && place.is_valid())?;
        let index = place.0 as usize;
        let held = self.places[index].filter(|held| held.label == *label && index / PLACES_EACH == owner);
        Ok((index, held.ok_or(Refusal::Denied)?))
    }

    fn own_places(&self, tenant: usize) -> &[Option<Segment>] {
        &self.places[tenant * PLACES_EACH..][..PLACES_EACH]
    }

    /// The pages that a tenant has in use on a sound board.
    fn pages_in_use(&self, tenant: usize) -> u64 {
        self.own_places(tenant).iter().flatten().map(|held| held.pages).sum()
    }

    /// The pages that a tenant's ceiling leaves it on a sound board.
    fn pages_left(&self, tenant: usize) -> u64 {
        self.tenants[tenant].as_ref().map_or(0, |record| record.ceiling - self.pages_in_use(tenant))
    }

    /// `Ok` if the pool has room for a tenant with that ceiling beside the other tenants.
    fn require_pool(&self, tenant: usize, ceiling: u64) -> Result<(), Refusal> {
        let others = self.tenants.iter().enumerate().filter(|(other, _)| *other != tenant);
        let ceilings = others.filter_map(|(_, record)| Some(record.as_ref()?.ceiling));
        require(sum_within(ceilings.chain([ceiling]), self.pool).is_some(), Refusal::NoPages)
    }

    #[inline(never)]
    pub fn admit(&mut self, tenant: TenantId, ceiling: u64, clearance: &Tuple) -> Result<(), Refusal> {
        self.require_sound()?;
        let index = usize::try_from(tenant.0).ok().filter(|index| *index < TENANTS).ok_or(Refusal::Invalid)?;
        let record = Tenant { ceiling, clearance: *clearance };
        require(record.is_valid(), Refusal::Invalid)?;
        require(self.tenants[index].is_none(), Refusal::InUse)?;
        self.require_pool(index, ceiling)?;
        self.tenants[index] = Some(record);
        Ok(())
    }

    #[inline(never)]
    pub fn set_ceiling(&mut self, tenant: TenantId, ceiling: u64) -> Result<(), Refusal> {
        self.require_sound()?;
        let (index, record) = self.admitted(tenant)?;
        require(ceiling >= 1, Refusal::Invalid)?;
        require(self.pages_in_use(index) <= ceiling, Refusal::InUse)?;
        self.require_pool(index, ceiling)?;
        self.tenants[index] = Some(Tenant { ceiling, ..*record });
        Ok(())
    }

    #[inline(never)]
    pub fn open(&mut self, tenant: TenantId, label: &Label, pages: u64) -> Result<Place, Refusal> {
        let owner = self.cleared(tenant, label, is_count_of_pages(pages))?;
        let empty = self.own_places(owner).iter().position(Option::is_none).ok_or(Refusal::NoPlace)?;
        require(pages <= self.pages_left(owner), Refusal::NoPages)?;
        let index = owner * PLACES_EACH + empty;
        self.places[index] = Some(Segment { label: *label, pages, edition: 0 });
        Ok(Place(index as u64))
    }

    #[inline(never)]
    pub fn size(&mut self, tenant: TenantId, label: &Label, place: Place, pages: u64) -> Result<(), Refusal> {
        let (index, held) = self.own(tenant, label, place, is_count_of_pages(pages))?;
        require(pages <= self.pages_left(index / PLACES_EACH) + held.pages, Refusal::NoPages)?;
        self.places[index] = Some(Segment { pages, ..held });
        Ok(())
    }

    #[inline(never)]
    pub fn post(&mut self, tenant: TenantId, label: &Label, place: Place, edition: u64) -> Result<(), Refusal> {
        let (index, held) = self.own(tenant, label, place, true)?;
        self.places[index] = Some(Segment { edition, ..held });
        Ok(())
    }

    #[inline(never)]
    pub fn look(&self, tenant: TenantId, label: &Label, place: Place) -> Result<Segment, Refusal> {
        self.cleared(tenant, label, place.is_valid())?;
        self.places[place.0 as usize].filter(|held| label.dominates(&held.label)).ok_or(Refusal::Denied)
    }

    #[inline(never)]
    pub fn close(&mut self, tenant: TenantId, label: &Label, place: Place) -> Result<(), Refusal> {
        let (index, _) = self.own(tenant, label, place, true)?;
        self.places[index] = None;
        Ok(())
    }
}
