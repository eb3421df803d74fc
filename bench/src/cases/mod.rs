//! What is measured. Each case prepares the inputs of both versions from the same seed.

mod labels;
mod lines;
mod listing;
mod monitor;
pub mod names;
mod segments;
mod texts;

use crate::harness::Measurable;
use crate::random::Random;

const SEED: u64 = 0x6c75_726d_656e_697a;

type Prepare = dyn Fn(&mut Random) -> Box<dyn Measurable>;

/// What the sides of a case are after the ordinary version and the proved one, where there are more.
#[derive(Clone, Copy)]
pub enum Further {
    Libsepol,
    /// The ordinary version by a walk over all categories, then the proved one by such a walk, if it is linked.
    Walks,
}

pub struct Case {
    pub name: String,
    pub further: Further,
    prepare: Box<Prepare>,
}

impl Case {
    fn new<M: Measurable + 'static>(name: impl Into<String>, prepare: impl Fn(&mut Random) -> M + 'static) -> Case {
        Case { name: name.into(), further: Further::Libsepol, prepare: Box::new(move |random| Box::new(prepare(random))) }
    }

    fn by_walk_too<M: Measurable + 'static>(name: impl Into<String>, prepare: impl Fn(&mut Random) -> M + 'static) -> Case {
        Case { further: Further::Walks, ..Case::new(name, prepare) }
    }

    pub fn prepare(&self) -> Box<dyn Measurable> {
        (self.prepare)(&mut Random::new(SEED))
    }
}

pub fn all() -> Vec<Case> {
    let cases = [labels::cases(), lines::cases(), texts::cases(), listing::cases(), monitor::cases(), segments::cases()];
    cases.into_iter().flatten().collect()
}

/// `count` inputs.
fn prepared<I>(count: usize, random: &mut Random, make: impl Fn(&mut Random) -> I) -> Vec<I> {
    (0..count).map(|_| make(random)).collect()
}
