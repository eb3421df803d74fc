//! Dominance and the bounds of pairs of labels, most of which are comparable.

use super::{prepared, Case};
use crate::by_value;
use crate::convert::{answer, label_answer};
use crate::harness::{side, Side, Sides};
use crate::ordinary::label::{dominates, lower_bound, upper_bound, Label};
use crate::ordinary::Refusal;
use crate::random::Random;
use lurmenize::raw;

const PAIRS: usize = 1024;

/// A label of that hierarchy with about one category in eight.
pub fn label_at(random: &mut Random, hierarchy: u64) -> Label {
    let categories = std::array::from_fn(|_| random.next() & random.next() & random.next());
    Label { hierarchy: hierarchy as u8, categories }
}

pub fn label(random: &mut Random) -> Label {
    let hierarchy = random.between(0, 199);
    label_at(random, hierarchy)
}

/// A label that `high` dominates.
pub fn below(random: &mut Random, high: &Label) -> Label {
    let hierarchy = random.between(0, high.hierarchy.into()) as u8;
    Label { hierarchy, categories: high.categories.map(|word| word & random.next()) }
}

fn pair(random: &mut Random) -> (Label, Label) {
    let first = label(random);
    let second = match random.below(4) {
        0 | 1 => below(random, &first),
        2 => Label { hierarchy: random.between(0, 199) as u8, ..first },
        _ => label(random),
    };
    (first, second)
}

fn pairs(random: &mut Random) -> Vec<(Label, Label)> {
    prepared(PAIRS, random, pair)
}

fn raw_pairs(pairs: &[(Label, Label)]) -> Vec<(raw::Label, raw::Label)> {
    pairs.iter().map(|(first, second)| ((*first).into(), (*second).into())).collect()
}

fn dominance(random: &mut Random) -> Sides<raw::Answer> {
    let pairs = pairs(random);
    let proved = raw_pairs(&pairs);
    let beside = libsepol(&pairs);
    let ordinary = side((), pairs, |_, (a, b)| dominates(a, b), |_, result| answer(result.map(u64::from)));
    let proved = side((), proved, |_, (a, b)| raw::lurm_dominates(*a, *b), |_, answer| answer);
    [ordinary, proved].into_iter().chain(beside).collect()
}

#[cfg(sepol)]
fn libsepol(pairs: &[(Label, Label)]) -> Option<Box<dyn Side<raw::Answer>>> {
    use crate::sepol::Level;
    let levels = pairs.iter().map(|(first, second)| (Level::new(first), Level::new(second))).collect();
    let view = |_: &(), value: bool| answer(Ok(value.into()));
    Some(side((), levels, |_, (a, b): &(Level, Level)| a.dominates(b), view))
}

#[cfg(not(sepol))]
fn libsepol(_: &[(Label, Label)]) -> Option<Box<dyn Side<raw::Answer>>> {
    None
}

/// Both versions of a function that answers a label.
fn bound(
    random: &mut Random,
    ordinary: impl Fn(&Label, &Label) -> Result<Label, Refusal> + 'static,
    proved: impl Fn(raw::Label, raw::Label) -> raw::LabelAnswer + 'static,
) -> Sides<raw::LabelAnswer> {
    let pairs = pairs(random);
    let raw_pairs = raw_pairs(&pairs);
    vec![
        side((), pairs, move |_, (a, b)| ordinary(a, b), |_, result| label_answer(result)),
        side((), raw_pairs, move |_, (a, b)| proved(*a, *b), |_, answer| answer),
    ]
}

/// The ordinary version behind the header's interface, and the proved one.
fn passed<A: 'static>(
    random: &mut Random,
    ordinary: impl Fn(raw::Label, raw::Label) -> A + 'static,
    proved: impl Fn(raw::Label, raw::Label) -> A + 'static,
) -> Sides<A> {
    let pairs = raw_pairs(&pairs(random));
    vec![
        side((), pairs.clone(), move |_, (a, b)| ordinary(*a, *b), |_, answer| answer),
        side((), pairs, move |_, (a, b)| proved(*a, *b), |_, answer| answer),
    ]
}

pub fn cases() -> Vec<Case> {
    let dominates = |a, b| raw::lurm_dominates(a, b);
    let upper = |a, b| raw::lurm_upper_bound(a, b);
    let lower = |a, b| raw::lurm_lower_bound(a, b);
    vec![
        Case::new("dominance", dominance),
        Case::new("upper bound", move |random| bound(random, upper_bound, upper)),
        Case::new("lower bound", move |random| bound(random, lower_bound, lower)),
        Case::new("dominance, by value", move |random| passed(random, |a, b| by_value::dominates(a, b), dominates)),
        Case::new("upper bound, by value", move |random| passed(random, |a, b| by_value::upper_bound(a, b), upper)),
        Case::new("lower bound, by value", move |random| passed(random, |a, b| by_value::lower_bound(a, b), lower)),
    ]
}
