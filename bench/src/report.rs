//! What was measured, as Markdown.

use crate::cases::{Case, Further};
use crate::harness::Times;

/// Numbers in rising order, by which quartiles are read off.
struct Sorted(Vec<f64>);

impl Sorted {
    fn new(numbers: impl Iterator<Item = f64>) -> Sorted {
        let mut numbers: Vec<f64> = numbers.collect();
        numbers.sort_by(f64::total_cmp);
        Sorted(numbers)
    }

    /// The number that a part of all numbers is at or below: 0.5 for the median.
    fn at(&self, part: f64) -> f64 {
        self.0[(part * (self.0.len() - 1) as f64).round() as usize]
    }

    /// The median, the middle half and all of it.
    fn spread(&self) -> String {
        let [low, first, middle, third, high] = [0.0, 0.25, 0.5, 0.75, 1.0].map(|part| self.at(part));
        format!("{middle:.1} | {first:.1}..{third:.1} | {low:.1}..{high:.1}")
    }
}

/// The median of `times` by that of `base`, and the least and most that it is in one round.
fn ratio(times: &[f64], base: &[f64]) -> String {
    let median = |times: &[f64]| Sorted::new(times.iter().copied()).at(0.5);
    let rounds = Sorted::new(times.iter().zip(base).map(|(time, base)| time / base));
    format!("{:.2} | {:.2}..{:.2}", median(times) / median(base), rounds.at(0.0), rounds.at(1.0))
}

pub const HEAD: &str = "\
| Case | Ordinary, ns | Quartiles | Min..max | Proved, ns | Quartiles | Min..max | Ratio | By round |
|---|---|---|---|---|---|---|---|---|";

const SEPOL_HEAD: &str = "
| Case | libsepol, ns | Quartiles | Min..max | Proved / libsepol | By round |
|---|---|---|---|---|---|";

const WALK_HEAD: &str = "
| Case and version | From one to the next, ns | Quartiles | Min..max | Walk over all, ns | Quartiles | Min..max | Walk / next | By round |
|---|---|---|---|---|---|---|---|---|";

fn spread(times: &[f64]) -> String {
    Sorted::new(times.iter().copied()).spread()
}

/// A case's row: both versions, and the proved one by the ordinary one.
pub fn row(name: &str, times: &Times) -> String {
    let (ordinary, proved) = (&times[0], &times[1]);
    format!("| {name} | {} | {} | {} |", spread(ordinary), spread(proved), ratio(proved, ordinary))
}

/// A row of libsepol, where it is linked and the case is one that it has.
fn sepol_row(name: &str, times: &Times) -> Option<String> {
    let sepol = times.get(2)?;
    Some(format!("| {name} | {} | {} |", spread(sepol), ratio(&times[1], sepol)))
}

/// A row for each version that is there by a walk too.
fn walk_rows<'a>(name: &'a str, times: &'a Times) -> impl Iterator<Item = String> + 'a {
    let versions = ["ordinary", "proved"].into_iter().zip(times).zip(&times[2..]);
    versions
        .map(move |((version, next), walk)| format!("| {name}, {version} | {} | {} | {} |", spread(next), spread(walk), ratio(walk, next)))
}

/// The tables of further sides, which are printed after that of all cases.
#[derive(Default)]
pub struct FurtherTables {
    sepol: Vec<String>,
    walks: Vec<String>,
}

impl FurtherTables {
    pub fn add(&mut self, case: &Case, times: &Times) {
        match case.further {
            Further::Libsepol => self.sepol.extend(sepol_row(&case.name, times)),
            Further::Walks => self.walks.extend(walk_rows(&case.name, times)),
        }
    }

    pub fn print(&self) {
        for (head, rows) in [(WALK_HEAD, &self.walks), (SEPOL_HEAD, &self.sepol)] {
            if !rows.is_empty() {
                println!("{head}\n{}", rows.join("\n"));
            }
        }
    }
}

/// What the figures were taken with.
pub fn machine(rounds: usize) -> String {
    let processor = std::fs::read_to_string("/proc/cpuinfo").unwrap_or_default();
    let model = processor.lines().find_map(|line| line.strip_prefix("model name")?.split_once(": ")).map_or("unknown", |(_, model)| model);
    format!("\n{rounds} rounds; processor: {model}; ordinary version: {}", env!("BENCH_COMPILER"))
}
