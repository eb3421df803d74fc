//! Random and damaged inputs to every function of the C interface, compared with the independent implementation in `tests/model/capi.py`: every
//! number that is handed back, and every byte of the buffers that are written to.

mod calls;
mod case;
mod inputs;
mod lines;
mod numbers;
mod random;
mod states;
mod tables;

use case::{Case, Cases};
use lurmenize::raw::*;
use random::Random;
use std::collections::{BTreeMap, BTreeSet};
use std::fs::File;
use std::path::Path;
use std::process::Command;

const SEED: u64 = 1;
const ROUNDS: usize = 1000;
const RUNS: usize = 100;
const RUN_LENGTH: usize = 100;
const MOST_SHOWN: usize = 5;

/// A refusal's number, and whether it carries one more.
type Refused = (u32, u32);

const SHORT: Refused = (E2BIG, 1);
const BAD_ALIASES: Refused = (EINVAL, 1);

const fn plain(refusal: u32) -> Refused {
    (refusal, 0)
}

const YES_OR_NO: &[u64] = &[0, 1];
const INVALID: &[Refused] = &[plain(EINVAL)];
const WRITES: &[Refused] = &[SHORT, plain(EINVAL)];
const WRITES_TEXT: &[Refused] = &[plain(ENOENT), SHORT, plain(EACCES), plain(EINVAL), BAD_ALIASES];
const READS_TEXT: &[Refused] = &[plain(EINVAL), BAD_ALIASES];
const ACCESS: &[Refused] = &[plain(EPERM), plain(EACCES), plain(EINVAL)];
const CEILINGS: &[Refused] = &[plain(ENOMEM), plain(EBUSY), plain(EINVAL)];

/// Each function that answers, some values that its grants have to reach, and all its refusals: just these have to be reached.
const FUNCTIONS: [(&str, &[u64], &[Refused]); 40] = [
    ("dominates", YES_OR_NO, INVALID),
    ("equal", YES_OR_NO, INVALID),
    ("upper_bound", &[0], INVALID),
    ("lower_bound", &[0], INVALID),
    ("region_of", &[0, 1, 2], INVALID),
    ("has_category", YES_OR_NO, INVALID),
    ("with_category", &[0], INVALID),
    ("next_category", &[0, 63, 64, 128, 255, CATEGORIES], INVALID),
    ("range_contains", YES_OR_NO, INVALID),
    ("range_meet", &[0], &[plain(EINVAL), plain(EDOM)]),
    ("range_split", &[0], INVALID),
    ("tuple_is_empty", YES_OR_NO, INVALID),
    ("tuple_contains", YES_OR_NO, INVALID),
    ("tuple_within", YES_OR_NO, INVALID),
    ("tuple_meet", &[0], INVALID),
    ("line_kind", &[LINE_LABEL, LINE_RANGE, LINE_TUPLE, LINE_ENTRY], INVALID),
    ("write_label", &[71], WRITES),
    ("write_range", &[137], WRITES),
    ("write_tuple", &[7, MAX_LINE as u64], WRITES),
    ("write_entry", &[], WRITES),
    ("read_label", &[0], INVALID),
    ("read_range", &[0], INVALID),
    ("read_tuple", &[0], INVALID),
    ("read_entry", &[0], INVALID),
    ("check_alias_table", &[0, 1, MAX_ALIAS_LINES as u64], READS_TEXT),
    ("write_label_text", &[], WRITES_TEXT),
    ("write_range_text", &[], WRITES_TEXT),
    ("read_label_text", &[0], READS_TEXT),
    ("read_range_text", &[0], READS_TEXT),
    ("check", YES_OR_NO, ACCESS),
    ("make", &[0], INVALID),
    ("admit", &[0], CEILINGS),
    ("set_ceiling", &[0], CEILINGS),
    ("open", &[0, 7, 8, 15], &[plain(EPERM), plain(ENOMEM), plain(EINVAL), plain(ENOSPC)]),
    ("size", &[0], &[plain(EPERM), plain(ENOMEM), plain(EACCES), plain(EINVAL)]),
    ("post", &[0], ACCESS),
    ("close", &[0], ACCESS),
    ("look", &[0], ACCESS),
    ("sound", YES_OR_NO, &[]),
    ("pages_in_use", &[0, 1], INVALID),
];

fn all_cases() -> Vec<Case> {
    let (mut random, mut cases) = (Random::new(SEED), Cases::default());
    for _ in 0..ROUNDS {
        calls::labels(&mut random, &mut cases);
        calls::ranges(&mut random, &mut cases);
        calls::tuples(&mut random, &mut cases);
        calls::hex_lines(&mut random, &mut cases);
        calls::texts(&mut random, &mut cases);
        (0..4).for_each(|_| calls::monitor(&mut random, &mut cases));
    }
    calls::large_alias_tables(&mut random, &mut cases);
    for _ in 0..RUNS {
        states::run(&mut random, &mut cases, RUN_LENGTH);
    }
    cases.0
}

/// What the model answers to each request.
fn model_answers(cases: &[Case]) -> Vec<String> {
    let requests = Path::new(env!("CARGO_TARGET_TMPDIR")).join("requests");
    let lines: String = cases.iter().flat_map(|case| [case.request.as_str(), "\n"]).collect();
    std::fs::write(&requests, lines).unwrap();
    let model = Path::new(env!("CARGO_MANIFEST_DIR")).join("../../tests/model/capi.py");
    let run = Command::new("python3").arg("-B").arg(model).stdin(File::open(requests).unwrap()).output().unwrap();
    assert!(run.status.success(), "{}", String::from_utf8_lossy(&run.stderr));
    String::from_utf8(run.stdout).unwrap().lines().map(String::from).collect()
}

/// The cases of each function.
fn by_function(cases: &[Case]) -> BTreeMap<&str, Vec<&Case>> {
    cases.iter().fold(BTreeMap::new(), |mut functions, case| {
        functions.entry(case.function).or_default().push(case);
        functions
    })
}

#[test]
fn every_answer_is_the_models() {
    let cases = all_cases();
    let answers = model_answers(&cases);
    assert_eq!(answers.len(), cases.len(), "answers of the model");
    let wrong: Vec<_> = cases.iter().zip(&answers).filter(|(case, answer)| case.answer != **answer).collect();
    for (case, answer) in wrong.iter().take(MOST_SHOWN) {
        println!("request  {}\nlibrary  {}\nmodel    {answer}\n", case.request, case.answer);
    }
    assert_eq!(wrong.len(), 0, "wrong answers of {}", cases.len());
}

#[test]
fn every_kind_of_answer_is_reached() {
    let cases = all_cases();
    let called = by_function(&cases);
    assert_eq!(called.keys().copied().collect::<BTreeSet<_>>(), FUNCTIONS.iter().map(|(name, _, _)| *name).collect());
    for (name, values, refusals) in FUNCTIONS {
        let (granted, refused): (Vec<_>, Vec<_>) = called[name].iter().map(|case| case.outcome).partition(|answer| answer.refusal == 0);
        println!("{name}: {} granted, {} refused", granted.len(), refused.len());
        let reached: BTreeSet<u64> = granted.iter().map(|answer| answer.value).collect();
        assert!(!granted.is_empty() && values.iter().all(|value| reached.contains(value)), "{name}: grants {reached:?}");
        let numbers: BTreeSet<Refused> = refused.iter().map(|answer| (answer.refusal, answer.carries)).collect();
        assert_eq!(numbers, refusals.iter().copied().collect(), "{name}: refusals");
        let bad_first_line = refused.contains(&Answer { refusal: EINVAL, carries: 1, value: 0 });
        assert_eq!(bad_first_line, refusals.contains(&BAD_ALIASES), "{name}: a bad line 0");
    }
}
