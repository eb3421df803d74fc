//! Times the proved library beside an ordinary version of the same rules, and prints a table. docs/BENCHMARKS.md says how.

#[cfg(test)]
mod agreement;
mod by_value;
mod cases;
mod convert;
mod harness;
mod ordinary;
mod random;
mod report;
#[cfg(sepol)]
mod sepol;

use cases::Case;
use report::FurtherTables;
use std::process::ExitCode;

const USAGE: &str = "bench [--list] [--case NAME]... [--rounds N]";

struct Options {
    list: bool,
    /// The names of those to run; all where there are none.
    cases: Vec<String>,
    rounds: usize,
}

fn options() -> Option<Options> {
    let mut options = Options { list: false, cases: Vec::new(), rounds: 31 };
    let mut arguments = std::env::args().skip(1);
    while let Some(argument) = arguments.next() {
        match argument.as_str() {
            "--list" => options.list = true,
            "--case" => options.cases.push(arguments.next()?),
            "--rounds" => options.rounds = arguments.next()?.parse().ok().filter(|rounds| *rounds > 0)?,
            _ => return None,
        }
    }
    Some(options)
}

/// Measures each case and prints its row at once; tables of further sides come last.
fn measure(cases: &[Case], rounds: usize) -> Result<(), String> {
    println!("{}", report::HEAD);
    let mut further = FurtherTables::default();
    for case in cases {
        let times = case.prepare().measure(rounds).map_err(|message| format!("{}: {message}", case.name))?;
        println!("{}", report::row(&case.name, &times));
        further.add(case, &times);
    }
    further.print();
    if let Some(reason) = option_env!("BENCH_NO_SEPOL") {
        println!("\nNot compared with libsepol: {reason}.");
    }
    println!("{}", report::machine(rounds));
    Ok(())
}

fn main() -> ExitCode {
    let Some(options) = options() else {
        eprintln!("usage: {USAGE}");
        return ExitCode::FAILURE;
    };
    let mut cases = cases::all();
    if let Some(name) = options.cases.iter().find(|name| cases.iter().all(|case| case.name != **name)) {
        eprintln!("there is no case {name}; --list names them");
        return ExitCode::FAILURE;
    }
    cases.retain(|case| options.cases.is_empty() || options.cases.contains(&case.name));
    if options.list {
        cases.iter().for_each(|case| println!("{}", case.name));
        return ExitCode::SUCCESS;
    }
    match measure(&cases, options.rounds) {
        Ok(()) => ExitCode::SUCCESS,
        Err(message) => {
            eprintln!("{message}");
            ExitCode::FAILURE
        }
    }
}
