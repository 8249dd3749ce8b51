//! The command line: listings, named tables, the comparison, the benchmark.

use against::benchmark::benchmark;
use against::compare::compare;
use against::{reference, tables, OTHER};
use std::io::Read;
use std::process::ExitCode;

const USAGE: &str = "usage:
  against listing FILE            what the listing program prints for a table
  against table NAME FILE         writes recursion, smallest, training, mutex or near1 .. near10
  against compare [SEED [COUNT]]  compares two implementations (seed 1 and 100000 calls)
  against benchmark [FILE]        times of both, on the tables near the limits; also into the file
";

fn main() -> ExitCode {
    let arguments: Vec<String> = std::env::args().skip(1).collect();
    let arguments: Vec<&str> = arguments.iter().map(String::as_str).collect();
    let result = match arguments[..] {
        ["listing", file] => listing(file),
        ["table", name, file] => table(name, file),
        ["compare"] => comparison("1", "100000"),
        ["compare", seed] => comparison(seed, "100000"),
        ["compare", seed, count] => comparison(seed, count),
        ["benchmark"] => measure(None),
        ["benchmark", file] => measure(Some(file)),
        _ => Err(USAGE.to_string()),
    };
    match result {
        Ok(()) => ExitCode::SUCCESS,
        Err(message) => {
            eprintln!("{}", message.trim_end());
            ExitCode::FAILURE
        }
    }
}

/// Prints the listing of a file's first 65,536 bytes.
fn listing(file: &str) -> Result<(), String> {
    let mut bytes = Vec::new();
    std::fs::File::open(file)
        .and_then(|opened| opened.take(65_536).read_to_end(&mut bytes))
        .map_err(|error| format!("{file}: {error}"))?;
    print!("{}", reference::listing(&bytes));
    Ok(())
}

fn table(name: &str, file: &str) -> Result<(), String> {
    let model = tables::by_name(name).ok_or(format!("no table is named {name}"))?;
    std::fs::write(file, model.bytes()).map_err(|error| format!("{file}: {error}"))
}

fn comparison(seed: &str, count: &str) -> Result<(), String> {
    let seed = seed.parse().map_err(|_| USAGE)?;
    let count = count.parse().map_err(|_| USAGE)?;
    println!("{} against {}", reference::CALLS.name, OTHER.name);
    let tally = compare(reference::CALLS, OTHER, seed, count);
    println!("answer   check  writing  claim check");
    for (number, [check, write, claim]) in tally.answers.iter().enumerate() {
        println!("{number:6} {check:7} {write:8} {claim:12}");
    }
    println!("verdict possible: {} times", tally.possible);
    for note in &tally.notes {
        println!("{note}\n");
    }
    println!("{} compared, {} differ", tally.compared, tally.differ);
    match tally.differ {
        0 => Ok(()),
        _ => Err("they differ".to_string()),
    }
}

/// Prints the benchmark, and writes it into the file.
fn measure(file: Option<&str>) -> Result<(), String> {
    if cfg!(debug_assertions) {
        return Err("built without --release: the times would say nothing".to_string());
    }
    let text = benchmark(reference::CALLS, OTHER)?;
    print!("{text}");
    match file {
        Some(file) => std::fs::write(file, text).map_err(|error| format!("{file}: {error}")),
        None => Ok(()),
    }
}
