//! `differential CASES [SEED]` runs that many cases; `differential only INDEX SEED` runs one
//! again; `differential trace CASES SEED` names each before it is run, to find one that ends the
//! program. The exit status is 1 if the sides differ or a published number never occurred.

use differential::counts::Counts;
use differential::{run_case, run_cases};
use std::env;
use std::process::ExitCode;
use std::time::Instant;

/// From so many cases on, every published number must occur.
const ENOUGH: u64 = 10_000;
const SEED: u64 = 1;

fn main() -> ExitCode {
    let words: Vec<String> = env::args().skip(1).collect();
    let words: Vec<&str> = words.iter().map(String::as_str).collect();
    match words[..] {
        [cases] => many(number(cases), SEED),
        [cases, seed] => many(number(cases), number(seed)),
        ["only", index, seed] => one(number(index), number(seed)),
        ["trace", cases, seed] => trace(number(cases), number(seed)),
        _ => usage(),
    }
}

fn usage() -> ExitCode {
    eprintln!("usage: differential CASES [SEED] | only INDEX SEED | trace CASES SEED");
    ExitCode::from(2)
}

fn number(word: &str) -> u64 {
    word.parse().unwrap_or_else(|_| {
        eprintln!("not a number: {word}");
        std::process::exit(2)
    })
}

fn one(index: u64, seed: u64) -> ExitCode {
    match run_case(seed, index, &mut Counts::default()) {
        Ok(()) => {
            println!("case {index} of seed {seed}: no difference");
            ExitCode::SUCCESS
        }
        Err(failure) => {
            println!("{failure}");
            ExitCode::FAILURE
        }
    }
}

fn trace(cases: u64, seed: u64) -> ExitCode {
    for index in 0..cases {
        println!("{index}");
        if let Err(failure) = run_case(seed, index, &mut Counts::default()) {
            println!("{failure}");
            return ExitCode::FAILURE;
        }
    }
    ExitCode::SUCCESS
}

fn many(cases: u64, seed: u64) -> ExitCode {
    let start = Instant::now();
    let outcome = run_cases(cases, seed, 2);
    let seconds = start.elapsed().as_secs_f64();
    print!("{}", outcome.counts.table());
    println!("{cases} cases of seed {seed} in {seconds:.1} s");
    let mut failures = outcome.failures;
    if failures.is_empty() && cases >= ENOUGH {
        failures.extend(outcome.counts.missing());
    }
    for failure in &failures {
        println!("{failure}");
    }
    match failures.is_empty() {
        true => ExitCode::SUCCESS,
        false => ExitCode::FAILURE,
    }
}
