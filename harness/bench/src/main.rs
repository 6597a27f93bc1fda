//! The library and the reference on the same inputs, in one run and in alternating turns. The
//! library works on the bytes of its cell, the reference on its own plan and table by reference.
//! `bench` measures times; `bench calls COUNT` makes so many calls of each, for `harness/instructions`.

mod lines;
mod measure;
mod plans;

use lines::lines;
use measure::{print_head, time, Measure, ROUNDS};
use std::env;
use std::hint::black_box;
use std::process::ExitCode;

fn main() -> ExitCode {
    let words: Vec<String> = env::args().skip(1).collect();
    let words: Vec<&str> = words.iter().map(String::as_str).collect();
    match words[..] {
        [] => times(),
        ["calls", count] => match count.parse() {
            Ok(count) => lines(Measure::Calls(count)),
            Err(_) => return usage(),
        },
        _ => return usage(),
    }
    ExitCode::SUCCESS
}

fn usage() -> ExitCode {
    eprintln!("usage: bench [calls COUNT]");
    ExitCode::from(2)
}

fn times() {
    println!("Medians of {ROUNDS} alternating rounds. Before each event and drain the table is");
    println!("restored; that copy counts on both sides (769 bytes of the cell, 772 of the table).");
    println!();
    print_head();
    lines(Measure::Time);
    println!();
    println!("A copy of a plan, 8,340 bytes: {}.", copy_time());
}

/// One of several copies that are made in turn, as those of a plan within a call are.
fn copy_time() -> String {
    const PLAN: usize = 8_340;
    let mut bytes = vec![0u8; 8 * PLAN];
    let mut at = 0;
    time(|| {
        let next = (at + PLAN) % bytes.len();
        bytes.copy_within(at..at + PLAN, next);
        black_box(&mut bytes);
        at = next;
    })
}
