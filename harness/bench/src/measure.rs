//! What one call costs on each side: its time, as the median of alternating rounds, or the calls alone,
//! for callgrind to count their instructions.

use std::time::{Duration, Instant};

pub const ROUNDS: usize = 31;

/// A round lasts at least this long.
const ROUND: Duration = Duration::from_millis(8);

#[derive(Clone, Copy)]
pub enum Measure {
    Time,
    /// So many calls on each side.
    Calls(u32),
}

impl Measure {
    /// A line of the benchmark: both sides are measured and the line is printed.
    pub fn line(self, what: &str, library: impl FnMut(), reference: impl FnMut()) {
        match self {
            Measure::Time => time_line(what, library, reference),
            Measure::Calls(calls) => calls_line(what, calls, library, reference),
        }
    }
}

/// What is counted goes to callgrind's file, so only the name is printed.
fn calls_line(what: &str, calls: u32, mut library: impl FnMut(), mut reference: impl FnMut()) {
    println!("{what}");
    counted(calls, &mut library);
    counted(calls, &mut reference);
}

/// `harness/instructions` has callgrind collect within this function, by its name, and write down the
/// count each time it ends.
#[inline(never)]
fn counted(calls: u32, call: &mut dyn FnMut()) {
    for _ in 0..calls {
        call();
    }
}

pub fn print_head() {
    println!("| what | library | Rust | library / Rust |");
    println!("|---|---:|---:|---:|");
}

fn time_line(what: &str, mut library: impl FnMut(), mut reference: impl FnMut()) {
    let library_calls = calls(&mut library);
    let reference_calls = calls(&mut reference);
    let mut library_times = Vec::new();
    let mut reference_times = Vec::new();
    for _ in 0..ROUNDS {
        library_times.push(round(&mut library, library_calls));
        reference_times.push(round(&mut reference, reference_calls));
    }
    let library = median(library_times);
    let reference = median(reference_times);
    let ratio = library / reference;
    println!(
        "| {what} | {} | {} | {ratio:.2} |",
        shown(library),
        shown(reference)
    );
}

/// The time of one call of one thing alone.
pub fn time(mut call: impl FnMut()) -> String {
    let calls = calls(&mut call);
    shown(median(
        (0..ROUNDS).map(|_| round(&mut call, calls)).collect(),
    ))
}

/// So many calls that a round is long enough.
fn calls(call: &mut impl FnMut()) -> u32 {
    let mut calls = 1;
    while round(call, calls) * f64::from(calls) < ROUND.as_nanos() as f64 {
        calls *= 2;
    }
    calls
}

/// Nanoseconds of one call, from many.
fn round(call: &mut impl FnMut(), calls: u32) -> f64 {
    let start = Instant::now();
    for _ in 0..calls {
        call();
    }
    start.elapsed().as_nanos() as f64 / f64::from(calls)
}

fn median(mut times: Vec<f64>) -> f64 {
    times.sort_by(f64::total_cmp);
    times[times.len() / 2]
}

fn shown(nanoseconds: f64) -> String {
    match nanoseconds {
        ..10_000.0 => format!("{nanoseconds:.0} ns"),
        ..1_000_000.0 => format!("{:.1} µs", nanoseconds / 1_000.0),
        _ => format!("{:.0} µs", nanoseconds / 1_000.0),
    }
}
