//! `latency PLAN EVENTS PROGRAM PROGRAM` measures two programs that take a plan file and answer
//! event lines: from line to answer, one line at a time, and many lines written in one go. The
//! programs take turns. Each line of EVENTS must be counted; after the last the first comes again.

use std::env;
use std::fs;
use std::io::{Read, Write};
use std::process::{Child, ChildStdin, ChildStdout, Command, ExitCode, Stdio};
use std::thread;
use std::time::{Duration, Instant};

/// Lines sent one at a time to each program.
const LINES: usize = 20_000;
/// Of these so many in one turn.
const TURN: usize = 100;
/// Lines written in one go, and how often.
const AT_ONCE: usize = 200_000;
const TIMES: usize = 9;

fn main() -> ExitCode {
    let words: Vec<String> = env::args().skip(1).collect();
    let [plan, events, first, second] = &words[..] else {
        eprintln!("usage: latency PLAN EVENTS PROGRAM PROGRAM");
        return ExitCode::from(2);
    };
    let events = fs::read(events).expect("the event lines can be read");
    let programs = [first, second].map(|path| Program { path, plan });
    println!("| what | {first} | {second} | ratio |");
    println!("|---|---:|---:|---:|");
    let turns = programs.map(|program| program.start());
    let times = in_turns(turns, &events);
    print_line("line to answer, median", &times, 50);
    print_line("line to answer, 90th percentile", &times, 90);
    let times = all_at_once(programs, &events);
    print_line("200,000 lines in one go, a line", &times, 50);
    ExitCode::SUCCESS
}

#[derive(Clone, Copy)]
struct Program<'a> {
    path: &'a str,
    plan: &'a str,
}

/// A program that has said what it says of its plan.
struct Running {
    child: Child,
    input: ChildStdin,
    output: ChildStdout,
}

impl Program<'_> {
    /// What it says to a person is thrown away, but it has to write it.
    fn start(self) -> Running {
        let mut child = Command::new(self.path)
            .arg(self.plan)
            .stdin(Stdio::piped())
            .stdout(Stdio::piped())
            .stderr(Stdio::null())
            .spawn()
            .unwrap_or_else(|error| panic!("{}: {error}", self.path));
        let input = child.stdin.take().expect("it was piped");
        let output = child.stdout.take().expect("it was piped");
        let mut running = Running {
            child,
            input,
            output,
        };
        running.await_lines(2);
        running
    }
}

impl Running {
    fn await_lines(&mut self, count: usize) {
        let mut buffer = [0; 8192];
        let mut left = count;
        while left > 0 {
            let length = self.output.read(&mut buffer).expect("it can be read");
            assert!(length > 0, "it ended before its answer");
            let ends = buffer[..length].iter().filter(|&&byte| byte == b'\n');
            left = left.saturating_sub(ends.count());
        }
    }

    fn time_to_answer(&mut self, line: &[u8]) -> Duration {
        let start = Instant::now();
        self.input.write_all(line).expect("it can be written");
        self.await_lines(1);
        start.elapsed()
    }

    /// The pipe holds less than is written, so another thread writes.
    fn time_to_end(mut self, lines: &[u8]) -> Duration {
        let start = Instant::now();
        let mut input = self.input;
        thread::scope(|scope| {
            scope.spawn(move || input.write_all(lines).expect("it can be written"));
            let mut output = Vec::with_capacity(AT_ONCE * 20);
            self.output
                .read_to_end(&mut output)
                .expect("it can be read");
            assert_eq!(output.iter().filter(|&&b| b == b'\n').count(), AT_ONCE);
        });
        let time = start.elapsed();
        self.child.wait().expect("it ends");
        time
    }
}

fn lines(events: &[u8]) -> impl Iterator<Item = &[u8]> {
    events.split_inclusive(|&byte| byte == b'\n').cycle()
}

/// Nanoseconds from each line to its answer.
fn in_turns(mut running: [Running; 2], events: &[u8]) -> [Vec<f64>; 2] {
    let mut times = [Vec::new(), Vec::new()];
    let mut lines = [lines(events), lines(events)];
    while times[1].len() < LINES {
        for ((program, times), lines) in running.iter_mut().zip(&mut times).zip(&mut lines) {
            let turn = lines.take(TURN);
            times.extend(turn.map(|line| program.time_to_answer(line).as_nanos() as f64));
        }
    }
    for program in running {
        end(program);
    }
    times
}

fn end(running: Running) {
    let Running {
        mut child,
        input,
        output,
    } = running;
    drop((input, output));
    child.wait().expect("it ends");
}

/// Nanoseconds of one line of many.
fn all_at_once(programs: [Program<'_>; 2], events: &[u8]) -> [Vec<f64>; 2] {
    let lines = lines(events).take(AT_ONCE).collect::<Vec<_>>().concat();
    let mut times = [Vec::new(), Vec::new()];
    for _ in 0..TIMES {
        for (program, times) in programs.iter().zip(&mut times) {
            let time = program.start().time_to_end(&lines);
            times.push(time.as_nanos() as f64 / AT_ONCE as f64);
        }
    }
    times
}

fn print_line(what: &str, times: &[Vec<f64>; 2], percent: usize) {
    let [first, second] = times.each_ref().map(|times| part(times, percent));
    let ratio = first / second;
    let (first, second) = (shown(first), shown(second));
    println!("| {what} | {first} | {second} | {ratio:.2} |");
}

/// The time below which so many of a hundred lie.
fn part(times: &[f64], percent: usize) -> f64 {
    let mut times = times.to_vec();
    times.sort_by(f64::total_cmp);
    times[times.len() * percent / 100]
}

fn shown(nanoseconds: f64) -> String {
    match nanoseconds {
        ..10_000.0 => format!("{nanoseconds:.0} ns"),
        _ => format!("{:.1} µs", nanoseconds / 1_000.0),
    }
}
