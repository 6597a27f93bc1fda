//! The families of cases, and the runs of many of them.

use crate::cells;
use crate::compare::{compare_run, compare_shown, Buffer, Call, Sides};
use crate::counts::{Counts, Group};
use crate::events;
use crate::inputs;
use crate::patterns;
use crate::plans::{self, Size};
use crate::random::Random;
use crate::texts;
use reference::{Plan, Table};
use rilthoss::{CELL_SIZE, MAX_OUTPUT};
use std::panic::{catch_unwind, AssertUnwindSafe};
use std::thread;

/// Failures that a thread collects before it stops.
const MOST_FAILURES: usize = 5;

#[derive(Clone, Copy, Debug, PartialEq, Eq)]
enum Family {
    Text,
    Events,
    Pattern,
    Check,
    Run,
    Emptying,
    Writing,
    Shuffled,
}

pub struct Outcome {
    pub counts: Counts,
    pub failures: Vec<String>,
}

/// Runs the cases 0 to `cases` - 1 of a seed; the outcome does not depend on the threads.
pub fn run_cases(cases: u64, seed: u64, threads: u64) -> Outcome {
    run_all(cases, threads, move |index, counts| {
        run_case(seed, index, counts)
    })
}

/// Runs as many cases of shuffled texts and no others.
pub fn run_shuffled(cases: u64, seed: u64, threads: u64) -> Outcome {
    run_all(cases, threads, move |index, counts| {
        run_family(Family::Shuffled, Random::of_case(seed, index), counts)
            .map_err(|difference| format!("shuffled text {index} of seed {seed}: {difference}"))
    })
}

fn run_all(
    cases: u64,
    threads: u64,
    run: impl Fn(u64, &mut Counts) -> Result<(), String> + Copy + Send + 'static,
) -> Outcome {
    let part = move |first: u64| {
        let mut counts = Counts::default();
        let mut failures = Vec::new();
        for index in (first..cases).step_by(threads as usize) {
            if let Err(failure) = run(index, &mut counts) {
                failures.push(failure);
            }
            if failures.len() == MOST_FAILURES {
                break;
            }
        }
        Outcome { counts, failures }
    };
    let workers: Vec<_> = (0..threads)
        .map(|first| thread::spawn(move || part(first)))
        .collect();
    let mut outcome = Outcome {
        counts: Counts::default(),
        failures: Vec::new(),
    };
    for worker in workers {
        let part = worker.join().expect("a case's panic is caught");
        outcome.counts.merge(&part.counts);
        outcome.failures.extend(part.failures);
    }
    outcome
}

/// Runs one case; a failure names its family, seed and index and what differed.
pub fn run_case(seed: u64, index: u64, counts: &mut Counts) -> Result<(), String> {
    let mut random = Random::of_case(seed, index);
    let family = match random.below(100) {
        0..=29 => Family::Text,
        30..=50 => Family::Events,
        51..=70 => Family::Pattern,
        71..=78 => Family::Check,
        79..=90 => Family::Run,
        91..=94 => Family::Emptying,
        95..=97 => Family::Writing,
        _ => Family::Shuffled,
    };
    run_family(family, random, counts)
        .map_err(|difference| format!("{family:?} case, seed {seed}, index {index}: {difference}"))
}

fn run_family(family: Family, mut random: Random, counts: &mut Counts) -> Result<(), String> {
    let case = || match family {
        Family::Text => text_case(&mut random, counts),
        Family::Events => events_case(&mut random, counts),
        Family::Pattern => pattern_case(&mut random, counts),
        Family::Check => check_case(&mut random, counts),
        Family::Run => run_input_case(&mut random, counts),
        Family::Emptying => emptying_case(&mut random, counts),
        Family::Writing => writing_case(&mut random, counts),
        Family::Shuffled => shuffled_case(&mut random, counts),
    };
    catch_unwind(AssertUnwindSafe(case)).unwrap_or_else(|_| Err("panic".to_string()))
}

fn demand(holds: bool, what: &str) -> Result<(), String> {
    match holds {
        true => Ok(()),
        false => Err(format!("both sides agree, but {what}")),
    }
}

/// Bytes after a cell, or sometimes a cell cut short.
fn set_length(random: &mut Random, bytes: &mut Vec<u8>) {
    match random.below(100) {
        0..=1 => {
            let any = random.below(CELL_SIZE);
            bytes.truncate(random.pick(&[0, 1, CELL_SIZE - 1, any]));
        }
        2..=16 => {
            let more = random.between(1, 40);
            bytes.extend(random.bytes(more));
        }
        _ => {}
    }
}

/// A buffer for the output of a run: mostly as long as what is printed or a little more or less.
fn buffer(random: &mut Random) -> Buffer {
    match random.below(100) {
        0..=19 => Buffer::OneLess,
        20..=24 => Buffer::None,
        25..=54 => Buffer::More(0),
        55..=98 => Buffer::More(random.between(1, 100)),
        _ => Buffer::Of(MAX_OUTPUT),
    }
}

/// A buffer for a plan's text: mostly just enough or a byte more or less, or near 65,536 bytes.
fn text_buffer(random: &mut Random) -> Buffer {
    match random.below(100) {
        0..=17 => Buffer::OneLess,
        18..=25 => Buffer::None,
        26..=47 => Buffer::More(0),
        48..=65 => Buffer::More(1),
        66..=81 => Buffer::More(random.between(2, 100)),
        82..=89 => Buffer::Of(random.below(300)),
        _ => Buffer::Of(random.pick(&[65_535, 65_536, 65_537, 120_000])),
    }
}

/// A text into a cell of random bytes, what is shown of it, and as an input of the program.
fn text_case(random: &mut Random, counts: &mut Counts) -> Result<(), String> {
    let text = texts::text(random);
    let mut bytes = random.bytes(CELL_SIZE);
    set_length(random, &mut bytes);
    let is_short = bytes.len() < CELL_SIZE;
    let mut sides = Sides::new(bytes, counts);
    let answer = sides.read_plan(&text.bytes)?;
    if let (Some(plan), false) = (&text.accepted, is_short) {
        demand(answer.number() == 0, "a valid text was refused")?;
        demand(sides.plan == *plan, "the plan is not the one written")?;
    }
    if answer.number() == 0 && random.chance(20) {
        rewrite(random, &mut sides, &text.bytes)?;
    }
    compare_shown(&text.bytes, counts)?;
    let buffer = buffer(random);
    compare_run(&text.bytes, buffer, random, counts)
}

/// A cell with a plan and a table, the plan sometimes read from its text.
fn sides<'a>(
    random: &mut Random,
    counts: &'a mut Counts,
    plan: &Plan,
    table: &Table,
) -> Result<Sides<'a>, String> {
    let mut bytes = cells::encode(plan, table);
    if random.chance(15) {
        bytes.extend(random.bytes(20));
    }
    if random.chance(85) {
        return Ok(Sides::new(bytes, counts));
    }
    random.fill(&mut bytes[..cells::TABLE]);
    let text = texts::join(&texts::lines(random, plan));
    let mut sides = Sides::new(bytes, counts);
    sides.read_plan(&text)?;
    Ok(sides)
}

/// Events, drains and checks from an agreeing table on.
fn events_case(random: &mut Random, counts: &mut Counts) -> Result<(), String> {
    let mut plan = plans::plan(random);
    let most = random.pick(&[0, 0, 3, 8, 16, 62, 64]);
    let table = plans::table(random, &plan, most);
    if random.chance(40) {
        plans::tighten(random, &mut plan, &table);
    }
    let mut sides = sides(random, counts, &plan, &table)?;
    let is_read = sides.plan == plan;
    let course = events::course(random);
    for _ in 0..random.between(6, 40) {
        let call = events::call(random, course, &sides.plan, &sides.table);
        let answer = sides.call(call)?;
        let is_refused = matches!(answer.number(), 11 | 12);
        demand(!is_refused || !is_read, "a sound cell was refused")?;
    }
    Ok(())
}

/// A cell of any bits, its plan written and each function called twice.
fn pattern_case(random: &mut Random, counts: &mut Counts) -> Result<(), String> {
    let mut bytes = patterns::bytes(random);
    set_length(random, &mut bytes);
    let mut sides = Sides::new(bytes, counts);
    sides.write_plan(text_buffer(random), random)?;
    for _ in 0..2 {
        let (plan, table) = (&sides.plan, &sides.table);
        let mut calls = [
            Call::Check,
            events::load(random, plan, table),
            events::advance(random, table),
            events::unload(random, plan, table),
            events::pull(random, table),
            Call::Drain {
                budget: events::budget(random, plan, table),
            },
        ];
        random.shuffle(&mut calls);
        for call in calls {
            sides.call(call)?;
        }
    }
    Ok(())
}

/// The upstream check of a plan that meets it, then with one to three faults.
fn check_case(random: &mut Random, counts: &mut Counts) -> Result<(), String> {
    let size = plans::size(random);
    let mut plan = plans::conforming(random, size);
    let bytes = cells::encode(&plan, &Table::EMPTY);
    let answer = Sides::new(bytes, counts).call(Call::Check)?;
    demand(answer.number() == 0, "a conforming plan was refused")?;
    for _ in 0..random.between(1, 3) {
        let number = random.pick(&[21, 22, 23, 24, 24, 24, 25, 25]);
        plans::add_fault(random, &mut plan, number);
        let bytes = cells::encode(&plan, &Table::EMPTY);
        let answer = Sides::new(bytes, counts).call(Call::Check)?;
        demand(answer.number() != 11, "a sound plan was refused")?;
    }
    Ok(())
}

/// A whole input, with output buffers of every length.
fn run_input_case(random: &mut Random, counts: &mut Counts) -> Result<(), String> {
    let input = inputs::input(random);
    let first = buffer(random);
    compare_run(&input, first, random, counts)?;
    if first == Buffer::OneLess {
        compare_run(&input, Buffer::More(0), random, counts)?;
    }
    Ok(())
}

/// Under a plan that meets the upstream check, every table that events reach, pulls among them,
/// can be emptied.
fn emptying_case(random: &mut Random, counts: &mut Counts) -> Result<(), String> {
    let size = plans::size(random);
    let size = if size == Size::Largest {
        Size::Medium
    } else {
        size
    };
    let plan = plans::conforming(random, size);
    let mut sides = sides(random, counts, &plan, &Table::EMPTY)?;
    let course = events::course(random);
    for _ in 0..random.between(6, 40) {
        let event = events::event(random, course, &sides.plan, &sides.table);
        sides.call(event)?;
    }
    let left = events::stages_left(&plan, &sides.table);
    let budget = u32::MAX;
    let answer = sides.call(Call::Drain { budget })?;
    demand(answer.number() == 0, "a drain stopped early")?;
    demand(answer.moves() == left, "a drain miscounted its moves")?;
    demand(sides.table == Table::EMPTY, "a drained table is not empty")
}

/// A plan written into several buffers. What was written is read as the same plan, so no two plans
/// share a text, and is written again by the same bytes.
fn writing_case(random: &mut Random, counts: &mut Counts) -> Result<(), String> {
    let mut bytes = written_cell(random);
    set_length(random, &mut bytes);
    let mut sides = Sides::new(bytes, counts);
    let mut text = Vec::new();
    for _ in 0..3 {
        let buffer = text_buffer(random);
        let written = sides.write_plan(buffer, random)?;
        if !written.is_empty() {
            text = written;
        }
    }
    if text.is_empty() {
        return Ok(());
    }
    let plan = sides.plan;
    let mut sides = Sides::new(random.bytes(CELL_SIZE), counts);
    let answer = sides.read_plan(&text)?;
    demand(answer.number() == 0, "a written text was refused")?;
    demand(sides.plan == plan, "a written text gives another plan")?;
    let again = sides.write_plan(Buffer::More(0), random)?;
    demand(again == text, "a written text is written otherwise")
}

/// Plans of every size, many of them with some 65,536 bytes of text or with more, some changed so
/// that they are not sound; and cells of any bits. The writer does not ask about the jobs, so any
/// bytes stand there.
fn written_cell(random: &mut Random) -> Vec<u8> {
    let mut plan = match random.below(100) {
        0..=49 => sound_plan(random),
        50..=55 => plans::dense(random),
        56..=74 => {
            let length = random.between(65_534, 65_538);
            plans::with_text_length(random, length)
        }
        _ => return patterns::bytes(random),
    };
    if random.chance(15) {
        patterns::change_plan(random, &mut plan);
    }
    let mut bytes = random.bytes(CELL_SIZE);
    cells::encode_plan(&plan, &mut bytes);
    bytes
}

/// Any sound plan, often with numbers of every count of digits.
fn sound_plan(random: &mut Random) -> Plan {
    let mut plan = plans::plan(random);
    if random.chance(40) {
        plans::set_edges(random, &mut plan);
    }
    plan
}

/// A plan's text in any order and with all that a text may hold beside its records.
fn shuffled_case(random: &mut Random, counts: &mut Counts) -> Result<(), String> {
    let (plan, text) = loop {
        let plan = match random.chance(1) {
            true => plans::with_text_length(random, 65_536),
            false => sound_plan(random),
        };
        if let Some(text) = texts::shuffled(random, &plan) {
            break (plan, text);
        }
    };
    let mut sides = Sides::new(random.bytes(CELL_SIZE), counts);
    let answer = sides.read_plan(&text)?;
    demand(answer.number() == 0, "a shuffled text was refused")?;
    demand(sides.plan == plan, "a shuffled text gives another plan")?;
    rewrite(random, &mut sides, &text)?;
    counts.add(Group::Shuffled, answer.number());
    Ok(())
}

/// The plan of an accepted text is written as that text's records in order, never longer than the
/// text; reading and writing it once more changes no byte.
fn rewrite(random: &mut Random, sides: &mut Sides<'_>, text: &[u8]) -> Result<(), String> {
    let plan = sides.plan.clone();
    let more = random.pick(&[0, 1, 50]);
    let canonical = sides.write_plan(Buffer::More(more), random)?;
    let expected = texts::sorted(text);
    demand(
        canonical == expected,
        "a canonical form is not the records in order",
    )?;
    demand(canonical.len() <= text.len(), "a canonical form is longer")?;
    let answer = sides.read_plan(&canonical)?;
    demand(answer.number() == 0, "a canonical form was refused")?;
    demand(sides.plan == plan, "a canonical form gives another plan")?;
    let again = sides.write_plan(Buffer::More(more), random)?;
    demand(again == canonical, "a canonical form is written otherwise")
}
