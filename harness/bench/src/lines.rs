//! The lines of the benchmark: each says once what both sides do.

use crate::measure::Measure;
use crate::plans::{
    conforming_plan, event_plan, event_table, first_stages, full_text, longest_plan, Size, SMALLEST,
};
use differential::cells::{self, TABLE};
use differential::compare::answer;
use differential::inputs::CROSSING;
use reference::canonical::write_plan;
use reference::drain::drain;
use reference::event;
use reference::run::run;
use reference::text::read_plan;
use reference::upstream::check;
use reference::{Plan, Table};
use rilthoss::{Answer, CELL_SIZE, MAX_OUTPUT, MAX_TEXT};
use std::hint::black_box;

/// Every line, in order.
pub fn lines(measure: Measure) {
    read_line(measure);
    write_lines(measure);
    fixed_line(measure);
    crossing_line(measure);
    for size in [Size::Smallest, Size::Largest] {
        for jobs in [1, 16, 63] {
            event_lines(measure, size, jobs);
        }
    }
    for size in [Size::Smallest, Size::Largest] {
        check_line(measure, size);
    }
    for size in [Size::Smallest, Size::Largest] {
        drain_line(measure, size);
    }
    run_lines(measure);
}

fn read_line(measure: Measure) {
    let text = full_text(65_536);
    let mut bytes = vec![0; CELL_SIZE];
    let reading = read_plan(&text);
    assert_eq!(reading.number, 0);
    assert_eq!(rilthoss::read_plan(&mut bytes, &text), answer(0, 0, 0));
    assert_eq!(bytes, cells::encode(&reading.plan, &Table::EMPTY));
    measure.line(
        "read a plan text of 65,536 bytes",
        || {
            black_box(rilthoss::read_plan(&mut bytes, black_box(&text)));
        },
        || {
            black_box(read_plan(black_box(&text)));
        },
    );
}

fn write_lines(measure: Measure) {
    write_line(
        measure,
        "the smallest plan, 30 bytes",
        &read_plan(SMALLEST).plan,
    );
    write_line(
        measure,
        "the crossing plan, 214 bytes",
        &read_plan(CROSSING).plan,
    );
    write_line(
        measure,
        "the largest plan that fits, 65,536 bytes",
        &longest_plan(),
    );
}

/// Both sides ask whether the plan is sound and measure its text before they write it.
fn write_line(measure: Measure, what: &str, plan: &Plan) {
    let bytes = cells::encode(plan, &Table::EMPTY);
    let mut buffer = vec![0; MAX_TEXT];
    let mut found = buffer.clone();
    let writing = write_plan(plan, &mut buffer);
    assert_eq!(writing.number, 0);
    let answered = rilthoss::write_plan(&bytes, &mut found);
    assert_eq!(answered, answer(0, writing.length, 0));
    assert_eq!(found, buffer);
    measure.line(
        &format!("write {what}"),
        || {
            black_box(rilthoss::write_plan(
                black_box(&bytes),
                black_box(&mut found),
            ));
        },
        || {
            black_box(write_plan(black_box(plan), black_box(&mut buffer)));
        },
    );
}

/// What a call costs before a question is asked: the empty plan fails the first one at once.
fn fixed_line(measure: Measure) {
    let mut table = Table::EMPTY;
    let mut bytes = cells::encode(&Plan::EMPTY, &table);
    assert_eq!(event::advance(&Plan::EMPTY, &mut table, 1).number, 11);
    assert_eq!(rilthoss::advance(&mut bytes, 1), answer(11, 0, 0));
    measure.line(
        "advance, refused (11), the empty plan",
        || {
            black_box(rilthoss::advance(&mut bytes, black_box(1)));
        },
        || {
            black_box(event::advance(
                black_box(&Plan::EMPTY),
                &mut table,
                black_box(1),
            ));
        },
    );
}

/// An event of one job, at a cell and at a plan with its table.
struct Event {
    job: u32,
    number: u32,
    at_cell: fn(&mut [u8], u32) -> Answer,
    at_table: fn(&Plan, &mut Table, u32) -> event::Answer,
}

impl Event {
    fn advance(job: u32, number: u32) -> Event {
        Event {
            job,
            number,
            at_cell: rilthoss::advance,
            at_table: event::advance,
        }
    }

    fn pull(job: u32) -> Event {
        Event {
            job,
            number: 0,
            at_cell: rilthoss::pull,
            at_table: event::pull,
        }
    }
}

/// What a small real plan costs.
fn crossing_line(measure: Measure) {
    let plan = read_plan(CROSSING).plan;
    let before = first_stages(&plan, 1);
    let what = "advance, admitted, 1 job, crossing plan";
    event_line(measure, what, &plan, &before, Event::advance(1, 0));
}

/// An admitted advance of the last job; one that the last row refuses; and a pull of the first,
/// behind which all the others close up.
fn event_lines(measure: Measure, size: Size, jobs: usize) {
    let before = event_table(size, jobs);
    let plan = event_plan(size, None);
    let tight = event_plan(size, Some(&before));
    let last = jobs as u32;
    let plural = if jobs == 1 { "" } else { "s" };
    let cases = [
        ("advance, admitted", &plan, Event::advance(last, 0)),
        ("advance, refused (19)", &tight, Event::advance(last, 19)),
        ("pull of the first", &plan, Event::pull(1)),
    ];
    for (what, plan, event) in cases {
        let what = format!("{what}, {jobs} job{plural}, {size}");
        event_line(measure, &what, plan, &before, event);
    }
}

fn event_line(measure: Measure, what: &str, plan: &Plan, before: &Table, event: Event) {
    let Event {
        job,
        number,
        at_cell,
        at_table,
    } = event;
    let mut table = before.clone();
    let mut bytes = cells::encode(plan, before);
    let restored = bytes[TABLE..].to_vec();
    let expected = at_table(plan, &mut table, job);
    assert_eq!(expected.number, number);
    let found = at_cell(&mut bytes, job);
    assert_eq!(found, answer(expected.number, expected.place, 0));
    assert_eq!(bytes, cells::encode(plan, &table));
    measure.line(
        what,
        || {
            bytes[TABLE..].copy_from_slice(black_box(&restored));
            black_box(at_cell(&mut bytes, black_box(job)));
        },
        || {
            table.clone_from(black_box(before));
            black_box(at_table(black_box(plan), &mut table, black_box(job)));
        },
    );
}

fn check_line(measure: Measure, size: Size) {
    let plan = conforming_plan(size);
    let bytes = cells::encode(&plan, &Table::EMPTY);
    assert_eq!(check(&plan).number, 0);
    assert_eq!(rilthoss::check(&bytes), answer(0, 0, 0));
    measure.line(
        &format!("upstream check, {size}"),
        || {
            black_box(rilthoss::check(black_box(&bytes)));
        },
        || {
            black_box(check(black_box(&plan)));
        },
    );
}

fn drain_line(measure: Measure, size: Size) {
    let plan = conforming_plan(size);
    let before = first_stages(&plan, 64);
    let mut table = before.clone();
    let mut bytes = cells::encode(&plan, &before);
    let restored = bytes[TABLE..].to_vec();
    let drained = drain(&plan, &mut table, u32::MAX);
    assert_eq!(drained.number, 0);
    let found = rilthoss::drain(&mut bytes, u32::MAX);
    assert_eq!(found, answer(0, drained.moves, 0));
    assert_eq!(bytes, cells::encode(&plan, &Table::EMPTY));
    measure.line(
        &format!("drain of 64 jobs, {} moves, {size}", drained.moves),
        || {
            bytes[TABLE..].copy_from_slice(black_box(&restored));
            black_box(rilthoss::drain(&mut bytes, u32::MAX));
        },
        || {
            table.clone_from(black_box(&before));
            black_box(drain(black_box(&plan), &mut table, u32::MAX));
        },
    );
}

fn run_lines(measure: Measure) {
    let few = b"E\nL\t1\t1\nL\t2\t2\nA\t1\nA\t2\nU\t1\nL\t1\t3\n".to_vec();
    let text = full_text(65_536 - few.len());
    run_line(
        measure,
        "the plan fills it, 6 events",
        &[text, few].concat(),
    );
    let mut many = b"C\t1\t1\t0\nR\t1\t2\nT\t1\t2\nS\t1\t1\t1\t1\nS\t1\t2\t1\t1\nE\n".to_vec();
    let turn = b"L\t1\t1\nA\t1\nU\t1\n";
    let turns = (65_536 - many.len()) / turn.len();
    many.extend(turn.repeat(turns));
    let left = 65_536 - many.len();
    many.extend(b"\n".repeat(left));
    run_line(
        measure,
        &format!("a small plan, {} events", turns * 3),
        &many,
    );
}

fn run_line(measure: Measure, what: &str, input: &[u8]) {
    assert_eq!(input.len(), 65_536);
    let mut output = vec![0; MAX_OUTPUT];
    let printed = run(input);
    assert!(printed.starts_with(b"P\t0\t0\n"));
    let length = rilthoss::run(input, &mut output);
    assert_eq!(output[..length], printed);
    measure.line(
        &format!("cellmoves, 65,536 bytes: {what}"),
        || {
            black_box(rilthoss::run(black_box(input), &mut output));
        },
        || {
            black_box(run(black_box(input)));
        },
    );
}
