//! The row that 19 names and its excess (document 02, S-2), worked out by hand.

use reference::drain::{drain, Drained};
use reference::event::{Answer, Refusal};
use reference::run::run;
use reference::table::BrokenRow;
use reference::{Event, Plan, Table};

mod document;

use document::rows::{crowded, weighed, ADVANCES, LOADS, RUN};
use document::{answer, plan, tabbed, table};

const LOAD: Event = Event::Load { job: 99, kind: 1 };

/// What the row test gives for jobs at these stages, whether their table agrees or not.
fn row_test(plan: &Plan, stages: &[usize]) -> Option<BrokenRow> {
    let mut usage = Table::EMPTY.usage(plan).expect("without jobs all is kept");
    for stage in stages {
        usage.add(&plan.stages[stage - 1]);
    }
    usage.broken(plan)
}

fn broken(row: u32, excess: u16) -> Option<BrokenRow> {
    Some(BrokenRow { row, excess })
}

/// An event that is refused changes nothing; only 19 has an excess.
fn assert_refused(plan: &Plan, before: &Table, event: Event, answer: Answer, excess: u16) {
    let mut after = before.clone();
    let refused = event.attempt(plan, &mut after);
    assert_eq!(refused, Err(Refusal { answer, excess }), "{event:?}");
    assert_eq!(after, *before);
}

#[test]
fn whole_run() {
    let (input, output) = RUN;
    assert_eq!(run(&tabbed(input)), tabbed(output));
}

#[test]
fn loads() {
    for &(bounds, weights, row, excess) in LOADS {
        let plan = plan(&weighed(bounds, &[weights]));
        let found = row_test(&plan, &[1]);
        assert_eq!(found, broken(row, excess), "{bounds:?} {weights:?}");
        assert_refused(&plan, &Table::EMPTY, LOAD, answer(19, row), excess);
    }
}

/// Either of the two jobs moves on: the sums are the same.
#[test]
fn advances() {
    for &(bounds, stages, row, excess) in ADVANCES {
        let plan = plan(&weighed(bounds, &stages));
        let found = row_test(&plan, &[2, 1]);
        assert_eq!(found, broken(row, excess), "{bounds:?} {stages:?}");
        let before = table([2, 0, 0, 0, 0, 0]);
        for job in [1, 2] {
            assert_refused(
                &plan,
                &before,
                Event::Advance { job },
                answer(19, row),
                excess,
            );
        }
    }
}

/// A row whose sum is its bound is kept, and has no excess to name.
#[test]
fn kept_rows() {
    let plan = plan(&weighed(&[5, 0, 255, 7], &[&[5, 0, 255, 6]]));
    assert_eq!(row_test(&plan, &[]), None);
    assert_eq!(row_test(&plan, &[1]), None);
    let mut loaded = Table::EMPTY;
    assert_eq!(LOAD.apply(&plan, &mut loaded), answer(0, 0));
    // 10, 0, 510, 12: excess 5, none, 255, 5
    assert_eq!(row_test(&plan, &[1, 1]), broken(3, 255));
    assert_refused(&plan, &table([1, 0, 0, 0, 0, 0]), LOAD, answer(19, 3), 255);
}

/// Each of 32 rows as the only one broken, by 2, and as the worst, by 3 where the others are
/// broken by 1.
#[test]
fn every_row() {
    for row in 1..=32 {
        let mut weights = [10; 32];
        weights[row - 1] = 12;
        for (bound, excess) in [(10, 2), (9, 3)] {
            let plan = plan(&weighed(&[bound; 32], &[&weights]));
            assert_eq!(row_test(&plan, &[1]), broken(row as u32, excess));
            assert_refused(&plan, &Table::EMPTY, LOAD, answer(19, row as u32), excess);
        }
    }
}

/// Before an event every row is kept, so one job's weight is the most. 63 jobs have 16,065 and 64
/// have 16,320: excess 254, 255, 255.
#[test]
fn largest_excess_of_an_event() {
    let plan = plan(&weighed(&[16_066, 16_065, 16_065], &[&[255; 3]]));
    let before = table([63, 0, 0, 0, 0, 0]);
    assert!(before.usage(&plan).is_some());
    assert_refused(&plan, &before, LOAD, answer(19, 2), 255);
    assert_eq!(row_test(&plan, &[1; 64]), broken(2, 255));
}

/// 64 jobs of 255 each: excess 16,319, 16,320, 16,320. No event comes to it.
#[test]
fn largest_excess() {
    let plan = plan(&weighed(&[1, 0, 0], &[&[255; 3]]));
    assert_eq!(row_test(&plan, &[1; 64]), broken(2, 16_320));
    let full = table([64, 0, 0, 0, 0, 0]);
    assert_refused(&plan, &full, LOAD, answer(12, 0), 0);
}

/// Two jobs of 128 each: excess 255, 256. In one byte the latter would be 0.
#[test]
fn excess_above_a_byte() {
    let plan = plan(&weighed(&[1, 0], &[&[128; 2]]));
    assert_eq!(row_test(&plan, &[1, 1]), broken(2, 256));
}

/// 18 comes first and keeps the lowest resource, not the one exceeded by the most.
#[test]
fn capacities_before_rows() {
    let one = table([1, 0, 0, 0, 0, 0]);
    for (text, number, place) in crowded() {
        let plan = plan(&text);
        assert_eq!(row_test(&plan, &[1, 1]), broken(2, 9));
        let excess = if number == 19 { 9 } else { 0 };
        assert_refused(&plan, &one, LOAD, answer(number, place), excess);
    }
}

/// A table whose rows are broken is 12 for every event, without a place. Two jobs have 6, 6 where
/// 5, 2 are allowed.
#[test]
fn broken_before() {
    let plan = plan(&weighed(&[5, 2], &[&[3, 3], &[0, 0]]));
    let mut heavy = table([2, 0, 0, 0, 0, 0]);
    assert_eq!(row_test(&plan, &[1, 1]), broken(2, 4));
    assert!(heavy.usage(&plan).is_none());
    let job = 1;
    let events = [
        LOAD,
        Event::Advance { job },
        Event::Unload { job },
        Event::Pull { job },
    ];
    for event in events {
        assert_refused(&plan, &heavy, event, answer(12, 0), 0);
    }
    let refused = Drained {
        number: 12,
        moves: 0,
    };
    assert_eq!(drain(&plan, &mut heavy, 9), refused);
    assert_eq!(heavy, table([2, 0, 0, 0, 0, 0]));
}
