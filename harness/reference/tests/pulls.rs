//! Pulling a scrapped job (document 02, S-1), worked out by hand.

use reference::drain::{drain, Drained};
use reference::event;
use reference::run::run;
use reference::{Job, Plan, Table};

mod document;

use document::{answer, plan, tabbed, table, CROSSING, EQUATION_40, WITHOUT_ROWS};

/// Room for 64 jobs on three stages of one type or on the only stage of another.
const ROOMY: &str = "C 1 2 0/R 1 64/T 1 3/T 2 1/S 1 1 1 1/S 1 2 1 1/S 1 3 1 1/S 2 1 1 1/";

/// A table of jobs by number, type and stage.
fn jobs(list: &[[u32; 3]]) -> Table {
    let mut table = Table::EMPTY;
    for &[number, kind, stage] in list {
        table.push(Job {
            number,
            kind,
            stage,
        });
    }
    table
}

/// A pull that is refused changes nothing.
fn assert_refused(plan: &Plan, before: &Table, job: u32, number: u32) {
    let mut after = before.clone();
    assert_eq!(event::pull(plan, &mut after, job), answer(number, 0));
    assert_eq!(after, *before);
}

/// Pulls at stage 1, in mid-route and at the last stage. The first lets in a load that row 2 kept
/// out, the last one that resource 3 kept out; after the second its number is used again.
#[test]
fn whole_run() {
    let runs = [
        (
            "L 7 1/L 8 2/X 7/L 8 2/L 7 1/X 8/",
            "1 0 0 1/2 19 2 1/3 0 0 0/4 0 0 1/5 19 2 1/6 0 0 0/",
        ),
        (
            "L 7 1/A 7/X 7/A 7/X 7/L 7 1/",
            "1 0 0 1/2 0 0 1/3 0 0 0/4 14 0 0/5 14 0 0/6 0 0 1/",
        ),
        (
            "L 7 1/A 7/A 7/L 8 2/X 7/L 8 2/",
            "1 0 0 1/2 0 0 1/3 0 0 1/4 18 3 1/5 0 0 0/6 0 0 1/",
        ),
    ];
    for (events, printed) in runs {
        let input = tabbed(&format!("{CROSSING}E/{events}"));
        let expected = tabbed(&format!("P 0 0/Q 0 0 0/{printed}"));
        assert_eq!(run(&input), expected, "{events}");
    }
}

/// Question 17 is not asked: an unload would be refused at stages 1 and 2, an advance at 3.
#[test]
fn every_stage() {
    let crossing = plan(CROSSING);
    for kind in [1, 2] {
        for stage in [1, 2, 3] {
            let mut table = jobs(&[[65_535, kind, stage]]);
            assert_eq!(event::pull(&crossing, &mut table, 65_535), answer(0, 0));
            assert_eq!(table, Table::EMPTY);
        }
    }
}

/// The gap is closed: the others keep their order, types and stages, with zeros beyond them.
#[test]
fn order_after_pull() {
    let plan = plan(ROOMY);
    let all = [[7, 1, 1], [9, 1, 2], [8, 2, 1], [5, 1, 3]];
    let left = [
        (7, [[9, 1, 2], [8, 2, 1], [5, 1, 3]]),
        (9, [[7, 1, 1], [8, 2, 1], [5, 1, 3]]),
        (8, [[7, 1, 1], [9, 1, 2], [5, 1, 3]]),
        (5, [[7, 1, 1], [9, 1, 2], [8, 2, 1]]),
    ];
    for (job, left) in left {
        let mut table = jobs(&all);
        assert_eq!(event::pull(&plan, &mut table, job), answer(0, 0));
        assert_eq!(table, jobs(&left), "job {job}");
    }
}

/// The number may be used again, for a job of another type that comes last in order.
#[test]
fn number_used_again() {
    let plan = plan(ROOMY);
    let mut table = jobs(&[[7, 1, 1], [9, 1, 2], [8, 2, 1]]);
    assert_eq!(event::load(&plan, &mut table, 9, 2), answer(14, 0));
    assert_eq!(event::pull(&plan, &mut table, 9), answer(0, 0));
    assert_refused(&plan, &table, 9, 14);
    assert_eq!(event::load(&plan, &mut table, 9, 2), answer(0, 0));
    assert_eq!(table, jobs(&[[7, 1, 1], [8, 2, 1], [9, 2, 1]]));
}

/// The units go back: an advance onto resource 2 was refused while two others held it.
#[test]
fn units_are_freed() {
    let plan = plan(WITHOUT_ROWS);
    let mut table = jobs(&[[1, 1, 1], [2, 1, 2], [3, 2, 2]]);
    assert_eq!(event::advance(&plan, &mut table, 1), answer(18, 2));
    assert_eq!(event::pull(&plan, &mut table, 2), answer(0, 0));
    assert_eq!(event::advance(&plan, &mut table, 1), answer(0, 0));
    assert_eq!(table, jobs(&[[1, 1, 2], [3, 2, 2]]));
}

/// The weights go back: each load broke one row of Equation 40. Afterwards the sums are 4, 2, 7
/// (document 01), 1, 3, 6 and 4, 0, 5, where 6, 3, 8 are allowed.
#[test]
fn weights_are_freed() {
    let plan = plan(EQUATION_40);
    let cases = [
        ([1, 1, 0, 0, 1, 0], 2, 3, 2),
        ([1, 2, 0, 0, 0, 0], 2, 2, 3),
        ([0, 0, 0, 0, 2, 0], 1, 1, 1),
    ];
    for (before, kind, row, pulled) in cases {
        let mut table = table(before);
        let load = |table: &mut Table| event::load(&plan, table, 9, kind);
        assert_eq!(load(&mut table), answer(19, row));
        assert_eq!(event::pull(&plan, &mut table, pulled), answer(0, 0));
        assert_eq!(load(&mut table), answer(0, 0));
    }
}

/// A drain never pulls, so the locked table of document 01 stays as it is. After one pull it can
/// be emptied: 3, 3 and 2 stages are before the jobs that are left.
#[test]
fn locked_table() {
    let plan = plan(WITHOUT_ROWS);
    let mut table = table([1, 1, 0, 1, 1, 0]);
    let drained = |number, moves| Drained { number, moves };
    assert_eq!(drain(&plan, &mut table, 9), drained(32, 0));
    assert_eq!(event::pull(&plan, &mut table, 2), answer(0, 0));
    assert_eq!(table, jobs(&[[1, 1, 1], [3, 2, 1], [4, 2, 2]]));
    assert_eq!(drain(&plan, &mut table, 9), drained(0, 8));
}

/// A full table takes a load again, and pulls alone empty it.
#[test]
fn full_table() {
    let plan = plan(ROOMY);
    for pulled in [1, 2, 63, 64] {
        let mut table = Table::EMPTY;
        for job in 1..=64 {
            event::load(&plan, &mut table, job, 1);
        }
        assert_eq!(event::load(&plan, &mut table, 65, 1), answer(16, 0));
        assert_eq!(event::pull(&plan, &mut table, pulled), answer(0, 0));
        assert_eq!(event::load(&plan, &mut table, 65, 1), answer(0, 0));
        let numbers = (1..=65).filter(|&number| number != pulled);
        let expected: Vec<[u32; 3]> = numbers.map(|number| [number, 1, 1]).collect();
        assert_eq!(table, jobs(&expected));
        for [number, ..] in expected {
            assert_eq!(event::pull(&plan, &mut table, number), answer(0, 0));
        }
        assert_eq!(table, Table::EMPTY);
    }
}

/// Questions 11 to 14 in their order. 65,543 would be an active number if bits were lost.
#[test]
fn refusals() {
    let roomy = plan(ROOMY);
    let agreeing = jobs(&[[7, 1, 1], [9, 1, 2]]);
    for job in [1, 8, 65_535] {
        assert_refused(&roomy, &agreeing, job, 14);
        assert_refused(&roomy, &Table::EMPTY, job, 14);
    }
    for job in [0, 65_536, 65_543, u32::MAX] {
        assert_refused(&roomy, &agreeing, job, 13);
        assert_refused(&roomy, &Table::EMPTY, job, 13);
    }
    let twice = jobs(&[[7, 1, 1], [7, 1, 2]]);
    let stage = jobs(&[[7, 1, 1], [9, 2, 2]]);
    let mut beyond = agreeing.clone();
    beyond.jobs[2].stage = 1;
    let mut many = agreeing.clone();
    many.count = 65;
    for table in [&twice, &stage, &beyond, &many] {
        for job in [7, 8, 0] {
            assert_refused(&roomy, table, job, 12);
            assert_refused(&Plan::EMPTY, table, job, 11);
        }
    }
    assert_refused(&Plan::EMPTY, &Table::EMPTY, 7, 11);
    let mut unsound = roomy;
    unsound.capacity[1] = 1;
    assert_refused(&unsound, &agreeing, 7, 11);
}

/// A capacity exceeded or a row broken is 12, even where the pull would mend it.
#[test]
fn too_many_jobs() {
    let crowded = table([2, 0, 0, 0, 0, 0]);
    assert_refused(&plan(WITHOUT_ROWS), &crowded, 1, 12);
    let heavy = table([1, 0, 0, 0, 2, 0]);
    assert_refused(&plan(EQUATION_40), &heavy, 1, 12);
}
