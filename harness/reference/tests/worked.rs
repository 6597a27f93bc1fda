//! The worked runs of document 01 ("The program", "Runs on both sides", "Wrong turns").

use reference::drain::{drain, Drained};
use reference::event;
use reference::run::run;
use reference::text::read_plan;
use reference::upstream::{check, Check};
use reference::{Job, Plan, Table};

mod document;

use document::{answer, plan, tabbed, table, CROSSING, EQUATION_40, WITHOUT_ROWS};

/// Number and line of a text's answer; a refusal gives the empty plan.
fn read(text: &str) -> (u32, u32) {
    let text = tabbed(text);
    let reading = read_plan(&text);
    if reading.number != 0 {
        assert_eq!(reading.plan, Plan::EMPTY);
    }
    (reading.number, reading.line)
}

#[test]
fn whole_run() {
    let input = format!("{CROSSING}E/L 7 1/L 8 2/A 7/L 8 2/A 7/L 8 2/U 7/L 8 2/");
    let output =
        "P 0 0/Q 0 0 0/1 0 0 1/2 19 2 1/3 0 0 1/4 19 2 1/5 0 0 1/6 18 3 1/7 0 0 0/8 0 0 1/";
    assert_eq!(run(&tabbed(&input)), tabbed(output));
}

#[test]
fn texts() {
    assert_eq!(read(""), (7, 1));
    assert_eq!(read("C 1 1 0/R 1 255/"), (7, 3));
    assert_eq!(read("C 1 1 0/R 1 256/"), (5, 2));
    let full = "C 1 5 0/R 1 1/T 1 32/T 2 32/T 3 32/T 4 32/";
    assert_eq!(read(full), (7, 7));
    assert_eq!(read(&format!("{full}T 5 1/")), (5, 7));
    // A repeated T is met by question 6 before the total.
    assert_eq!(read(&format!("{full}T 4 32/")), (6, 7));
}

#[test]
fn upstream_faults() {
    let fault = |number, first| Check {
        number,
        first,
        second: 0,
    };
    assert_eq!(check(&plan(CROSSING)), fault(0, 0));
    let bound = CROSSING.replace("B 2 1/", "B 2 2/");
    assert_eq!(check(&plan(&bound)), fault(25, 2));
    let weight = CROSSING.replace("A 1 2 3 1/", "A 1 2 3 1/A 1 1 2 1/");
    assert_eq!(check(&plan(&weight)), fault(24, 1));
    assert_eq!(check(&plan(EQUATION_40)), fault(21, 0));
    assert_eq!(check(&Plan::EMPTY), fault(11, 0));
    let second = CROSSING.replace("S 1 2 2 1/", "S 1 2 2 1/S 1 2 3 1/");
    let both = Check {
        number: 22,
        first: 1,
        second: 2,
    };
    assert_eq!(check(&plan(&second)), both);
    let rows = WITHOUT_ROWS.to_string() + "K 1 1/K 2 2/K 3 1/";
    assert_eq!(check(&plan(&rows)), fault(23, 0));
}

/// With equal ranks the stretch goes on: every stage is upstream of every later resource.
#[test]
fn equal_ranks() {
    let equal = CROSSING.replace("K 2 2/", "K 2 1/");
    assert_eq!(check(&plan(&equal)).number, 24);
    let added = "A 1 2 3 1/A 1 2 1 1/A 1 2 2 1/A 3 1 1 1/A 3 1 2 1/";
    let weighted = equal.replace("A 1 2 3 1/", added);
    assert_eq!(check(&plan(&weighted)).number, 0);
}

/// Sums 4, 2, 7 are kept; the other three states break one row each.
#[test]
fn equation_40() {
    let plan = plan(EQUATION_40);
    assert!(table([1, 0, 0, 1, 1, 0]).usage(&plan).is_some());
    let broken = [
        ([1, 1, 0, 0, 1, 0], 2, [1, 1, 0, 1, 1, 0], 3),
        ([1, 2, 0, 0, 0, 0], 2, [1, 2, 0, 1, 0, 0], 2),
        ([0, 0, 0, 0, 2, 0], 1, [1, 0, 0, 0, 2, 0], 1),
    ];
    for (before, kind, after, row) in broken {
        assert!(table(after).usage(&plan).is_none());
        let loaded = event::load(&plan, &mut table(before), 9, kind);
        assert_eq!(loaded, answer(19, row));
        assert_eq!(event::unload(&plan, &mut table(after), 1), answer(12, 0));
    }
}

#[test]
fn drains() {
    let crossing = plan(CROSSING);
    let drained = |number, moves| Drained { number, moves };
    let mut one = table([1, 0, 0, 0, 0, 0]);
    assert_eq!(drain(&crossing, &mut one, 2), drained(31, 2));
    assert_eq!(one, table([0, 0, 1, 0, 0, 0]));
    let mut one = table([1, 0, 0, 0, 0, 0]);
    assert_eq!(drain(&crossing, &mut one, 3), drained(0, 3));
    assert_eq!(one, Table::EMPTY);
    assert_eq!(drain(&crossing, &mut one, 0), drained(0, 0));
    let mut locked = table([1, 1, 0, 1, 1, 0]);
    let before = locked.clone();
    assert_eq!(drain(&plan(WITHOUT_ROWS), &mut locked, 5), drained(32, 0));
    assert_eq!(locked, before);
    assert_eq!(drain(&Plan::EMPTY, &mut locked, 5), drained(11, 0));
    assert_eq!(drain(&crossing, &mut locked, 5), drained(12, 0));
}

/// The old unit is given back before the new one is tested.
#[test]
fn same_resource_advance() {
    let plan = plan("C 1 1 0/R 1 1/T 1 2/S 1 1 1 1/S 1 2 1 1/");
    let mut table = Table::EMPTY;
    assert_eq!(event::load(&plan, &mut table, 5, 1), answer(0, 0));
    assert_eq!(event::unload(&plan, &mut table, 5), answer(17, 0));
    assert_eq!(event::advance(&plan, &mut table, 5), answer(0, 0));
    assert_eq!(event::advance(&plan, &mut table, 5), answer(17, 0));
    assert_eq!(event::load(&plan, &mut table, 6, 1), answer(18, 1));
    assert_eq!(event::unload(&plan, &mut table, 5), answer(0, 0));
    assert_eq!(table, Table::EMPTY);
}

#[test]
fn full_table() {
    let plan = plan("C 1 1 0/R 1 255/T 1 1/S 1 1 1 1/");
    let mut table = Table::EMPTY;
    for job in 1..=64 {
        assert_eq!(event::load(&plan, &mut table, job, 1), answer(0, 0));
    }
    assert_eq!(event::load(&plan, &mut table, 65, 1), answer(16, 0));
    assert_eq!(event::load(&plan, &mut table, 65, 2), answer(15, 0));
    assert_eq!(event::load(&plan, &mut table, 64, 2), answer(14, 0));
    assert_eq!(event::load(&plan, &mut table, 0, 2), answer(13, 0));
    assert_eq!(event::advance(&plan, &mut table, 65_536), answer(13, 0));
    assert_eq!(event::unload(&plan, &mut table, 65), answer(14, 0));
    table.count = 65;
    assert_eq!(event::load(&plan, &mut table, 65, 1), answer(12, 0));
    assert_eq!(event::load(&Plan::EMPTY, &mut table, 0, 0), answer(11, 0));
}

/// Unloading closes the gap; the number may be used again.
#[test]
fn order_after_unload() {
    let plan = plan("C 1 1 0/R 1 255/T 1 1/S 1 1 1 1/");
    let mut table = Table::EMPTY;
    for job in [7, 9, 8] {
        event::load(&plan, &mut table, job, 1);
    }
    assert_eq!(event::unload(&plan, &mut table, 9), answer(0, 0));
    assert_eq!(event::load(&plan, &mut table, 9, 1), answer(0, 0));
    let numbers: Vec<u32> = table.active().iter().map(|job| job.number).collect();
    assert_eq!(numbers, [7, 8, 9]);
    assert_eq!(table.jobs[3], Job::NONE);
}
