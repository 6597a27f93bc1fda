//! The plans that document 01 works with, tables by their jobs per stage and the answers to events,
//! for every test of its runs.

#![allow(dead_code)] // each test file uses some of these

pub mod canonical;
pub mod rows;

use reference::event::Answer;
use reference::text::read_plan;
use reference::{Job, Plan, Table};

pub const CROSSING: &str = "C 3 2 3/R 1 1/R 2 1/R 3 1/T 1 3/T 2 3/S 1 1 1 1/S 1 2 2 1/S 1 3 3 1/\
    S 2 1 3 1/S 2 2 2 1/S 2 3 1 1/B 1 1/B 2 1/B 3 1/A 1 1 1 1/A 1 2 3 1/A 2 1 1 1/A 2 1 2 1/\
    A 2 2 1 1/A 2 2 2 1/A 3 1 3 1/A 3 2 1 1/K 1 1/K 2 2/K 3 1/";

/// The crossing routes with capacities 1, 2, 1: with the rows of Equation 40, and without rows.
pub const EQUATION_40: &str =
    "C 3 2 3/R 1 1/R 2 2/R 3 1/T 1 3/T 2 3/S 1 1 1 1/S 1 2 2 1/S 1 3 3 1/\
    S 2 1 3 1/S 2 2 2 1/S 2 3 1 1/B 1 6/B 2 3/B 3 8/A 1 1 1 1/A 1 2 2 3/A 2 1 2 1/A 2 2 1 2/\
    A 3 1 1 2/A 3 1 2 2/A 3 2 1 2/A 3 2 2 3/";
pub const WITHOUT_ROWS: &str =
    "C 3 2 0/R 1 1/R 2 2/R 3 1/T 1 3/T 2 3/S 1 1 1 1/S 1 2 2 1/S 1 3 3 1/\
    S 2 1 3 1/S 2 2 2 1/S 2 3 1 1/";

/// The document's way of writing: a space is a tab and `/` a line end.
pub fn tabbed(text: &str) -> Vec<u8> {
    text.replace(' ', "\t").replace('/', "\n").into_bytes()
}

/// The plan of a text that is accepted.
pub fn plan(text: &str) -> Plan {
    let text = tabbed(text);
    let reading = read_plan(&text);
    assert_eq!((reading.number, reading.line), (0, 0));
    reading.plan
}

/// A table with this many jobs at stages 1 to 3 of type 1, then of type 2.
pub fn table(counts: [u8; 6]) -> Table {
    let mut table = Table::EMPTY;
    for (at, count) in counts.into_iter().enumerate() {
        for _ in 0..count {
            table.push(Job {
                number: u32::from(table.count) + 1,
                kind: at as u32 / 3 + 1,
                stage: at as u32 % 3 + 1,
            });
        }
    }
    table
}

pub fn answer(number: u32, place: u32) -> Answer {
    Answer { number, place }
}
