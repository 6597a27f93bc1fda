//! The plans, tables and texts that are measured.

use differential::plans::weigh_upstream;
use reference::canonical::text_length;
use reference::text::{read_plan, MAX_TEXT};
use reference::{Job, Plan, Table};
use std::fmt;

/// The smallest plan that a text can give.
pub const SMALLEST: &[u8] = b"C\t1\t1\t0\nR\t1\t1\nT\t1\t1\nS\t1\t1\t1\t1\n";

#[derive(Clone, Copy, PartialEq, Eq)]
pub enum Size {
    Smallest,
    Largest,
}

impl fmt::Display for Size {
    fn fmt(&self, formatter: &mut fmt::Formatter<'_>) -> fmt::Result {
        formatter.write_str(match self {
            Size::Smallest => "smallest plan",
            Size::Largest => "largest plan",
        })
    }
}

/// Counts and capacities: 1 of each and `length` stages, or 32 resources and rows, 16 types,
/// 128 stages.
fn outline(size: Size, length: u8) -> Plan {
    let mut plan = Plan::EMPTY;
    let (count, types, length) = match size {
        Size::Smallest => (1, 1, length),
        Size::Largest => (32, 16, 8),
    };
    plan.resources = count;
    plan.types = types;
    plan.rows = count;
    plan.capacity[..usize::from(count)].fill(255);
    plan.lengths[..usize::from(types)].fill(length);
    plan
}

/// Every stage demands 1 to 4 units of every resource and has a weight in every row: 63 jobs fit.
/// In the last row the weight is the stage's number, so that an advance adds 1. If a table is
/// given, that row leaves no room beside it.
pub fn event_plan(size: Size, full: Option<&Table>) -> Plan {
    let mut plan = outline(size, 2);
    let count = usize::from(plan.resources);
    let length = usize::from(plan.lengths[0]);
    plan.bound[..count].fill(65_535);
    for at in 0..plan.total() {
        let stage = &mut plan.stages[at];
        for other in 0..count {
            stage.demand[other] = 1 + ((at * 5 + other * 3) % 4) as u8;
            stage.weight[other] = 1 + ((at * 11 + other * 7) % 255) as u8;
        }
        stage.weight[count - 1] = (at % length + 1) as u8;
    }
    if let Some(table) = full {
        plan.bound[count - 1] = table.active().iter().map(|job| job.stage as u16).sum();
    }
    plan
}

/// Jobs 1 to `jobs`; none at its last stage.
pub fn event_table(size: Size, jobs: usize) -> Table {
    let plan = outline(size, 2);
    let mut table = Table::EMPTY;
    for at in 0..jobs as u32 {
        table.push(Job {
            number: at + 1,
            kind: at % u32::from(plan.types) + 1,
            stage: at % (u32::from(plan.lengths[0]) - 1) + 1,
        });
    }
    table
}

/// A plan that meets the upstream check and has room for 64 jobs everywhere.
pub fn conforming_plan(size: Size) -> Plan {
    let mut plan = outline(size, 1);
    let count = usize::from(plan.resources);
    plan.bound[..count].fill(255);
    for at in 0..count {
        plan.rank[at] = 1 + (at * 13 % 32) as u8;
    }
    for at in 0..plan.total() {
        plan.stages[at].demand[at * 21 % count] = 1;
    }
    weigh_upstream(&mut plan);
    plan
}

/// So many jobs at stage 1, over all types.
pub fn first_stages(plan: &Plan, jobs: u32) -> Table {
    let mut table = Table::EMPTY;
    for at in 0..jobs {
        table.push(Job {
            number: at + 1,
            kind: at % u32::from(plan.types) + 1,
            stage: 1,
        });
    }
    table
}

/// A valid text of exactly this length with the highest counts: after what is needed, as many
/// demands and weights as fit, then a comment.
pub fn full_text(length: usize) -> Vec<u8> {
    let stages = || (0..128).map(|at| (at / 8 + 1, at % 8 + 1));
    let numbered = |letter: char, count: usize, value: u32| -> String {
        (1..=count)
            .map(|number| format!("{letter}\t{number}\t{value}\n"))
            .collect()
    };
    let counts = "C\t32\t16\t32\n".to_string() + &numbered('R', 32, 255) + &numbered('T', 16, 8);
    let bounds = numbered('B', 32, 65_535);
    let ranks = numbered('K', 32, 255);
    let mut demands = String::new();
    let mut weights = String::new();
    let fixed = counts.len() + bounds.len() + ranks.len();
    for other in 1..=32 {
        for (kind, stage) in stages() {
            let demand = format!("S\t{kind}\t{stage}\t{other}\t1\n");
            let weight = format!("A\t{other}\t{kind}\t{stage}\t1\n");
            let more = demand.len() + weight.len();
            if fixed + demands.len() + weights.len() + more + 2 <= length {
                demands.push_str(&demand);
                weights.push_str(&weight);
            }
        }
    }
    let text = counts + &demands + &bounds + &weights + &ranks;
    let comment = "#".repeat(length - text.len() - 1);
    (text + &comment + "\n").into_bytes()
}

/// A plan whose canonical form has 65,536 bytes: that of a full text, where weights of two digits
/// make up for the comment.
pub fn longest_plan() -> Plan {
    let mut plan = read_plan(&full_text(MAX_TEXT)).plan;
    let left = MAX_TEXT - text_length(&plan);
    for stage in &mut plan.stages[..left] {
        stage.weight[0] = 10;
    }
    assert_eq!(text_length(&plan), MAX_TEXT);
    plan
}
