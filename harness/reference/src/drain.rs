//! Draining a table (document 01, "Drain").

use crate::event::{advance_at, ask_agreement, unload_at};
use crate::plan::Plan;
use crate::table::{Table, Usage};

#[derive(Clone, Copy, Debug, PartialEq, Eq)]
pub struct Drained {
    pub number: u32,
    pub moves: u32,
}

/// Moves are kept under 31 and 32. An admitted move keeps the table in agreement, so 11 and 12
/// are asked once.
pub fn drain(plan: &Plan, table: &mut Table, budget: u32) -> Drained {
    let mut usage = match ask_agreement(plan, table) {
        Ok(usage) => usage,
        Err(refusal) => {
            return Drained {
                number: refusal.answer.number,
                moves: 0,
            }
        }
    };
    let mut moves = 0;
    while table.count > 0 {
        if moves >= budget {
            return Drained { number: 31, moves };
        }
        if !move_earliest(plan, table, &mut usage) {
            return Drained { number: 32, moves };
        }
        moves += 1;
    }
    Drained { number: 0, moves }
}

/// Makes the move of the earliest loaded job for which it is admitted; false if there is none.
fn move_earliest(plan: &Plan, table: &mut Table, usage: &mut Usage) -> bool {
    for position in 0..table.active().len() {
        let job = table.jobs[position];
        let is_last = plan.stage_index(job.kind, job.stage + 1).is_none();
        let attempt = if is_last { unload_at } else { advance_at };
        if attempt(plan, table, usage, position).is_ok() {
            return true;
        }
    }
    false
}
