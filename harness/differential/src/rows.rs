//! The rows that a load or an advance would break, from the sums afterwards.

use crate::compare::Call;
use crate::plans::used;
use reference::{Job, Plan, Table};

#[derive(Clone, Copy, Debug, PartialEq, Eq)]
pub struct Broken {
    /// How many rows are broken.
    pub rows: u32,
    /// The row exceeded by the most, of equals the lowest.
    pub worst: u32,
    /// Which of those broken it is, counted from 1.
    pub ordinal: u32,
    /// How many are exceeded by as much, itself included.
    pub equals: u32,
}

/// None if every row is kept.
pub fn broken(call: Call, plan: &Plan, table: &Table) -> Option<Broken> {
    let (_, sums) = used(plan, &after(call, table));
    let excess = |row: usize| sums[row].saturating_sub(plan.bound[row].into());
    let rows: Vec<usize> = (0..32).filter(|&row| excess(row) > 0).collect();
    let most = rows.iter().map(|&row| excess(row)).max()?;
    let position = rows.iter().position(|&row| excess(row) == most)?;
    Some(Broken {
        rows: rows.len() as u32,
        worst: rows[position] as u32 + 1,
        ordinal: position as u32 + 1,
        equals: rows.iter().filter(|&&row| excess(row) == most).count() as u32,
    })
}

/// The table as if the event were admitted; any other call leaves it as it is.
fn after(call: Call, table: &Table) -> Table {
    let mut after = table.clone();
    match call {
        Call::Load { job, kind } => {
            after.jobs[usize::from(after.count)] = Job {
                number: job,
                kind,
                stage: 1,
            };
            after.count += 1;
        }
        Call::Advance { job } => {
            let moved = after.jobs.iter_mut().find(|other| other.number == job);
            moved.expect("its job is active").stage += 1;
        }
        _ => {}
    }
    after
}

#[cfg(test)]
mod tests {
    use super::*;

    /// Sums 2, 10, 10, 4 after a load and 9, 0, 5, 6 after an advance, where 1, 5, 5, 4 are
    /// allowed: excess 1, 5, 5 in rows 1 to 3, and 8, 2 in rows 1 and 4.
    #[test]
    fn broken_rows_are_found() {
        let mut plan = Plan::EMPTY;
        plan.lengths[0] = 2;
        plan.bound[..4].copy_from_slice(&[1, 5, 5, 4]);
        plan.stages[0].weight[..4].copy_from_slice(&[1, 5, 5, 2]);
        plan.stages[1].weight[..4].copy_from_slice(&[9, 0, 5, 6]);
        let load = |job| Call::Load { job, kind: 1 };
        let one = after(load(7), &Table::EMPTY);
        let found = |call| {
            broken(call, &plan, &one)
                .map(|broken| [broken.rows, broken.worst, broken.ordinal, broken.equals])
        };
        assert_eq!(found(load(8)), Some([3, 2, 2, 2]));
        assert_eq!(found(Call::Advance { job: 7 }), Some([2, 1, 1, 1]));
        assert_eq!(found(Call::Pull { job: 7 }), None);
    }
}
