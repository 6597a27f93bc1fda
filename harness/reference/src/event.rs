//! The events load, advance and unload (document 01, "Table and events"; the place of 19:
//! document 02, S-2), and pull (document 02, S-1).

use crate::plan::{index, Plan};
use crate::table::{Job, Table, Usage, MAX_JOBS, MAX_NUMBER};

/// The answer to an event; the place is 0 except for 18 and 19.
#[derive(Clone, Copy, Debug, PartialEq, Eq)]
pub struct Answer {
    pub number: u32,
    pub place: u32,
}

/// An answer that is not 0; `excess` is 0 except for 19: by how much the row would be exceeded.
#[derive(Clone, Copy, Debug, PartialEq, Eq)]
pub struct Refusal {
    pub answer: Answer,
    pub excess: u16,
}

#[derive(Clone, Copy, Debug, PartialEq, Eq)]
pub enum Event {
    Load { job: u32, kind: u32 },
    Advance { job: u32 },
    Unload { job: u32 },
    Pull { job: u32 },
}

impl Event {
    pub fn apply(self, plan: &Plan, table: &mut Table) -> Answer {
        answer(self.attempt(plan, table))
    }

    /// Made if it is admitted; a refusal changes nothing.
    pub fn attempt(self, plan: &Plan, table: &mut Table) -> Result<(), Refusal> {
        match self {
            Event::Load { job, kind } => try_load(plan, table, job, kind),
            Event::Advance { job } => try_advance(plan, table, job),
            Event::Unload { job } => try_unload(plan, table, job),
            Event::Pull { job } => try_pull(plan, table, job),
        }
    }
}

pub fn load(plan: &Plan, table: &mut Table, job: u32, kind: u32) -> Answer {
    answer(try_load(plan, table, job, kind))
}

pub fn advance(plan: &Plan, table: &mut Table, job: u32) -> Answer {
    answer(try_advance(plan, table, job))
}

pub fn unload(plan: &Plan, table: &mut Table, job: u32) -> Answer {
    answer(try_unload(plan, table, job))
}

pub fn pull(plan: &Plan, table: &mut Table, job: u32) -> Answer {
    answer(try_pull(plan, table, job))
}

fn answer(outcome: Result<(), Refusal>) -> Answer {
    match outcome {
        Ok(()) => Answer {
            number: 0,
            place: 0,
        },
        Err(refusal) => refusal.answer,
    }
}

fn refusal(number: u32) -> Refusal {
    refusal_at(number, 0, 0)
}

fn refusal_at(number: u32, place: u32, excess: u16) -> Refusal {
    let answer = Answer { number, place };
    Refusal { answer, excess }
}

fn try_load(plan: &Plan, table: &mut Table, number: u32, kind: u32) -> Result<(), Refusal> {
    let mut usage = ask_agreement(plan, table)?;
    if find(table, number)?.is_some() {
        return Err(refusal(14));
    }
    index(kind, plan.types).ok_or(refusal(15))?;
    if table.active().len() == MAX_JOBS {
        return Err(refusal(16));
    }
    let first = plan.stage_index(kind, 1).ok_or(refusal(15))?;
    usage.add(&plan.stages[first]);
    ask_limits(plan, &usage)?;
    table.push(Job {
        number,
        kind,
        stage: 1,
    });
    Ok(())
}

fn try_advance(plan: &Plan, table: &mut Table, number: u32) -> Result<(), Refusal> {
    let (mut usage, position) = ask_active(plan, table, number)?;
    advance_at(plan, table, &mut usage, position)
}

fn try_unload(plan: &Plan, table: &mut Table, number: u32) -> Result<(), Refusal> {
    let (mut usage, position) = ask_active(plan, table, number)?;
    unload_at(plan, table, &mut usage, position)
}

/// A job leaves from whichever stage it has, so question 17 is not asked. It only gives back, so
/// questions 18 and 19 cannot fail.
fn try_pull(plan: &Plan, table: &mut Table, number: u32) -> Result<(), Refusal> {
    let (_, position) = ask_active(plan, table, number)?;
    table.remove(position);
    Ok(())
}

/// Questions 11 and 12.
pub(crate) fn ask_agreement(plan: &Plan, table: &Table) -> Result<Usage, Refusal> {
    if !plan.is_sound() {
        return Err(refusal(11));
    }
    table.usage(plan).ok_or(refusal(12))
}

/// Questions 11 to 14 of an event whose job must be active; then what the table uses and where
/// the job stands.
fn ask_active(plan: &Plan, table: &Table, number: u32) -> Result<(Usage, usize), Refusal> {
    let usage = ask_agreement(plan, table)?;
    let position = find(table, number)?.ok_or(refusal(14))?;
    Ok((usage, position))
}

/// Question 13; then where the job stands, if it is active.
fn find(table: &Table, number: u32) -> Result<Option<usize>, Refusal> {
    if !(1..=MAX_NUMBER).contains(&number) {
        return Err(refusal(13));
    }
    Ok(table.position(number))
}

/// Questions 17 to 19 of an advance in an agreeing table with this usage; both are written only
/// if it is admitted. The old demand is given back before the new one is tested (Condition 3).
pub(crate) fn advance_at(
    plan: &Plan,
    table: &mut Table,
    usage: &mut Usage,
    position: usize,
) -> Result<(), Refusal> {
    let job = table.jobs[position];
    let old = plan.stage_index(job.kind, job.stage);
    let new = plan.stage_index(job.kind, job.stage + 1);
    let (Some(old), Some(new)) = (old, new) else {
        return Err(refusal(17));
    };
    let mut after = usage.clone();
    after.subtract(&plan.stages[old]);
    after.add(&plan.stages[new]);
    ask_limits(plan, &after)?;
    *usage = after;
    table.jobs[position].stage += 1;
    Ok(())
}

/// Question 17 of an unload in an agreeing table with this usage. It only gives back, so
/// questions 18 and 19 cannot fail.
pub(crate) fn unload_at(
    plan: &Plan,
    table: &mut Table,
    usage: &mut Usage,
    position: usize,
) -> Result<(), Refusal> {
    let job = table.jobs[position];
    if plan.stage_index(job.kind, job.stage + 1).is_some() {
        return Err(refusal(17));
    }
    let last = plan.stage_index(job.kind, job.stage).ok_or(refusal(17))?;
    usage.subtract(&plan.stages[last]);
    table.remove(position);
    Ok(())
}

/// Questions 18 and 19 of what would be used afterwards: 18 names the lowest resource exceeded, 19
/// the row exceeded by the most.
fn ask_limits(plan: &Plan, after: &Usage) -> Result<(), Refusal> {
    if let Some(place) = after.exceeded(plan) {
        return Err(refusal_at(18, place, 0));
    }
    match after.broken(plan) {
        Some(broken) => Err(refusal_at(19, broken.row, broken.excess)),
        None => Ok(()),
    }
}
