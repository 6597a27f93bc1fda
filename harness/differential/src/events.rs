//! Random calls on a cell: mostly such that the later questions decide, with bad numbers mixed in.

use crate::compare::Call;
use crate::random::Random;
use reference::{Job, Plan, Table};

/// What a list of calls is mostly made of.
#[derive(Clone, Copy, Debug, PartialEq, Eq)]
pub enum Course {
    Loading,
    Moving,
    Mixed,
}

pub fn course(random: &mut Random) -> Course {
    random.pick(&[
        Course::Loading,
        Course::Moving,
        Course::Mixed,
        Course::Mixed,
    ])
}

/// Any call; drains and checks are rarer than events.
pub fn call(random: &mut Random, course: Course, plan: &Plan, table: &Table) -> Call {
    match random.below(100) {
        0..=4 => Call::Check,
        5..=10 => Call::Drain {
            budget: budget(random, plan, table),
        },
        _ => event(random, course, plan, table),
    }
}

/// A load, an advance, an unload or a pull.
pub fn event(random: &mut Random, course: Course, plan: &Plan, table: &Table) -> Call {
    let (loads, unloads, pulls) = match course {
        Course::Loading => (80, 8, 3),
        Course::Moving => (15, 28, 6),
        Course::Mixed => (40, 23, 6),
    };
    let part = random.below(100);
    let idle = table.count == 0 && random.chance(90);
    if idle || part < loads {
        load(random, plan, table)
    } else if part < loads + unloads {
        unload(random, plan, table)
    } else if part < loads + unloads + pulls {
        pull(random, table)
    } else {
        advance(random, table)
    }
}

pub fn load(random: &mut Random, plan: &Plan, table: &Table) -> Call {
    let types = usize::from(plan.types);
    let kind = match random.below(100) {
        0..=89 => random.between(1, types.max(1)) as u32,
        _ => bad_near(random, types as u32),
    };
    let job = match random.below(100) {
        0..=89 => free_number(random, table),
        90..=95 => active_number(random, table),
        _ => bad_number(random),
    };
    Call::Load { job, kind }
}

pub fn advance(random: &mut Random, table: &Table) -> Call {
    Call::Advance {
        job: some_number(random, table),
    }
}

/// Mostly of a job at its last stage, if there is one.
pub fn unload(random: &mut Random, plan: &Plan, table: &Table) -> Call {
    let is_last = |job: &&Job| plan.stage_index(job.kind, job.stage + 1).is_none();
    let sound = plan.is_sound() && table.usage(plan).is_some();
    let last: Vec<Job> = match sound {
        true => table.active().iter().filter(is_last).copied().collect(),
        false => Vec::new(),
    };
    let job = match last.is_empty() || random.chance(25) {
        true => some_number(random, table),
        false => random.pick(&last).number,
    };
    Call::Unload { job }
}

/// Of a job at any stage.
pub fn pull(random: &mut Random, table: &Table) -> Call {
    Call::Pull {
        job: some_number(random, table),
    }
}

/// Budgets around the number of moves that would empty the table, and the extremes.
pub fn budget(random: &mut Random, plan: &Plan, table: &Table) -> u32 {
    let left = match plan.is_sound() && table.usage(plan).is_some() {
        true => stages_left(plan, table),
        false => 3,
    };
    let around = [left.saturating_sub(1), left, left + 1];
    match random.below(10) {
        0 => 0,
        1..=2 => random.between(1, 6) as u32,
        3..=5 => random.pick(&around),
        6 => random.pick(&[255, 256, 2048, 65_535, 65_536]),
        7 => random.bits() as u32,
        _ => u32::MAX,
    }
}

/// Stages still before the jobs of an agreeing table, present ones included.
pub fn stages_left(plan: &Plan, table: &Table) -> u32 {
    let left = |job: &Job| u32::from(plan.lengths[job.kind as usize - 1]) - job.stage + 1;
    table.active().iter().map(left).sum()
}

fn some_number(random: &mut Random, table: &Table) -> u32 {
    match random.below(100) {
        0..=91 => active_number(random, table),
        92..=95 => free_number(random, table),
        _ => bad_number(random),
    }
}

/// A number of the table, or any small one if no job is active.
fn active_number(random: &mut Random, table: &Table) -> u32 {
    match usize::from(table.count).min(64) {
        0 => random.between(1, 5) as u32,
        count => table.jobs[random.below(count)].number,
    }
}

/// A number that is mostly not in the table.
fn free_number(random: &mut Random, table: &Table) -> u32 {
    let (low, high) = random.pick(&[(1, 100), (1, 100), (1, 65_535), (65_530, 65_535)]);
    for _ in 0..5 {
        let number = random.between(low, high) as u32;
        if table.jobs.iter().all(|job| job.number != number) {
            return number;
        }
    }
    65_535
}

fn bad_number(random: &mut Random) -> u32 {
    random.pick(&[0, 65_536, 65_537, 131_071, 1 << 24, 1 << 31, u32::MAX])
}

/// Numbers that are out of the range 1 to `count`, or would fall into it if bits were lost.
pub fn bad_near(random: &mut Random, count: u32) -> u32 {
    let lost = random.pick(&[1 << 8, 1 << 16, 1 << 24, 1 << 31]);
    random.pick(&[0, count + 1, lost, lost + 1, lost + count, u32::MAX])
}
