//! Cells of any bits: sound plans and agreeing tables with some places changed, and random bytes.

use crate::cells;
use crate::events::bad_near;
use crate::plans;
use crate::random::Random;
use reference::{Job, Plan, Stage, Table};
use rilthoss::{offset, CELL_SIZE};

pub fn bytes(random: &mut Random) -> Vec<u8> {
    match random.below(100) {
        0..=2 => random.bytes(CELL_SIZE),
        3..=5 => sparse(random),
        6..=8 => small_counts(random),
        _ => changed(random),
    }
}

/// Zeros with a few other bytes.
fn sparse(random: &mut Random) -> Vec<u8> {
    let mut bytes = vec![0; CELL_SIZE];
    for _ in 0..random.below(6) {
        let most = random.pick(&[3, offset::STAGES, CELL_SIZE]);
        bytes[random.below(most)] = random.byte();
    }
    bytes
}

/// Random bytes under counts that are in range.
fn small_counts(random: &mut Random) -> Vec<u8> {
    let mut bytes = random.bytes(CELL_SIZE);
    bytes[offset::RESOURCES] = random.between(1, 32) as u8;
    bytes[offset::TYPES] = random.between(1, 16) as u8;
    bytes[offset::ROWS] = random.between(0, 32) as u8;
    bytes[offset::JOB_COUNT] = random.between(0, 64) as u8;
    bytes
}

/// A sound plan and an agreeing table with up to three changes in one or both.
fn changed(random: &mut Random) -> Vec<u8> {
    let mut plan = plans::plan(random);
    let most = random.pick(&[0, 1, 4, 12, 64]);
    let mut table = plans::table(random, &plan, most);
    match random.below(10) {
        0..=3 => {
            for _ in 0..random.pick(&[1, 1, 1, 2, 3]) {
                change_plan(random, &mut plan);
            }
        }
        4..=7 => change_tables(random, &mut plan, &mut table),
        8 => {
            change_tables(random, &mut plan, &mut table);
            change_plan(random, &mut plan);
        }
        _ => plans::tighten(random, &mut plan, &table),
    }
    let mut bytes = cells::encode(&plan, &table);
    if random.chance(15) {
        bytes[random.below(CELL_SIZE)] ^= 1 << random.below(8);
    }
    bytes
}

/// One change that mostly makes the plan unsound.
pub fn change_plan(random: &mut Random, plan: &mut Plan) {
    match random.below(13) {
        0 | 1 => change_count(random, plan),
        2..=5 => change_beyond(random, plan),
        6..=8 => change_stage(random, plan),
        9 | 10 => change_resource(random, plan),
        11 => lengthen(random, plan),
        _ => {
            plan.types = 0;
            plan.lengths = [0; 16];
            plan.stages = [Stage::EMPTY; 128];
        }
    }
}

/// One type with 31 to 34 stages, all with a demand: sound but for that number above 32.
fn lengthen(random: &mut Random, plan: &mut Plan) {
    plan.lengths[random.below(usize::from(plan.types).clamp(1, 16))] = random.between(31, 34) as u8;
    let resource = random.below(usize::from(plan.resources).clamp(1, 32));
    for at in 0..plan.total().min(128) {
        let stage = &mut plan.stages[at];
        if stage.demand == [0; 32] {
            stage.demand[resource] = 1;
        }
    }
}

fn change_count(random: &mut Random, plan: &mut Plan) {
    let total = plan.total();
    let at = random.below(usize::from(plan.types).clamp(1, 16));
    let (count, highest) = match random.below(4) {
        0 => (&mut plan.resources, 32),
        1 => (&mut plan.types, 16),
        2 => (&mut plan.rows, 32),
        // The length that brings the total to 129, if one type can have it.
        _ => (&mut plan.lengths[at], 129usize.saturating_sub(total) as u8),
    };
    let (less, more) = (count.wrapping_sub(1), count.wrapping_add(1));
    *count = random.pick(&[0, less, more, highest, highest.wrapping_add(1), 33, 255]);
}

/// A byte beyond the counts.
fn change_beyond(random: &mut Random, plan: &mut Plan) {
    let any = random.byte();
    let value = random.pick(&[1, 1, 255, any]);
    let resource = beyond(random, plan.resources, 32);
    let row = beyond(random, plan.rows, 32);
    let total = plan.total().min(128);
    let stage = random.below(total.max(1));
    match random.below(8) {
        0 => plan.capacity[resource] = value,
        1 => plan.rank[resource] = value,
        2 => plan.bound[row] = u16::from(value) << random.pick(&[0, 8]),
        3 => plan.lengths[beyond(random, plan.types, 16)] = value,
        4 => plan.stages[stage].demand[resource] = value,
        5 => plan.stages[stage].weight[row] = value,
        6 => plan.stages[beyond(random, total as u8, 128)].demand[random.below(32)] = value,
        _ => plan.stages[beyond(random, total as u8, 128)].weight[random.below(32)] = value,
    }
}

/// An index from `count` on, mostly the first or the last.
fn beyond(random: &mut Random, count: u8, most: usize) -> usize {
    let first = usize::from(count).min(most - 1);
    let any = random.between(first, most - 1);
    random.pick(&[first, most - 1, any])
}

/// Demands and weights of one stage.
fn change_stage(random: &mut Random, plan: &mut Plan) {
    let at = random.below(plan.total().clamp(1, 128));
    let resource = random.below(usize::from(plan.resources).clamp(1, 32));
    let stage = &mut plan.stages[at];
    match random.below(5) {
        0 => stage.demand = [0; 32],
        1 => stage.demand[resource] = plan.capacity[resource].wrapping_add(1),
        2 => stage.demand[resource] = plan.capacity[resource],
        3 => stage.demand[resource] = random.byte(),
        _ => stage.weight[random.below(32)] = random.byte(),
    }
}

/// The capacity or rank of one resource.
fn change_resource(random: &mut Random, plan: &mut Plan) {
    let resource = random.below(usize::from(plan.resources).clamp(1, 32));
    let demands = plan.stages.iter().map(|stage| stage.demand[resource]);
    let demand = demands.max().unwrap_or(0);
    match random.below(5) {
        0 => plan.capacity[resource] = 0,
        1 => plan.capacity[resource] = demand.saturating_sub(1),
        2 => plan.capacity[resource] = demand,
        3 => plan.rank[resource] = 0,
        _ => plan.rank[resource] = random.pick(&[1, 255]),
    }
}

fn change_tables(random: &mut Random, plan: &mut Plan, table: &mut Table) {
    match random.below(10) {
        0 | 1 => plans::overfill(random, plan, table),
        2 | 3 => plans::undercut(random, plan, table),
        _ => {
            for _ in 0..random.pick(&[1, 1, 2]) {
                change_table(random, plan, table);
            }
        }
    }
}

/// One change that mostly ends the agreement.
fn change_table(random: &mut Random, plan: &Plan, table: &mut Table) {
    let count = usize::from(table.count).min(64);
    let at = random.below(count.max(1));
    let other = random.below(count.max(1));
    match random.below(9) {
        0 => table.count = random.between(65, 255) as u8,
        1 => table.count = random.pick(&[0, 64, table.count.wrapping_sub(1), count as u8 + 1]),
        2 => table.jobs[at].number = table.jobs[other].number,
        3 => table.jobs[at].number = bad_near(random, 65_535),
        4 => table.jobs[at].kind = bad_near(random, plan.types.into()),
        5 => {
            let kind = table.jobs[at].kind as usize;
            let length = *plan.lengths.get(kind.wrapping_sub(1)).unwrap_or(&1);
            table.jobs[at].stage = bad_near(random, length.into());
        }
        6 => table.jobs.swap(at, other),
        7 => table.jobs[at] = Job::NONE,
        _ => {
            let at = beyond(random, count as u8, 64);
            let bit = 1 << random.below(32);
            let job = &mut table.jobs[at];
            *random_field(random, job) ^= bit;
        }
    }
}

fn random_field<'a>(random: &mut Random, job: &'a mut Job) -> &'a mut u32 {
    match random.below(3) {
        0 => &mut job.number,
        1 => &mut job.kind,
        _ => &mut job.stage,
    }
}
