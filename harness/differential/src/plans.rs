//! Random sound plans, plans that meet the upstream check, and tables that agree with a plan.
//! The sums and the upstream rule are worked out here anew, not taken from the reference.

use crate::random::Random;
use reference::canonical::text_length;
use reference::{Job, Plan, Table};

#[derive(Clone, Copy, Debug, PartialEq, Eq)]
pub enum Size {
    Tiny,
    Small,
    Medium,
    Large,
    /// Every count at its highest.
    Largest,
}

/// How much room the capacities and bounds leave.
#[derive(Clone, Copy, Debug, PartialEq, Eq)]
pub enum Room {
    Tight,
    /// Tight bounds and wide capacities: the rows decide.
    Rows,
    Wide,
    Any,
}

pub fn size(random: &mut Random) -> Size {
    match random.below(100) {
        0..=29 => Size::Tiny,
        30..=64 => Size::Small,
        65..=84 => Size::Medium,
        85..=93 => Size::Large,
        _ => Size::Largest,
    }
}

/// Any plan: with the rows of the upstream rule, with random rows, or without rows.
pub fn plan(random: &mut Random) -> Plan {
    let size = size(random);
    let room = random.pick(&[Room::Tight, Room::Tight, Room::Rows, Room::Wide, Room::Any]);
    match random.below(10) {
        0..=2 => conforming(random, size),
        3..=7 => general(random, size, room),
        _ => {
            let mut plan = general(random, size, room);
            set_rows(&mut plan, 0);
            plan
        }
    }
}

/// A plan with its counts and numbers of stages, all else zero.
fn outline(random: &mut Random, size: Size) -> Plan {
    let (resources, types, length, rows) = match size {
        Size::Tiny => (2, 2, 2, 2),
        Size::Small => (5, 4, 4, 4),
        Size::Medium => (12, 8, 8, 12),
        Size::Large | Size::Largest => (32, 16, 32, 32),
    };
    let full = size == Size::Largest;
    let mut count = |low: usize, high: usize| match full {
        true => high as u8,
        false => random.between(low, high) as u8,
    };
    let mut plan = Plan::EMPTY;
    plan.resources = count(1, resources);
    plan.types = count(1, types);
    plan.rows = count(0, rows);
    set_lengths(random, &mut plan, length, full);
    plan
}

/// At most `highest` stages each and 128 together; as many as fit if `full`.
fn set_lengths(random: &mut Random, plan: &mut Plan, highest: usize, full: bool) {
    let types = usize::from(plan.types);
    let mut left = 128 - types;
    for length in &mut plan.lengths[..types] {
        let more = random.between(0, left.min(highest - 1));
        *length = 1 + more as u8;
        left -= more;
    }
    random.shuffle(&mut plan.lengths[..types]);
    for length in plan.lengths[..types].iter_mut().filter(|_| full) {
        let more = left.min(highest - usize::from(*length));
        *length += more as u8;
        left -= more;
    }
}

/// A sound plan with random demands, rows and ranks.
pub fn general(random: &mut Random, size: Size, room: Room) -> Plan {
    let mut plan = outline(random, size);
    let resources = usize::from(plan.resources);
    for capacity in &mut plan.capacity[..resources] {
        *capacity = match room {
            Room::Tight => random.between(1, 3) as u8,
            Room::Rows | Room::Wide => random.between(200, 255) as u8,
            Room::Any => random.between(1, 255) as u8,
        };
    }
    let dense = random.chance(10);
    for at in 0..plan.total() {
        let demands = match dense {
            true => resources,
            false => random.between(1, resources.min(3)),
        };
        set_demands(random, &mut plan, at, demands, room);
    }
    let heavy = random.chance(30);
    for row in 0..usize::from(plan.rows) {
        set_row(random, &mut plan, row, room, heavy);
    }
    if random.chance(50) {
        set_ranks(random, &mut plan);
    }
    plan
}

/// A plan with the highest counts, every demand and every weight: its text has over 90,000 bytes.
pub fn dense(random: &mut Random) -> Plan {
    let mut plan = general(random, Size::Largest, Room::Any);
    for stage in &mut plan.stages {
        for (demand, &capacity) in stage.demand.iter_mut().zip(&plan.capacity) {
            *demand = random.between(1, capacity.into()) as u8;
        }
        for weight in &mut stage.weight {
            *weight = random.between(1, 255) as u8;
        }
    }
    plan
}

/// A plan with the highest counts whose text has this many bytes, from 10,000 to 90,000: a dense
/// one without some demands and weights, and with bounds that make up for what is then too few.
pub fn with_text_length(random: &mut Random, length: usize) -> Plan {
    const LONGEST_RECORD: usize = 15;
    let mut plan = dense(random);
    for bound in &mut plan.bound {
        *bound = random.below(10) as u16;
    }
    while let Some(surplus @ 1..) = text_length(&plan).checked_sub(length) {
        for _ in 0..surplus.div_ceil(LONGEST_RECORD) {
            thin(random, &mut plan);
        }
    }
    // Fewer bytes than a record has are left, and more rows than that can take one.
    let left = length - text_length(&plan);
    for bound in &mut plan.bound[..left] {
        *bound = random.between(10, 99) as u16;
    }
    plan
}

/// Puts numbers at which a further digit begins, and the highest ones, in many places. The plan
/// stays sound.
pub fn set_edges(random: &mut Random, plan: &mut Plan) {
    const BYTES: [u8; 8] = [1, 9, 10, 99, 100, 101, 254, 255];
    const BOUNDS: [u16; 11] = [0, 9, 10, 99, 100, 999, 1_000, 9_999, 10_000, 65_534, 65_535];
    let mut change = |value: &mut u8| {
        if *value != 0 && random.chance(50) {
            *value = random.pick(&BYTES);
        }
    };
    plan.capacity.iter_mut().for_each(&mut change);
    plan.rank.iter_mut().for_each(&mut change);
    for stage in &mut plan.stages {
        stage.demand.iter_mut().for_each(&mut change);
        stage.weight.iter_mut().for_each(&mut change);
        for (demand, &capacity) in stage.demand.iter_mut().zip(&plan.capacity) {
            *demand = capacity.min(*demand);
        }
    }
    for bound in &mut plan.bound[..plan.rows.into()] {
        *bound = random.pick(&BOUNDS);
    }
}

/// Takes one weight or demand away; one demand of each stage is kept, so the plan stays sound.
fn thin(random: &mut Random, plan: &mut Plan) {
    loop {
        let at = random.below(plan.stages.len());
        let number = random.below(32);
        let stage = &mut plan.stages[at];
        let value = match random.chance(50) {
            true => &mut stage.weight[number],
            false if number == at % 32 => continue,
            false => &mut stage.demand[number],
        };
        if *value != 0 {
            *value = 0;
            return;
        }
    }
}

fn set_demands(random: &mut Random, plan: &mut Plan, at: usize, demands: usize, room: Room) {
    let resources = usize::from(plan.resources);
    let first = random.below(resources);
    for step in 0..demands {
        let resource = (first + step) % resources;
        let highest = match room {
            Room::Rows | Room::Wide => 3,
            Room::Tight | Room::Any => usize::from(plan.capacity[resource]),
        };
        plan.stages[at].demand[resource] = random.between(1, highest) as u8;
    }
}

fn set_row(random: &mut Random, plan: &mut Plan, row: usize, room: Room, heavy: bool) {
    let total = plan.total();
    for stage in &mut plan.stages[..total] {
        if random.chance(50) {
            stage.weight[row] = random.between(1, if heavy { 255 } else { 3 }) as u8;
        }
    }
    plan.bound[row] = match room {
        _ if random.chance(12) => 0,
        Room::Tight | Room::Rows => random.between(0, if heavy { 600 } else { 6 }) as u16,
        Room::Wide => random.between(20_000, 65_535) as u16,
        Room::Any => random.between(0, 65_535) as u16,
    };
}

/// Few different ranks, so that equal ones are common, or any.
fn set_ranks(random: &mut Random, plan: &mut Plan) {
    let highest = random.pick(&[1, 2, 4, 255]);
    for rank in &mut plan.rank[..usize::from(plan.resources)] {
        *rank = random.between(1, highest) as u8;
    }
}

/// Sets the number of rows; what lies beyond becomes zero.
pub fn set_rows(plan: &mut Plan, rows: usize) {
    plan.rows = rows as u8;
    plan.bound[rows..].fill(0);
    for stage in &mut plan.stages {
        stage.weight[rows..].fill(0);
    }
}

/// A plan that meets the upstream check.
pub fn conforming(random: &mut Random, size: Size) -> Plan {
    let mut plan = outline(random, size);
    plan.rows = plan.resources;
    set_ranks(random, &mut plan);
    let highest = random.pick(&[1, 3, 255]);
    for at in 0..usize::from(plan.resources) {
        let capacity = random.between(1, highest);
        plan.capacity[at] = capacity as u8;
        plan.bound[at] = random.between(1, capacity) as u16;
    }
    for at in 0..plan.total() {
        let resource = random.below(usize::from(plan.resources));
        plan.stages[at].demand[resource] = 1;
    }
    weigh_upstream(&mut plan);
    plan
}

/// Weights of the upstream rule, as the definition is worded: stage k is upstream of a resource
/// if some q from k on demands it and every stage from k to q - 1 has a rank at most as high.
pub fn weigh_upstream(plan: &mut Plan) {
    let resources = usize::from(plan.resources);
    let mut start = 0;
    for length in plan.lengths.map(usize::from) {
        let demanded: Vec<usize> = plan.stages[start..start + length]
            .iter()
            .map(|stage| (0..resources).find(|&at| stage.demand[at] != 0))
            .map(|at| at.expect("every stage demands a resource"))
            .collect();
        for k in 0..length {
            for row in 0..resources {
                let upstream = (k..length).any(|q| {
                    demanded[q] == row
                        && (k..q).all(|stage| plan.rank[demanded[stage]] <= plan.rank[row])
                });
                plan.stages[start + k].weight[row] = u8::from(upstream);
            }
        }
        start += length;
    }
}

/// Units of each resource and sum of each row that a table's jobs use.
pub fn used(plan: &Plan, table: &Table) -> ([u32; 32], [u32; 32]) {
    let mut units = [0; 32];
    let mut sums = [0; 32];
    for job in &table.jobs[..usize::from(table.count)] {
        let earlier = plan.lengths[..job.kind as usize - 1].iter();
        let start: usize = earlier.map(|&length| usize::from(length)).sum();
        let stage = &plan.stages[start + job.stage as usize - 1];
        for at in 0..32 {
            units[at] += u32::from(stage.demand[at]);
            sums[at] += u32::from(stage.weight[at]);
        }
    }
    (units, sums)
}

fn fits(plan: &Plan, table: &Table) -> bool {
    let (units, sums) = used(plan, table);
    (0..32).all(|at| {
        units[at] <= u32::from(plan.capacity[at]) && sums[at] <= u32::from(plan.bound[at])
    })
}

/// A job of the plan at a random stage with a number that the table lacks.
fn job(random: &mut Random, plan: &Plan, table: &Table) -> Job {
    let kind = random.between(1, usize::from(plan.types));
    let stage = random.between(1, usize::from(plan.lengths[kind - 1]));
    let (low, high) = random.pick(&[(1, 100), (1, 65_535), (65_400, 65_535)]);
    let mut number = random.between(low, high) as u32;
    while table.jobs.iter().any(|job| job.number == number) {
        number = random.between(low, high) as u32;
    }
    Job {
        number,
        kind: kind as u32,
        stage: stage as u32,
    }
}

/// A table that agrees with the plan, of at most `highest` jobs; a job that does not fit ends it.
pub fn table(random: &mut Random, plan: &Plan, highest: usize) -> Table {
    let mut table = Table::EMPTY;
    let mut refused = 0;
    while usize::from(table.count) < highest && refused < 3 {
        let job = job(random, plan, &table);
        table.jobs[usize::from(table.count)] = job;
        table.count += 1;
        if !fits(plan, &table) {
            table.count -= 1;
            table.jobs[usize::from(table.count)] = Job::NONE;
            refused += 1;
        }
    }
    table
}

/// Brings capacities and bounds near to what the table uses, so that the next units and weights
/// decide. The table stays in agreement and the plan sound.
pub fn tighten(random: &mut Random, plan: &mut Plan, table: &Table) {
    let (units, sums) = used(plan, table);
    for (at, &units) in units[..usize::from(plan.resources)].iter().enumerate() {
        if random.chance(50) {
            let demands = plan.stages.iter().map(|stage| stage.demand[at]);
            let lowest = units.max(demands.max().unwrap_or(1).max(1).into());
            let capacity = lowest + random.pick(&[0, 0, 1, 2]);
            plan.capacity[at] = capacity.min(255) as u8;
        }
    }
    for (at, &sum) in sums[..usize::from(plan.rows)].iter().enumerate() {
        if random.chance(50) {
            let bound = sum + random.pick(&[0, 0, 1, 2, 100]);
            plan.bound[at] = bound.min(65_535) as u16;
        }
    }
}

/// Puts jobs in the table whether they fit or not.
pub fn overfill(random: &mut Random, plan: &Plan, table: &mut Table) {
    let count = usize::from(table.count);
    for at in count..64.min(count + random.between(1, 8)) {
        table.jobs[at] = job(random, plan, table);
        table.count += 1;
    }
}

/// Sets one capacity or bound that is in use to one less than what an agreeing table uses.
pub fn undercut(random: &mut Random, plan: &mut Plan, table: &Table) {
    let (units, sums) = used(plan, table);
    let at = random.below(32);
    if units[at] > 1 && random.chance(50) {
        plan.capacity[at] = units[at] as u8 - 1;
    } else if sums[at] > 0 {
        plan.bound[at] = sums[at] as u16 - 1;
    }
}

/// One fault that the check answers with this number, 21 to 25, if no other comes before it.
/// The plan stays sound.
pub fn add_fault(random: &mut Random, plan: &mut Plan, number: u32) {
    let at = random.below(plan.total());
    let resource = random.below(usize::from(plan.resources));
    let rows = usize::from(plan.rows);
    match number {
        21 => plan.rank = [0; 32],
        22 => {
            let demand = &mut plan.stages[at].demand[resource];
            *demand = demand.saturating_add(1);
            plan.capacity[resource] = plan.capacity[resource].max(*demand);
        }
        23 if rows == 32 || random.chance(50) => set_rows(plan, random.below(rows.max(1))),
        23 => set_rows(plan, rows + 1),
        24 if rows > 0 => {
            let weight = &mut plan.stages[at].weight[random.below(rows)];
            *weight = match *weight {
                0 => random.pick(&[1, 1, 255]),
                _ => random.pick(&[0, 0, 2]),
            };
        }
        25 if rows > 0 => {
            let row = random.below(rows);
            let above = u16::from(plan.capacity[row]) + 1;
            plan.bound[row] = random.pick(&[0, above, 65_535]);
        }
        _ => {}
    }
}
