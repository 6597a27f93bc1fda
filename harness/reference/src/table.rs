//! The table of active jobs and its agreement with a plan (document 01, "Table and events"; which
//! broken row is named: document 02, S-2).

use crate::plan::{Plan, Stage, MAX_RESOURCES, MAX_ROWS};

pub const MAX_JOBS: usize = 64;
pub const MAX_NUMBER: u32 = 65_535;

#[derive(Clone, Copy, Debug, PartialEq, Eq)]
pub struct Job {
    pub number: u32,
    pub kind: u32,
    pub stage: u32,
}

impl Job {
    pub const NONE: Job = Job {
        number: 0,
        kind: 0,
        stage: 0,
    };
}

/// Jobs in the order they were loaded; of any contents until `usage` has asked.
#[derive(Clone, Debug, PartialEq, Eq)]
pub struct Table {
    pub count: u8,
    pub jobs: [Job; MAX_JOBS],
}

/// What the jobs of a table use: units of each resource and the sum of each row.
/// At most 64 jobs of at most 255 each: 16,320.
#[derive(Clone, Debug, PartialEq, Eq)]
pub struct Usage {
    units: [u16; MAX_RESOURCES],
    sums: [u16; MAX_ROWS],
}

/// A row whose sum is above its bound, counted from 1, and by how much: at most the sum itself,
/// 16,320, so 16 bits are enough for it too.
#[derive(Clone, Copy, Debug, PartialEq, Eq)]
pub struct BrokenRow {
    pub row: u32,
    pub excess: u16,
}

impl Table {
    pub const EMPTY: Table = Table {
        count: 0,
        jobs: [Job::NONE; MAX_JOBS],
    };

    /// The active jobs of a table whose count is at most 64.
    pub fn active(&self) -> &[Job] {
        &self.jobs[..usize::from(self.count)]
    }

    pub fn position(&self, number: u32) -> Option<usize> {
        self.active().iter().position(|job| job.number == number)
    }

    /// What the jobs use, if the table agrees with a sound plan (the question of 12).
    pub fn usage(&self, plan: &Plan) -> Option<Usage> {
        let (active, beyond) = self.jobs.split_at_checked(usize::from(self.count))?;
        if beyond.iter().any(|job| *job != Job::NONE) {
            return None;
        }
        let mut usage = Usage::NONE;
        for (position, job) in active.iter().enumerate() {
            let is_number = (1..=MAX_NUMBER).contains(&job.number);
            let earlier = &active[..position];
            if !is_number || earlier.iter().any(|other| other.number == job.number) {
                return None;
            }
            usage.add(&plan.stages[plan.stage_index(job.kind, job.stage)?]);
        }
        let is_kept = usage.exceeded(plan).is_none() && usage.broken(plan).is_none();
        is_kept.then_some(usage)
    }

    /// Puts a job last in order; fewer than 64 must be active.
    pub fn push(&mut self, job: Job) {
        self.jobs[usize::from(self.count)] = job;
        self.count += 1;
    }

    /// Strikes a job; the others keep their order and the slot left at the end is zero.
    pub fn remove(&mut self, position: usize) {
        let end = usize::from(self.count);
        self.jobs.copy_within(position + 1..end, position);
        self.jobs[end - 1] = Job::NONE;
        self.count -= 1;
    }
}

impl Usage {
    const NONE: Usage = Usage {
        units: [0; MAX_RESOURCES],
        sums: [0; MAX_ROWS],
    };

    pub fn add(&mut self, stage: &Stage) {
        for (units, &demand) in self.units.iter_mut().zip(&stage.demand) {
            *units += u16::from(demand);
        }
        for (sum, &weight) in self.sums.iter_mut().zip(&stage.weight) {
            *sum += u16::from(weight);
        }
    }

    pub fn subtract(&mut self, stage: &Stage) {
        for (units, &demand) in self.units.iter_mut().zip(&stage.demand) {
            *units -= u16::from(demand);
        }
        for (sum, &weight) in self.sums.iter_mut().zip(&stage.weight) {
            *sum -= u16::from(weight);
        }
    }

    /// The lowest resource whose capacity is exceeded, counted from 1.
    pub fn exceeded(&self, plan: &Plan) -> Option<u32> {
        let mut pairs = self.units.iter().zip(&plan.capacity);
        let position = pairs.position(|(&units, &capacity)| units > u16::from(capacity))?;
        Some(position as u32 + 1)
    }

    /// The row exceeded by the most and its excess; of equals the lowest, since only a greater
    /// excess takes its place. A kept row has no excess, so it is never the one.
    pub fn broken(&self, plan: &Plan) -> Option<BrokenRow> {
        let mut worst = BrokenRow { row: 0, excess: 0 };
        for (row, (sum, &bound)) in (1..).zip(self.sums.iter().zip(&plan.bound)) {
            let excess = sum.saturating_sub(bound);
            if excess > worst.excess {
                worst = BrokenRow { row, excess };
            }
        }
        (worst.excess > 0).then_some(worst)
    }
}
