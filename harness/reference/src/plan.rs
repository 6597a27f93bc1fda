//! The plan and its soundness (document 01, "Plan text").

pub const MAX_RESOURCES: usize = 32;
pub const MAX_TYPES: usize = 16;
pub const MAX_ROWS: usize = 32;
/// Stages of one type.
pub const MAX_LENGTH: usize = 32;
/// Stages of all types together.
pub const MAX_STAGES: usize = 128;

/// Units demanded of each resource and the weight in each row.
#[derive(Clone, Copy, Debug, PartialEq, Eq)]
pub struct Stage {
    pub demand: [u8; MAX_RESOURCES],
    pub weight: [u8; MAX_ROWS],
}

impl Stage {
    pub const EMPTY: Stage = Stage {
        demand: [0; MAX_RESOURCES],
        weight: [0; MAX_ROWS],
    };
}

/// A plan of any contents; `is_sound` tells whether it is one that a text can give.
/// The stages of type 1 come first, then those of type 2, and so on without gaps.
#[derive(Clone, Debug, PartialEq, Eq)]
pub struct Plan {
    pub resources: u8,
    pub types: u8,
    pub rows: u8,
    pub capacity: [u8; MAX_RESOURCES],
    /// 0 stands for no rank.
    pub rank: [u8; MAX_RESOURCES],
    pub bound: [u16; MAX_ROWS],
    /// Number of stages of each type.
    pub lengths: [u8; MAX_TYPES],
    pub stages: [Stage; MAX_STAGES],
}

impl Plan {
    pub const EMPTY: Plan = Plan {
        resources: 0,
        types: 0,
        rows: 0,
        capacity: [0; MAX_RESOURCES],
        rank: [0; MAX_RESOURCES],
        bound: [0; MAX_ROWS],
        lengths: [0; MAX_TYPES],
        stages: [Stage::EMPTY; MAX_STAGES],
    };

    /// Number of stages of all types together.
    pub fn total(&self) -> usize {
        self.lengths.iter().map(|&length| usize::from(length)).sum()
    }

    /// Where a stage of a type stands in `stages`, if the plan has it; both count from 1.
    pub fn stage_index(&self, kind: u32, stage: u32) -> Option<usize> {
        let kind = index(kind, self.types)?;
        let stage = index(stage, *self.lengths.get(kind)?)?;
        let earlier = &self.lengths[..kind];
        let start: usize = earlier.iter().map(|&length| usize::from(length)).sum();
        Some(start + stage)
    }

    /// Ranges, total of 128, question 7 and zeros beyond the counts. Any bound is in range.
    pub fn is_sound(&self) -> bool {
        let resources = usize::from(self.resources);
        let types = usize::from(self.types);
        let rows = usize::from(self.rows);
        let total = self.total();
        (1..=MAX_RESOURCES).contains(&resources)
            && (1..=MAX_TYPES).contains(&types)
            && rows <= MAX_ROWS
            && is_given(&self.capacity, resources)
            && (self.rank == [0; MAX_RESOURCES] || is_given(&self.rank, resources))
            && self.bound[rows..].iter().all(|&bound| bound == 0)
            && is_given(&self.lengths, types)
            && self
                .lengths
                .iter()
                .all(|&length| usize::from(length) <= MAX_LENGTH)
            && total <= MAX_STAGES
            && self.stages[..total]
                .iter()
                .all(|stage| self.is_sound_stage(stage))
            && self.stages[total..]
                .iter()
                .all(|stage| *stage == Stage::EMPTY)
    }

    /// The capacity is 0 beyond the resources, so the demand must be 0 there too.
    fn is_sound_stage(&self, stage: &Stage) -> bool {
        stage.demand != [0; MAX_RESOURCES]
            && stage
                .demand
                .iter()
                .zip(&self.capacity)
                .all(|(demand, capacity)| demand <= capacity)
            && stage.weight[usize::from(self.rows)..]
                .iter()
                .all(|&weight| weight == 0)
    }
}

/// The index of a number counted from 1 to `count`.
pub fn index(number: u32, count: u8) -> Option<usize> {
    (1..=u32::from(count))
        .contains(&number)
        .then(|| number as usize - 1)
}

/// Non-zero in the first `count` places and zero beyond.
fn is_given(values: &[u8], count: usize) -> bool {
    let (held, beyond) = values.split_at(count);
    held.iter().all(|&value| value != 0) && beyond.iter().all(|&value| value == 0)
}
