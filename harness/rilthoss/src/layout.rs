//! How a plan and its table lie in the bytes of a cell.

/// The most that a cell holds.
pub const MAX_RESOURCES: usize = 32;
pub const MAX_TYPES: usize = 16;
pub const MAX_ROWS: usize = 32;
/// Of all types together.
pub const MAX_STAGES: usize = 128;
pub const MAX_JOBS: usize = 64;

/// One stage: its units of resource 1 to 32, then its weight in row 1 to 32, a byte each.
pub const STAGE_SIZE: usize = MAX_RESOURCES + MAX_ROWS;

/// One job: its number, its type and its stage, 4 bytes each.
pub const JOB_SIZE: usize = 12;

/// All parts of a cell.
pub const CELL_SIZE: usize = offset::JOBS + size::JOBS;

/// How many bytes each part of a cell has. The parts lie one behind the other without a gap. Numbers
/// of more than one byte have their lowest byte first. What lies beyond a count is 0, or the answer
/// is 11 or 12.
pub mod size {
    use super::*;

    /// The count of resources.
    pub const RESOURCES: usize = 1;
    /// The count of types.
    pub const TYPES: usize = 1;
    /// The count of rows.
    pub const ROWS: usize = 1;
    /// The capacity of resource 1 to 32.
    pub const CAPACITIES: usize = MAX_RESOURCES;
    /// Their ranks; 0: no rank.
    pub const RANKS: usize = MAX_RESOURCES;
    /// The bound of row 1 to 32, 2 bytes each.
    pub const BOUNDS: usize = MAX_ROWS * 2;
    /// The count of stages of type 1 to 16.
    pub const LENGTHS: usize = MAX_TYPES;
    /// The stages, type by type.
    pub const STAGES: usize = MAX_STAGES * STAGE_SIZE;
    /// The count of active jobs.
    pub const JOB_COUNT: usize = 1;
    /// The jobs, in the order loaded.
    pub const JOBS: usize = MAX_JOBS * JOB_SIZE;
}

/// Where each part of a cell begins.
pub mod offset {
    use super::size;

    pub const RESOURCES: usize = 0;
    pub const TYPES: usize = RESOURCES + size::RESOURCES;
    pub const ROWS: usize = TYPES + size::TYPES;
    pub const CAPACITIES: usize = ROWS + size::ROWS;
    pub const RANKS: usize = CAPACITIES + size::CAPACITIES;
    pub const BOUNDS: usize = RANKS + size::RANKS;
    pub const LENGTHS: usize = BOUNDS + size::BOUNDS;
    pub const STAGES: usize = LENGTHS + size::LENGTHS;
    pub const JOB_COUNT: usize = STAGES + size::STAGES;
    pub const JOBS: usize = JOB_COUNT + size::JOB_COUNT;
}

#[cfg(test)]
mod tests {
    use super::*;

    /// A cell that was stored before is read as it was written.
    #[test]
    fn no_offset_has_moved() {
        use offset::*;
        assert_eq!([RESOURCES, TYPES, ROWS], [0, 1, 2]);
        assert_eq!([CAPACITIES, RANKS, BOUNDS, LENGTHS], [3, 35, 67, 131]);
        assert_eq!([STAGES, STAGE_SIZE], [147, 64]);
        assert_eq!([JOB_COUNT, JOBS, JOB_SIZE], [8339, 8340, 12]);
        assert_eq!(CELL_SIZE, 9108);
    }
}
