//! A plan and a table in the bytes of a cell. Every byte belongs to a field, so any bytes are one
//! plan and one table.

use reference::{Job, Plan, Table};
use rilthoss::{offset, size, CELL_SIZE, JOB_SIZE, MAX_RESOURCES, STAGE_SIZE};

/// Where the plan ends and the table begins.
pub const TABLE: usize = offset::JOB_COUNT;

/// Where the weights begin in a stage.
const WEIGHTS: usize = MAX_RESOURCES;

pub fn decode_plan(cell: &[u8]) -> Plan {
    let mut plan = Plan::EMPTY;
    plan.resources = cell[offset::RESOURCES];
    plan.types = cell[offset::TYPES];
    plan.rows = cell[offset::ROWS];
    let part = |from: usize, size: usize| &cell[from..from + size];
    let capacities = part(offset::CAPACITIES, size::CAPACITIES);
    plan.capacity.copy_from_slice(capacities);
    plan.rank.copy_from_slice(part(offset::RANKS, size::RANKS));
    let bounds = part(offset::BOUNDS, size::BOUNDS).chunks_exact(2);
    for (bound, bytes) in plan.bound.iter_mut().zip(bounds) {
        *bound = u16::from_le_bytes([bytes[0], bytes[1]]);
    }
    plan.lengths
        .copy_from_slice(part(offset::LENGTHS, size::LENGTHS));
    let stages = part(offset::STAGES, size::STAGES).chunks_exact(STAGE_SIZE);
    for (stage, bytes) in plan.stages.iter_mut().zip(stages) {
        stage.demand.copy_from_slice(&bytes[..WEIGHTS]);
        stage.weight.copy_from_slice(&bytes[WEIGHTS..]);
    }
    plan
}

pub fn encode_plan(plan: &Plan, cell: &mut [u8]) {
    cell[offset::RESOURCES] = plan.resources;
    cell[offset::TYPES] = plan.types;
    cell[offset::ROWS] = plan.rows;
    put(cell, offset::CAPACITIES, &plan.capacity);
    put(cell, offset::RANKS, &plan.rank);
    put(
        cell,
        offset::BOUNDS,
        &plan.bound.map(u16::to_le_bytes).concat(),
    );
    put(cell, offset::LENGTHS, &plan.lengths);
    let stages = cell[offset::STAGES..].chunks_exact_mut(STAGE_SIZE);
    for (stage, bytes) in plan.stages.iter().zip(stages) {
        bytes[..WEIGHTS].copy_from_slice(&stage.demand);
        bytes[WEIGHTS..].copy_from_slice(&stage.weight);
    }
}

pub fn decode_table(cell: &[u8]) -> Table {
    let mut table = Table::EMPTY;
    table.count = cell[offset::JOB_COUNT];
    let jobs = cell[offset::JOBS..].chunks_exact(JOB_SIZE);
    for (job, bytes) in table.jobs.iter_mut().zip(jobs) {
        let field = |at: usize| {
            let bytes = [bytes[at], bytes[at + 1], bytes[at + 2], bytes[at + 3]];
            u32::from_le_bytes(bytes)
        };
        *job = Job {
            number: field(0),
            kind: field(4),
            stage: field(8),
        };
    }
    table
}

pub fn encode_table(table: &Table, cell: &mut [u8]) {
    cell[offset::JOB_COUNT] = table.count;
    let jobs = cell[offset::JOBS..].chunks_exact_mut(JOB_SIZE);
    for (job, bytes) in table.jobs.iter().zip(jobs) {
        bytes[..4].copy_from_slice(&job.number.to_le_bytes());
        bytes[4..8].copy_from_slice(&job.kind.to_le_bytes());
        bytes[8..].copy_from_slice(&job.stage.to_le_bytes());
    }
}

/// A new cell with this plan and this table.
pub fn encode(plan: &Plan, table: &Table) -> Vec<u8> {
    let mut cell = vec![0; CELL_SIZE];
    encode_plan(plan, &mut cell);
    encode_table(table, &mut cell);
    cell
}

fn put(cell: &mut [u8], from: usize, bytes: &[u8]) {
    cell[from..from + bytes.len()].copy_from_slice(bytes);
}

#[cfg(test)]
mod tests {
    use super::*;

    #[test]
    fn every_byte_belongs_to_a_field() {
        for position in 0..CELL_SIZE {
            let mut cell = vec![0; CELL_SIZE];
            cell[position] = 0xA5;
            let again = encode(&decode_plan(&cell), &decode_table(&cell));
            assert_eq!(again, cell, "byte {position}");
        }
    }

    #[test]
    fn offsets_of_the_layout() {
        let mut cell = vec![0; CELL_SIZE];
        cell[67 + 2] = 1;
        cell[67 + 3] = 2;
        cell[147 + 64 * 127 + 31] = 3;
        cell[147 + 64 * 127 + 32] = 4;
        cell[8340 + 12 * 63 + 4] = 5;
        cell[8340 + 12 * 63 + 9] = 6;
        let plan = decode_plan(&cell);
        let table = decode_table(&cell);
        assert_eq!(plan.bound[1], 513);
        assert_eq!(plan.stages[127].demand[31], 3);
        assert_eq!(plan.stages[127].weight[0], 4);
        assert_eq!(table.jobs[63].kind, 5);
        assert_eq!(table.jobs[63].stage, 1536);
    }
}
