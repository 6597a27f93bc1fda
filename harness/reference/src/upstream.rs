//! The upstream check of a plan (document 01, "Upstream check").

use crate::plan::{Plan, Stage};

/// The answer to a check and its two places, 0 where unused.
#[derive(Clone, Copy, Debug, PartialEq, Eq)]
pub struct Check {
    pub number: u32,
    pub first: u32,
    pub second: u32,
}

pub fn check(plan: &Plan) -> Check {
    match try_check(plan) {
        Ok(()) => fault(0, 0, 0),
        Err(found) => found,
    }
}

fn fault(number: u32, first: u32, second: u32) -> Check {
    Check {
        number,
        first,
        second,
    }
}

fn try_check(plan: &Plan) -> Result<(), Check> {
    if !plan.is_sound() {
        return Err(fault(11, 0, 0));
    }
    let resources = usize::from(plan.resources);
    if plan.rank[..resources].contains(&0) {
        return Err(fault(21, 0, 0));
    }
    let demanded = demanded_resources(plan)?;
    if plan.rows != plan.resources {
        return Err(fault(23, 0, 0));
    }
    for row in 0..resources {
        if !is_weighted_upstream(plan, &demanded, row) {
            return Err(fault(24, row as u32 + 1, 0));
        }
    }
    for row in 0..resources {
        if !(1..=u16::from(plan.capacity[row])).contains(&plan.bound[row]) {
            return Err(fault(25, row as u32 + 1, 0));
        }
    }
    Ok(())
}

/// The stages of each type in order, with the number of stages before them in the plan.
fn types(plan: &Plan) -> impl Iterator<Item = (usize, &[Stage])> {
    let lengths = &plan.lengths[..usize::from(plan.types)];
    let mut start = 0;
    lengths.iter().map(move |&length| {
        let before = start;
        start += usize::from(length);
        (before, &plan.stages[before..start])
    })
}

/// The one resource that each stage demands, in the order of the stages (the question of 22).
fn demanded_resources(plan: &Plan) -> Result<Vec<usize>, Check> {
    let mut demanded = Vec::with_capacity(plan.total());
    for (kind, (_, stages)) in types(plan).enumerate() {
        for (position, stage) in stages.iter().enumerate() {
            let resource = only_resource(stage);
            let place = fault(22, kind as u32 + 1, position as u32 + 1);
            demanded.push(resource.ok_or(place)?);
        }
    }
    Ok(demanded)
}

/// The resource of a stage that demands exactly one unit of one resource.
fn only_resource(stage: &Stage) -> Option<usize> {
    let mut held = (0..stage.demand.len()).filter(|&resource| stage.demand[resource] != 0);
    let resource = held.next()?;
    (held.next().is_none() && stage.demand[resource] == 1).then_some(resource)
}

/// Whether a row is weighted 1 at every stage upstream of its resource and 0 elsewhere.
/// Going backwards, a stage is upstream if it demands the resource itself, or if the next stage
/// is upstream and this stage's rank is at most the resource's.
fn is_weighted_upstream(plan: &Plan, demanded: &[usize], row: usize) -> bool {
    types(plan).all(|(before, stages)| {
        let demanded = &demanded[before..before + stages.len()];
        let mut upstream = false;
        stages.iter().zip(demanded).rev().all(|(stage, &resource)| {
            upstream = resource == row || upstream && plan.rank[resource] <= plan.rank[row];
            stage.weight[row] == u8::from(upstream)
        })
    })
}
