//! The canonical form of a plan (document 02, S-3), worked out by hand.

use reference::canonical::{text_length, write_plan, Writing};
use reference::text::{read_plan, MAX_TEXT};
use reference::Plan;

mod document;

use document::canonical::{
    assert_canonical, longest, CANONICAL, CROSSING_LENGTH, ROW_OF_ONE_DIGIT, SMALLEST,
    SMALLEST_LENGTH, ZEROS,
};
use document::{plan, tabbed, CROSSING};

/// A change of one or two numbers.
type Change = fn(&mut Plan);

/// No byte of a text.
const FILLING: u8 = 0xEE;

fn writing(number: u32, length: usize) -> Writing {
    Writing {
        number,
        length: length as u32,
    }
}

/// The text of a plan, written into a buffer of so many bytes; what lies beyond it stays.
fn written(plan: &Plan, length: usize) -> Vec<u8> {
    let mut buffer = vec![FILLING; length];
    let answer = write_plan(plan, &mut buffer);
    let text = &buffer[..answer.length as usize];
    assert_eq!(answer, writing(0, text.len()));
    assert!(buffer[text.len()..].iter().all(|&byte| byte == FILLING));
    text.to_vec()
}

/// A refusal has length 0 and writes nothing into a buffer of so many bytes.
fn assert_refused(plan: &Plan, number: u32, length: usize) {
    let mut buffer = vec![FILLING; length];
    assert_eq!(write_plan(plan, &mut buffer), writing(number, 0));
    assert_eq!(buffer, vec![FILLING; length]);
}

#[test]
fn canonical_forms() {
    assert_canonical(|text| written(&plan(text), MAX_TEXT));
}

/// What is written is read as the same plan, and different plans have different texts.
#[test]
fn read_again() {
    let longest = longest();
    let texts = CANONICAL.iter().copied().chain([&*longest]);
    let plans: Vec<Plan> = texts.map(plan).collect();
    for (at, plan) in plans.iter().enumerate() {
        let text = written(plan, MAX_TEXT);
        let reading = read_plan(&text);
        assert_eq!(reading.number, 0);
        assert_eq!(reading.plan, *plan);
        for other in &plans[..at] {
            assert_ne!(text, written(other, MAX_TEXT));
        }
    }
}

/// Each number of a plan counts: changed by 1 it gives another text.
#[test]
fn every_number() {
    let before = plan(CROSSING);
    let text = written(&before, MAX_TEXT);
    let changes: [Change; 6] = [
        |plan| plan.capacity[2] += 1,
        |plan| plan.bound[0] -= 1,
        |plan| plan.rank[2] += 1,
        |plan| plan.stages[0].demand[1] += 1,
        |plan| plan.stages[5].weight[2] += 1,
        |plan| plan.stages[5].weight[0] -= 1,
    ];
    for change in changes {
        let mut after = before.clone();
        change(&mut after);
        assert_ne!(written(&after, MAX_TEXT), text);
    }
}

/// By its values, without reading a text.
#[test]
fn zeros() {
    let mut plan = Plan::EMPTY;
    plan.resources = 2;
    plan.types = 1;
    plan.rows = 2;
    plan.capacity[..2].copy_from_slice(&[1, 1]);
    plan.lengths[0] = 2;
    plan.stages[0].demand[1] = 1;
    plan.stages[1].demand[1] = 1;
    plan.stages[1].weight[1] = 1;
    assert_eq!(written(&plan, MAX_TEXT), tabbed(ZEROS));
}

/// None, one byte short, just enough, one more.
#[test]
fn buffers() {
    assert_eq!(tabbed(SMALLEST).len(), SMALLEST_LENGTH);
    assert_eq!(tabbed(CROSSING).len(), CROSSING_LENGTH);
    for text in CANONICAL {
        let plan = plan(text);
        let length = text_length(&plan);
        assert_eq!(length, text.len());
        for short in [0, 1, length - 1] {
            assert_refused(&plan, 9, short);
        }
        for enough in [length, length + 1, MAX_TEXT, MAX_TEXT + 1] {
            assert_eq!(written(&plan, enough), tabbed(text));
        }
    }
}

#[test]
fn longest_text() {
    let mut plan = plan(&longest());
    assert_eq!(text_length(&plan), 65_536);
    for enough in [65_536, 65_537, 200_000] {
        assert_eq!(written(&plan, enough), tabbed(&longest()));
    }
    assert_refused(&plan, 9, 65_535);
    plan.bound[ROW_OF_ONE_DIGIT - 1] = 10;
    assert_eq!(text_length(&plan), 65_537);
    for any in [0, 65_536, 65_537, 65_538, 200_000] {
        assert_refused(&plan, 9, any);
    }
    plan.bound[ROW_OF_ONE_DIGIT - 1] = 0;
    assert_eq!(written(&plan, 65_536).len(), 65_536);
}

/// Everything at its highest, with 8 stages in each type. Of three digits each, S and A have
/// 45,696 + 2 * 4,096 = 53,888, R and K 215 + 64 = 279; B has 215 + 128 = 343 with five.
/// 11 + 279 + 103 + 53,888 + 343 + 53,888 + 279 = 108,791.
#[test]
fn far_too_long() {
    let mut plan = plan(&longest());
    plan.capacity.fill(255);
    plan.rank.fill(255);
    plan.bound.fill(65_535);
    for stage in &mut plan.stages {
        stage.demand.fill(255);
        stage.weight.fill(255);
    }
    assert!(plan.is_sound());
    assert_eq!(text_length(&plan), 108_791);
    for any in [0, 65_536, 108_790, 108_791, 108_792] {
        assert_refused(&plan, 9, any);
    }
}

/// 11 whatever the buffer: also where it has no bytes, and where the text would be too long.
#[test]
fn unsound_plans() {
    let changes: [(&str, Change); 7] = [
        (CROSSING, |plan| plan.stages[127].weight[31] = 1),
        (CROSSING, |plan| plan.stages[0].demand[0] = 2),
        (SMALLEST, |plan| plan.stages[0].demand[0] = 0),
        (ZEROS, |plan| plan.rank[0] = 1),
        (ZEROS, |plan| plan.bound[2] = 1),
        (ZEROS, |plan| plan.stages[0].weight[2] = 1),
        (&longest(), |plan| {
            plan.bound[ROW_OF_ONE_DIGIT - 1] = 10;
            plan.stages[0].demand[0] = 2;
        }),
    ];
    let unsound = changes.map(|(text, change)| {
        let mut plan = plan(text);
        change(&mut plan);
        plan
    });
    for plan in unsound.iter().chain([&Plan::EMPTY]) {
        for any in [0, 1, MAX_TEXT, 200_000] {
            assert_refused(plan, 11, any);
        }
    }
}
