//! The canonical form of a plan (document 02, S-3): the C record, then the sections in order with
//! rising keys, each record that the plan needs and no other byte.

use crate::plan::{Plan, Stage};
use crate::text::MAX_TEXT;

/// The answer to a writing: 0, 9 or 11, and the length of the text, 0 when refused.
#[derive(Clone, Copy, Debug, PartialEq, Eq)]
pub struct Writing {
    pub number: u32,
    pub length: u32,
}

/// Writes a plan's text to the beginning of a buffer; a refusal leaves the buffer as it was.
pub fn write_plan(plan: &Plan, buffer: &mut [u8]) -> Writing {
    if !plan.is_sound() {
        return refusal(11);
    }
    let length = text_length(plan);
    if length > MAX_TEXT {
        return refusal(9);
    }
    let Some(text) = buffer.get_mut(..length) else {
        return refusal(9);
    };
    let mut rest = text;
    for_each_record(plan, |letter, fields| put_record(&mut rest, letter, fields));
    Writing {
        number: 0,
        length: length as u32,
    }
}

fn refusal(number: u32) -> Writing {
    Writing { number, length: 0 }
}

/// How long the text of a sound plan is, whether it fits anywhere or not.
pub fn text_length(plan: &Plan) -> usize {
    let mut length = 0;
    for_each_record(plan, |_, fields| {
        let fields = fields.iter().map(|&field| 1 + digit_count(field));
        length += 2 + fields.sum::<usize>();
    });
    length
}

/// Goes through the letters and fields of a sound plan's records in the order of its text. Beyond
/// its counts all is zero, so what is zero there is left out with the zeros among the rest. Only
/// of the bounds is a zero written: every row has its B.
fn for_each_record(plan: &Plan, mut record: impl FnMut(u8, &[u16])) {
    let counts = [plan.resources, plan.types, plan.rows];
    record(b'C', &counts.map(u16::from));
    for (resource, capacity) in given(&plan.capacity) {
        record(b'R', &[resource, capacity]);
    }
    for (kind, length) in given(&plan.lengths) {
        record(b'T', &[kind, length]);
    }
    for (kind, number, stage) in stages(plan) {
        for (resource, units) in given(&stage.demand) {
            record(b'S', &[kind, number, resource, units]);
        }
    }
    for (row, &bound) in (1..=u16::from(plan.rows)).zip(&plan.bound) {
        record(b'B', &[row, bound]);
    }
    for row in 1..=u16::from(plan.rows) {
        for (kind, number, stage) in stages(plan) {
            let weight = stage.weight[usize::from(row) - 1];
            if weight != 0 {
                record(b'A', &[row, kind, number, weight.into()]);
            }
        }
    }
    for (resource, rank) in given(&plan.rank) {
        record(b'K', &[resource, rank]);
    }
}

/// The values that are not zero, with their numbers counted from 1.
fn given(values: &[u8]) -> impl Iterator<Item = (u16, u16)> + '_ {
    let numbered = (1..).zip(values.iter().map(|&value| u16::from(value)));
    numbered.filter(|&(_, value)| value != 0)
}

/// The stages with their types and numbers, in the order of both.
fn stages(plan: &Plan) -> impl Iterator<Item = (u16, u16, &Stage)> {
    let mut rest = &plan.stages[..];
    (1..).zip(plan.lengths).flat_map(move |(kind, length)| {
        let (own, later) = rest.split_at(length.into());
        rest = later;
        (1..)
            .zip(own)
            .map(move |(number, stage)| (kind, number, stage))
    })
}

/// Takes the bytes of a record from the beginning of `rest` and writes them.
fn put_record(rest: &mut &mut [u8], letter: u8, fields: &[u16]) {
    put_byte(rest, letter);
    for &field in fields {
        put_byte(rest, b'\t');
        put_number(rest, field);
    }
    put_byte(rest, b'\n');
}

fn put_byte(rest: &mut &mut [u8], byte: u8) {
    take(rest, 1)[0] = byte;
}

fn put_number(rest: &mut &mut [u8], mut number: u16) {
    for digit in take(rest, digit_count(number)).iter_mut().rev() {
        *digit = b'0' + (number % 10) as u8;
        number /= 10;
    }
}

fn take<'a>(rest: &mut &'a mut [u8], count: usize) -> &'a mut [u8] {
    rest.split_off_mut(..count).expect("the text was measured")
}

/// Digits of a number without leading zeros; 0 has one.
fn digit_count(number: u16) -> usize {
    number.checked_ilog10().unwrap_or(0) as usize + 1
}
