//! One cell on both sides: each call is made of the library on its bytes and of the reference on
//! its own plan and table, and answer and bytes are compared after every call.

use crate::cells;
use crate::counts::{Counts, Group};
use crate::guarded::Guarded;
use crate::random::Random;
use crate::rows::broken;
use reference::canonical::{text_length, write_plan};
use reference::drain::drain;
use reference::event::{advance, load, pull, unload};
use reference::text::read_plan;
use reference::upstream::check;
use reference::{Plan, Table};
use rilthoss::{Answer, CELL_SIZE};
use std::fmt::Debug;
use std::ops::Range;

#[derive(Clone, Copy, Debug, PartialEq, Eq)]
pub enum Call {
    Check,
    Load { job: u32, kind: u32 },
    Advance { job: u32 },
    Unload { job: u32 },
    Pull { job: u32 },
    Drain { budget: u32 },
}

/// Stands for the length of a text where a plan is not sound and has none.
const WITHOUT_TEXT: usize = 200;

/// A buffer, by the length of what is to be written into it.
#[derive(Clone, Copy, Debug, PartialEq, Eq)]
pub enum Buffer {
    None,
    OneLess,
    More(usize),
    /// So many bytes, whatever is to be written.
    Of(usize),
}

impl Buffer {
    fn length(self, written: usize) -> usize {
        match self {
            Buffer::None => 0,
            Buffer::OneLess => written.saturating_sub(1),
            Buffer::More(more) => written + more,
            Buffer::Of(length) => length,
        }
    }
}

/// A cell with any bytes, of any length.
pub struct Sides<'a> {
    pub plan: Plan,
    pub table: Table,
    counts: &'a mut Counts,
    /// The bytes that the library writes, and those that the reference expects there.
    found: Guarded,
    expected: Vec<u8>,
}

impl Sides<'_> {
    pub fn new(bytes: Vec<u8>, counts: &mut Counts) -> Sides<'_> {
        let mut whole = bytes.clone();
        whole.resize(bytes.len().max(CELL_SIZE), 0);
        Sides {
            plan: cells::decode_plan(&whole),
            table: cells::decode_table(&whole),
            counts,
            found: Guarded::new(&bytes),
            expected: bytes,
        }
    }

    /// Every function answers 9 to a cell that is too short, before anything else.
    fn is_short(&self) -> bool {
        self.expected.len() < CELL_SIZE
    }

    /// Reads a text into the plan; the table's bytes stay.
    pub fn read_plan(&mut self, text: &[u8]) -> Result<Answer, String> {
        let found = rilthoss::read_plan(self.found.inner_mut(), text);
        let expected = if self.is_short() {
            answer(9, 0, 0)
        } else {
            let reading = read_plan(text);
            self.plan = reading.plan;
            cells::encode_plan(&self.plan, &mut self.expected);
            answer(reading.number, reading.line, 0)
        };
        self.counts.add(Group::Text, expected.number());
        self.compare(format_args!("reading"), expected, found)
            .map_err(|difference| format!("{difference}\n  text {}", shown(text)))?;
        Ok(expected)
    }

    /// Writes the plan's text into a buffer. The buffer is filled before with bytes that no text
    /// has; neither the cell nor what lies beyond the text may change. What the library wrote is
    /// returned, nothing if that was refused.
    pub fn write_plan(&mut self, buffer: Buffer, random: &mut Random) -> Result<Vec<u8>, String> {
        let length = self.plan.is_sound().then(|| text_length(&self.plan));
        let mut expected = random.bytes(buffer.length(length.unwrap_or(WITHOUT_TEXT)));
        expected.iter_mut().for_each(|byte| *byte |= 0x80);
        let mut found = Guarded::new(&expected);
        let (due, asked) = if self.is_short() {
            (answer(9, 0, 0), None)
        } else {
            let writing = write_plan(&self.plan, &mut expected);
            (answer(writing.number, writing.length, 0), length)
        };
        self.counts.add_writing(due.number(), asked, expected.len());
        let given = rilthoss::write_plan(self.found.inner(), found.inner_mut());
        self.compare(format_args!("writing"), due, given)
            .and_then(|()| compare_bytes(&expected, found.inner()))
            .and_then(|()| found.check())
            .map_err(|difference| {
                let (expected, found) = (shown(&expected), shown(found.inner()));
                format!("{difference}\n  expected {expected}\n  found {found}")
            })?;
        Ok(found.inner()[..due.length()].to_vec())
    }

    pub fn call(&mut self, call: Call) -> Result<Answer, String> {
        let expected = self.expect(call);
        let found = self.find(call);
        self.counts.add_call(call, expected.number());
        self.compare(call, expected, found)?;
        if expected.number() == 19 {
            self.count_rows(call, expected.place())?;
        }
        Ok(expected)
    }

    /// A refused event leaves the table as it was, so the rows that it would break can be found.
    fn count_rows(&mut self, call: Call, row: u32) -> Result<(), String> {
        let broken = broken(call, &self.plan, &self.table);
        let named = broken.filter(|broken| broken.worst == row);
        let wrong = || format!("{call:?}: both sides name row {row}, but {broken:?}");
        self.counts.add_broken(&named.ok_or_else(wrong)?);
        Ok(())
    }

    /// The reference's answer; its table goes to the expected bytes.
    fn expect(&mut self, call: Call) -> Answer {
        if self.is_short() {
            return answer(9, 0, 0);
        }
        let plan = &self.plan;
        let table = &mut self.table;
        let event = |event: reference::event::Answer| answer(event.number, event.place, 0);
        let expected = match call {
            Call::Check => {
                let checked = check(plan);
                answer(checked.number, checked.first, checked.second)
            }
            Call::Load { job, kind } => event(load(plan, table, job, kind)),
            Call::Advance { job } => event(advance(plan, table, job)),
            Call::Unload { job } => event(unload(plan, table, job)),
            Call::Pull { job } => event(pull(plan, table, job)),
            Call::Drain { budget } => {
                let drained = drain(plan, table, budget);
                answer(drained.number, drained.moves, 0)
            }
        };
        cells::encode_table(&self.table, &mut self.expected);
        expected
    }

    fn find(&mut self, call: Call) -> Answer {
        let bytes = self.found.inner_mut();
        match call {
            Call::Check => rilthoss::check(bytes),
            Call::Load { job, kind } => rilthoss::load(bytes, job, kind),
            Call::Advance { job } => rilthoss::advance(bytes, job),
            Call::Unload { job } => rilthoss::unload(bytes, job),
            Call::Pull { job } => rilthoss::pull(bytes, job),
            Call::Drain { budget } => rilthoss::drain(bytes, budget),
        }
    }

    fn compare(&self, what: impl Debug, expected: Answer, found: Answer) -> Result<(), String> {
        compare_answers(expected, found)
            .and_then(|()| compare_bytes(&self.expected, self.found.inner()))
            .and_then(|()| self.found.check())
            .map_err(|difference| format!("{what:?}: {difference}"))
    }
}

/// The whole run of `cellmoves` on both sides into a buffer. The buffer is filled before,
/// and what lies beyond the output must stay.
pub fn compare_run(
    input: &[u8],
    buffer: Buffer,
    random: &mut Random,
    counts: &mut Counts,
) -> Result<(), String> {
    let printed = reference::run::run(input);
    let length = buffer.length(printed.len());
    let mut expected = random.bytes(length);
    let mut found = Guarded::new(&expected);
    let fits = printed.len() <= length;
    if fits {
        expected[..printed.len()].copy_from_slice(&printed);
        counts.add_output(&printed);
    }
    counts.add(Group::Fit, u32::from(fits));
    let expected_length = if fits { printed.len() } else { 0 };
    let found_length = rilthoss::run(input, found.inner_mut());
    compare_lengths(expected_length, found_length)
        .and_then(|()| compare_bytes(&expected, found.inner()))
        .and_then(|()| found.check())
        .map_err(|difference| {
            let (expected, found) = (shown(&expected), shown(found.inner()));
            let sides = format!("  expected {expected}\n  found {found}");
            format!(
                "run in {length} bytes: {difference}\n  input {}\n{sides}",
                shown(input)
            )
        })
}

/// The part of a text that is shown where it is refused, by its ends.
pub fn compare_shown(text: &[u8], counts: &mut Counts) -> Result<(), String> {
    let reading = read_plan(text);
    counts.add(Group::Shown, reading.number);
    let begin = reading.shown.as_ptr() as usize - text.as_ptr() as usize;
    let expected = begin..begin + reading.shown.len();
    compare_parts(expected, rilthoss::shown(text))
        .map_err(|difference| format!("{difference}\n  text {}", shown(text)))
}

/// The answer with these parts; the first is a place, a line, a length or a count of moves.
pub fn answer(number: u32, first: u32, second: u32) -> Answer {
    let [number, first, second] = [number, first, second].map(u64::from);
    (number | second << 16 | first << 32).into()
}

pub fn compare_answers(expected: Answer, found: Answer) -> Result<(), String> {
    match expected == found {
        true => Ok(()),
        false => Err(format!("expected {expected:?}, found {found:?}")),
    }
}

pub fn compare_parts(expected: Range<usize>, found: Range<usize>) -> Result<(), String> {
    match expected == found {
        true => Ok(()),
        false => Err(format!("expected part {expected:?}, found {found:?}")),
    }
}

pub fn compare_lengths(expected: usize, found: usize) -> Result<(), String> {
    match expected == found {
        true => Ok(()),
        false => Err(format!("expected length {expected}, found {found}")),
    }
}

pub fn compare_bytes(expected: &[u8], found: &[u8]) -> Result<(), String> {
    compare_lengths(expected.len(), found.len())?;
    if expected == found {
        return Ok(());
    }
    let differs = |&offset: &usize| expected[offset] != found[offset];
    let places: Vec<usize> = (0..expected.len()).filter(differs).collect();
    let first = places[0];
    Err(format!(
        "{} bytes differ, first byte {first}: expected {}, found {}",
        places.len(),
        expected[first],
        found[first]
    ))
}

/// Bytes in a form that can be read, shortened.
fn shown(bytes: &[u8]) -> String {
    let most = bytes.len().min(600);
    let more = if most < bytes.len() { "..." } else { "" };
    let length = bytes.len();
    format!(
        "({length} bytes) \"{}\"{more}",
        bytes[..most].escape_ascii()
    )
}

#[cfg(test)]
mod tests {
    use super::*;
    use crate::plans::{conforming, Size};

    #[test]
    fn changed_answers_are_reported() {
        let right = answer(18, 3, 0);
        assert!(compare_answers(right, right).is_ok());
        for wrong in [answer(19, 3, 0), answer(18, 4, 0), answer(18, 3, 1)] {
            assert!(compare_answers(right, wrong).is_err());
        }
        assert!(compare_lengths(5, 5).is_ok());
        assert!(compare_lengths(5, 0).is_err());
        assert!(compare_parts(8..15, 8..15).is_ok());
        for wrong in [0..0, 7..15, 8..14, 8..16] {
            assert!(compare_parts(8..15, wrong).is_err());
        }
    }

    #[test]
    fn every_changed_byte_is_reported() {
        let right = vec![7; CELL_SIZE];
        assert!(compare_bytes(&right, &right).is_ok());
        for offset in 0..CELL_SIZE {
            let mut wrong = right.clone();
            wrong[offset] ^= 1;
            let report = compare_bytes(&right, &wrong).expect_err("a difference");
            assert!(
                report.contains(&format!("first byte {offset}:")),
                "{report}"
            );
        }
        assert!(compare_bytes(&right, &right[1..]).is_err());
    }

    /// A difference in the state that the reference expects shows at the next call.
    #[test]
    fn changed_expectations_are_reported() {
        let mut random = Random::of_case(1, 1);
        let plan = conforming(&mut random, Size::Tiny);
        let bytes = cells::encode(&plan, &Table::EMPTY);
        let mut counts = Counts::default();
        let mut sides = Sides::new(bytes.clone(), &mut counts);
        assert!(sides.call(Call::Check).is_ok());
        sides.plan.rank = [0; 32];
        assert!(sides.call(Call::Check).is_err());
        let mut sides = Sides::new(bytes.clone(), &mut counts);
        sides.expected[5000] ^= 1;
        assert!(sides.call(Call::Check).is_err());
        let mut sides = Sides::new(bytes, &mut counts);
        sides.found.inner_mut()[9107] ^= 1;
        let report = sides.call(Call::Drain { budget: 0 });
        assert!(report.is_err());
    }

    #[test]
    fn changed_writings_are_reported() {
        let mut random = Random::of_case(1, 2);
        let plan = conforming(&mut random, Size::Tiny);
        let bytes = cells::encode(&plan, &Table::EMPTY);
        let mut counts = Counts::default();
        let mut sides = Sides::new(bytes.clone(), &mut counts);
        for buffer in [Buffer::More(9), Buffer::OneLess] {
            assert!(sides.write_plan(buffer, &mut random).is_ok());
        }
        sides.plan.bound[0] ^= 1;
        assert!(sides.write_plan(Buffer::More(9), &mut random).is_err());
        sides.plan.types = 0;
        assert!(sides.write_plan(Buffer::None, &mut random).is_err());
        let mut sides = Sides::new(bytes, &mut counts);
        sides.expected[9107] ^= 1;
        assert!(sides.write_plan(Buffer::More(9), &mut random).is_err());
    }
}
