//! Reading a plan text (document 01, "Plan text", questions 1 to 7).

use crate::plan::{index, Plan, MAX_ROWS, MAX_STAGES};

/// The longest text, and the longest input of the program.
pub const MAX_TEXT: usize = 65_536;

/// The answer to a plan text. `shown` is the offending line, a part of the caller's text.
#[derive(Clone, Debug, PartialEq, Eq)]
pub struct Reading<'a> {
    pub number: u32,
    pub line: u32,
    pub shown: &'a [u8],
    pub plan: Plan,
}

/// The sections in the order in which they come.
#[derive(Clone, Copy, PartialEq, Eq, PartialOrd)]
enum Section {
    C,
    R,
    T,
    S,
    B,
    A,
    K,
}

/// The numbers of a record; those beyond its count of fields are 0.
type Fields = [u32; 4];

/// What has been read so far.
struct Reader {
    plan: Plan,
    /// The section of the record before.
    last: Option<Section>,
    /// Rows with a bound: a bound may be 0, so the plan alone does not tell.
    bounded: [bool; MAX_ROWS],
}

/// Reads a whole text. The first failing line decides, and in it the first failing question.
pub fn read_plan(text: &[u8]) -> Reading<'_> {
    let nothing = &text[..0];
    if text.len() > MAX_TEXT {
        return refusal(1, 0, nothing);
    }
    let mut reader = Reader {
        plan: Plan::EMPTY,
        last: None,
        bounded: [false; MAX_ROWS],
    };
    let mut lines = 0;
    for line in text.split_inclusive(|&byte| byte == b'\n') {
        lines += 1;
        if let Err(number) = reader.read_line(line) {
            return refusal(number, lines, line.strip_suffix(b"\n").unwrap_or(line));
        }
    }
    if !reader.is_complete() {
        return refusal(7, lines + 1, nothing);
    }
    Reading {
        number: 0,
        line: 0,
        shown: nothing,
        plan: reader.plan,
    }
}

/// A field of 1 to 5 digits as a number.
pub fn number(field: &[u8]) -> Option<u32> {
    let is_number = (1..=5).contains(&field.len()) && field.iter().all(u8::is_ascii_digit);
    is_number.then(|| {
        field
            .iter()
            .fold(0, |value, digit| value * 10 + u32::from(digit - b'0'))
    })
}

fn refusal(number: u32, line: u32, shown: &[u8]) -> Reading<'_> {
    Reading {
        number,
        line,
        shown,
        plan: Plan::EMPTY,
    }
}

impl Section {
    fn of(letter: &[u8]) -> Option<Section> {
        match letter {
            b"C" => Some(Section::C),
            b"R" => Some(Section::R),
            b"T" => Some(Section::T),
            b"S" => Some(Section::S),
            b"B" => Some(Section::B),
            b"A" => Some(Section::A),
            b"K" => Some(Section::K),
            _ => None,
        }
    }

    fn field_count(self) -> usize {
        match self {
            Section::R | Section::T | Section::B | Section::K => 2,
            Section::C => 3,
            Section::S | Section::A => 4,
        }
    }
}

impl Reader {
    /// Question 2, and the later ones if the line is a record.
    fn read_line(&mut self, line: &[u8]) -> Result<(), u32> {
        let content = line.strip_suffix(b"\n").ok_or(2u32)?;
        let is_text = content
            .iter()
            .all(|byte| matches!(byte, b'\t' | b' '..=b'~'));
        if !is_text {
            return Err(2);
        }
        if content.is_empty() || content.starts_with(b"#") {
            return Ok(());
        }
        self.read_record(content)
    }

    /// Questions 3 to 6.
    fn read_record(&mut self, content: &[u8]) -> Result<(), u32> {
        let mut parts = content.split(|&byte| byte == b'\t');
        let section = parts.next().and_then(Section::of).ok_or(3u32)?;
        let in_order = match self.last {
            None => section == Section::C,
            Some(last) => section >= last,
        };
        if !in_order {
            return Err(3);
        }
        let fields = read_fields(parts, section.field_count()).ok_or(4u32)?;
        if !self.is_in_range(section, fields) {
            return Err(5);
        }
        self.write(section, fields)?;
        self.last = Some(section);
        Ok(())
    }

    /// Question 5 without the total of 128, which is asked after question 6.
    fn is_in_range(&self, section: Section, fields: Fields) -> bool {
        let plan = &self.plan;
        let [first, second, third, fourth] = fields;
        match section {
            Section::C => (1..=32).contains(&first) && (1..=16).contains(&second) && third <= 32,
            Section::R | Section::K => {
                index(first, plan.resources).is_some() && (1..=255).contains(&second)
            }
            Section::T => index(first, plan.types).is_some() && (1..=32).contains(&second),
            // A resource without its R has capacity 0, so no number of units is in range.
            Section::S => {
                plan.stage_index(first, second).is_some()
                    && index(third, plan.resources).is_some_and(|resource| {
                        (1..=u32::from(plan.capacity[resource])).contains(&fourth)
                    })
            }
            Section::B => index(first, plan.rows).is_some() && second <= 65_535,
            Section::A => {
                index(first, plan.rows).is_some()
                    && plan.stage_index(second, third).is_some()
                    && (1..=255).contains(&fourth)
            }
        }
    }

    /// Question 6, the total of 128, and the record's entry of the plan. The numbers are in
    /// range, so they fit their entries; the types' lengths are final before the first S.
    fn write(&mut self, section: Section, fields: Fields) -> Result<(), u32> {
        let plan = &mut self.plan;
        let [first, second, third, fourth] = fields;
        let at = first as usize - 1;
        match section {
            Section::C => {
                write_once(&mut plan.resources, first)?;
                plan.types = second as u8;
                plan.rows = third as u8;
            }
            Section::R => write_once(&mut plan.capacity[at], second)?,
            Section::T => {
                write_once(&mut plan.lengths[at], second)?;
                if plan.total() > MAX_STAGES {
                    return Err(5);
                }
            }
            Section::S => {
                let stage = plan.stage_index(first, second).ok_or(5u32)?;
                write_once(&mut plan.stages[stage].demand[third as usize - 1], fourth)?;
            }
            Section::B => {
                if self.bounded[at] {
                    return Err(6);
                }
                self.bounded[at] = true;
                plan.bound[at] = second as u16;
            }
            Section::A => {
                let stage = plan.stage_index(second, third).ok_or(5u32)?;
                write_once(&mut plan.stages[stage].weight[at], fourth)?;
            }
            Section::K => write_once(&mut plan.rank[at], second)?,
        }
        Ok(())
    }

    /// Question 7. Ranges, total and zeros beyond the counts hold already, so of soundness only
    /// question 7 remains; the bounds are asked apart because soundness takes them as given.
    fn is_complete(&self) -> bool {
        let rows = usize::from(self.plan.rows);
        self.bounded[..rows].iter().all(|&given| given) && self.plan.is_sound()
    }
}

/// Question 4: exactly `count` fields, each a number.
fn read_fields<'a>(mut parts: impl Iterator<Item = &'a [u8]>, count: usize) -> Option<Fields> {
    let mut fields = [0; 4];
    for field in &mut fields[..count] {
        *field = number(parts.next()?)?;
    }
    parts.next().is_none().then_some(fields)
}

/// Question 6 for entries whose numbers are at least 1: an entry already written holds its key.
fn write_once(entry: &mut u8, value: u32) -> Result<(), u32> {
    if *entry != 0 {
        return Err(6);
    }
    *entry = value as u8;
    Ok(())
}
