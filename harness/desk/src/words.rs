//! What a person is told, in words: what each number means, the slip in a malformed line, and the
//! place of a refused event.

use reference::event::Refusal;
use reference::run::MALFORMED;
use std::fmt::{self, Display};
use std::io::Write;

/// A longer line is malformed whatever it holds.
const LONGEST_LINE: usize = 64;

/// A common slip in a line that is refused for its form.
#[derive(Clone, Copy, Debug, PartialEq, Eq)]
pub enum Slip {
    None,
    CarriageReturn,
    BeyondAscii,
    Spaces,
    UnknownLetter,
    FieldTooMany,
    LongLine,
    NoLineEnd,
}

/// What is said of a slip behind the words of the number.
impl Display for Slip {
    fn fmt(&self, formatter: &mut fmt::Formatter<'_>) -> fmt::Result {
        let what = match self {
            Slip::None => return Ok(()),
            Slip::CarriageReturn => "a CR before the LF",
            Slip::BeyondAscii => "a byte beyond ASCII",
            Slip::Spaces => "spaces where tabs should be",
            Slip::UnknownLetter => "an unknown letter",
            Slip::FieldTooMany => "a field too many",
            Slip::LongLine => "more than 64 bytes",
            Slip::NoLineEnd => "no LF",
        };
        write!(formatter, " (here {what})")
    }
}

/// What a number means, of those that a desk can answer.
pub fn meaning(number: u32) -> &'static str {
    match number {
        1 => "the input has more than 65536 bytes",
        2 => "it does not end with LF, or holds a byte other than a tab and 32 to 126",
        3 => "its letter is not in the list, not C in the first record, or of an earlier section",
        4 => "it has not the right count of fields, each 1 to 5 digits",
        5 => "a number is out of range, or there are more than 128 stages",
        6 => "a record with this key was there before",
        7 => "a C, R, T, S or B is missing, or K is given for some resources only",
        11 => "the plan is not sound: its text was refused",
        13 => "a job number is 1 to 65535",
        14 => "the job to load is active already, or the job to move is not active",
        15 => "the type is not in the plan",
        16 => "64 jobs are active already",
        17 => "an advance needs a next stage, and an unload the last one",
        18 => "a capacity would be exceeded",
        19 => "a row would be broken",
        21 => "every resource must have a rank",
        22 => "every stage must demand exactly one unit of one resource",
        23 => "there must be as many rows as resources",
        24 => "a row must weigh 1 at every stage upstream of its resource, and 0 elsewhere",
        25 => "the bound of a row must be 1 to the capacity of its resource",
        41 => "an event line is L job type, A job, U job or X job, with tabs, 1 to 5 digits and LF",
        _ => panic!("a desk does not answer {number}"),
    }
}

/// The slip in a malformed event line that has its LF; `bytes` are without it.
pub fn event_slip(bytes: &[u8]) -> Slip {
    if bytes.len() > LONGEST_LINE {
        return Slip::LongLine;
    }
    if bytes.ends_with(b"\r") {
        return Slip::CarriageReturn;
    }
    if !bytes.is_ascii() {
        return Slip::BeyondAscii;
    }
    if bytes.contains(&b' ') {
        return Slip::Spaces;
    }
    let wanted = match letter(bytes) {
        b"L" => 2,
        b"A" | b"U" | b"X" => 1,
        _ => return Slip::UnknownLetter,
    };
    match fields(bytes) > wanted {
        true => Slip::FieldTooMany,
        false => Slip::None,
    }
}

/// The bytes before the first tab.
pub fn letter(bytes: &[u8]) -> &[u8] {
    bytes.split(|&byte| byte == b'\t').next().unwrap_or(bytes)
}

/// One after each tab.
pub fn fields(bytes: &[u8]) -> usize {
    bytes.iter().filter(|&&byte| byte == b'\t').count()
}

pub fn tell_refusal(words: &mut Vec<u8>, ordinal: u64, refusal: Refusal) {
    let number = refusal.answer.number;
    let place = refusal.answer.place;
    match number {
        18 => tell(words, ordinal, number, format_args!(": resource {place}")),
        19 => {
            let row = format_args!(": row {place}, by {}", refusal.excess);
            tell(words, ordinal, number, row);
        }
        _ => tell(words, ordinal, number, ""),
    }
}

pub fn tell_malformed(words: &mut Vec<u8>, ordinal: u64, slip: Slip) {
    tell(words, ordinal, MALFORMED.number, slip);
}

/// The line of an event: its ordinal, what the number means, and more.
fn tell(words: &mut Vec<u8>, ordinal: u64, number: u32, more: impl Display) {
    let meaning = meaning(number);
    writeln!(words, "event {ordinal}: {meaning}{more}").expect("a vector takes every write");
}
