//! What a person is told of a plan, in one line: of a refused text its line, what the number means
//! and the slip in it; of an accepted one that the cell may deadlock, if the upstream check fails.

use crate::words::{fields, letter, meaning, Slip};
use reference::text::Reading;
use reference::upstream::{check, Check};
use std::io::Write;

pub fn tell(words: &mut Vec<u8>, reading: &Reading<'_>) {
    match reading.number {
        0 => tell_check(words, check(&reading.plan)),
        _ => tell_text(words, reading),
    }
}

fn tell_text(words: &mut Vec<u8>, reading: &Reading<'_>) {
    let meaning = meaning(reading.number);
    let slip = slip(reading.number, reading.shown);
    write!(words, "line {}: {meaning}{slip}", reading.line).expect("a vector takes every write");
    if !reading.shown.is_empty() {
        words.extend_from_slice(b": ");
        words.extend(reading.shown.iter().map(|&byte| visible(byte)));
    }
    words.push(b'\n');
}

/// A byte that could upset a terminal is shown as `?`.
fn visible(byte: u8) -> u8 {
    match byte {
        b'\t' | b' '..=b'~' => byte,
        _ => b'?',
    }
}

/// The slip that fails the question answered.
fn slip(number: u32, shown: &[u8]) -> Slip {
    match number {
        2 => line_slip(shown),
        3 if letter(shown).contains(&b' ') => Slip::Spaces,
        3 if field_count(letter(shown)) == 0 => Slip::UnknownLetter,
        4 if shown.contains(&b' ') => Slip::Spaces,
        4 if fields(shown) > field_count(letter(shown)) => Slip::FieldTooMany,
        _ => Slip::None,
    }
}

fn line_slip(shown: &[u8]) -> Slip {
    if shown.ends_with(b"\r") {
        return Slip::CarriageReturn;
    }
    if !shown.is_ascii() {
        return Slip::BeyondAscii;
    }
    let is_control = |byte: &u8| byte.is_ascii_control() && *byte != b'\t';
    match shown.iter().any(is_control) {
        true => Slip::None,
        false => Slip::NoLineEnd,
    }
}

/// Fields of a record; 0 of an unknown letter.
fn field_count(letter: &[u8]) -> usize {
    match letter {
        b"R" | b"T" | b"B" | b"K" => 2,
        b"C" => 3,
        b"S" | b"A" => 4,
        _ => 0,
    }
}

fn tell_check(words: &mut Vec<u8>, check: Check) {
    let (first, second) = (check.first, check.second);
    let place = match check.number {
        0 => return,
        22 => format!(": stage {second} of type {first} does not"),
        24 => format!(": row {first} does not"),
        25 => format!(": that of row {first} is not"),
        _ => String::new(),
    };
    let meaning = meaning(check.number);
    let locked = "the cell may deadlock although moves are admitted";
    writeln!(words, "{locked}: {meaning}{place}").expect("a vector takes every write");
}
