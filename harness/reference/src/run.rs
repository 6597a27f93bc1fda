//! The whole run of `cellmoves` over its input (document 01, "The program"; the letter X:
//! document 02, S-1).

use crate::event::{Answer, Event};
use crate::table::Table;
use crate::text::{number, read_plan, Reading, MAX_TEXT};
use crate::upstream::check;
use std::fmt::Display;
use std::io::Write;

/// The bytes printed for an input.
pub fn run(input: &[u8]) -> Vec<u8> {
    if input.len() > MAX_TEXT {
        let mut output = Vec::new();
        print(&mut output, "P", &[1, 0]);
        return output;
    }
    let (text, events) = split(input);
    answers(text, events)
}

/// The bytes printed for a plan text and event lines, however long these are.
pub fn answers(text: &[u8], events: &[u8]) -> Vec<u8> {
    let mut output = Vec::new();
    let reading = read_plan(text);
    print_head(&mut output, &reading);
    let plan = reading.plan;
    let mut table = Table::EMPTY;
    let mut ordinal = 0u64;
    for line in events.split_inclusive(|&byte| byte == b'\n') {
        if is_skipped(line) {
            continue;
        }
        ordinal += 1;
        // After a refused plan the plan is empty, not sound: a well-formed event gets 11.
        let answer = match read_event(line) {
            Some(event) => event.apply(&plan, &mut table),
            None => MALFORMED,
        };
        let numbers = [answer.number, answer.place, u32::from(table.count)];
        print(&mut output, ordinal, &numbers);
    }
    output
}

/// The answer to a line of another form, or without its LF.
pub const MALFORMED: Answer = Answer {
    number: 41,
    place: 0,
};

/// The lines about the plan: `P`, and `Q` if it was accepted.
pub fn print_head(output: &mut Vec<u8>, reading: &Reading<'_>) {
    print(output, "P", &[reading.number, reading.line]);
    if reading.number == 0 {
        let checked = check(&reading.plan);
        let numbers = [checked.number, checked.first, checked.second];
        print(output, "Q", &numbers);
    }
}

/// The plan text and the event lines: before and after the first line that is `E` and its LF.
pub fn split(input: &[u8]) -> (&[u8], &[u8]) {
    let mut start = 0;
    for line in input.split_inclusive(|&byte| byte == b'\n') {
        let end = start + line.len();
        if line == b"E\n" {
            return (&input[..start], &input[end..]);
        }
        start = end;
    }
    (input, &[])
}

/// Only lines with their LF are skipped; their other bytes are not asked.
pub fn is_skipped(line: &[u8]) -> bool {
    line == b"\n" || line.starts_with(b"#") && line.ends_with(b"\n")
}

/// The event of a line with its LF, or none if it has another form.
pub fn read_event(line: &[u8]) -> Option<Event> {
    let mut parts = line.strip_suffix(b"\n")?.split(|&byte| byte == b'\t');
    let letter = parts.next()?;
    let job = number(parts.next()?)?;
    let event = match letter {
        b"L" => {
            let kind = number(parts.next()?)?;
            Event::Load { job, kind }
        }
        b"A" => Event::Advance { job },
        b"U" => Event::Unload { job },
        b"X" => Event::Pull { job },
        _ => return None,
    };
    parts.next().is_none().then_some(event)
}

/// One output line: its first field and numbers, parted by tabs.
pub fn print(output: &mut Vec<u8>, first: impl Display, numbers: &[u32]) {
    write!(output, "{first}").expect("a vector takes every write");
    for number in numbers {
        write!(output, "\t{number}").expect("a vector takes every write");
    }
    output.push(b'\n');
}
