//! `celldesk` on random plans and event lines, cut into pieces at random and sent through a pipe:
//! after each piece the answers that are due must be there before the next is sent. In the end its
//! answers are those of the reference, which knows no pieces, and its words those of `plain_desk`.

mod running;

use desk::words::{meaning, Slip};
use desk::{Desk, Said};
use differential::inputs::input;
use differential::random::Random;
use reference::run::{answers, split};
use reference::text::MAX_TEXT;
use running::{program, Running};
use std::thread::sleep;
use std::time::Duration;

const CASES: u64 = 400;
const SEED: u64 = 2026;

/// Long enough for most pieces to be read by themselves.
const PAUSE: Duration = Duration::from_micros(50);

/// Every number that a person is told of; from the empty table there is no way to 12.
const NUMBERS: &[u32] = &[
    1, 2, 3, 4, 5, 6, 7, 11, 13, 14, 15, 16, 17, 18, 19, 21, 22, 23, 24, 25, 41,
];

const SLIPS: &[Slip] = &[
    Slip::CarriageReturn,
    Slip::BeyondAscii,
    Slip::Spaces,
    Slip::UnknownLetter,
    Slip::FieldTooMany,
    Slip::LongLine,
    Slip::NoLineEnd,
];

/// A plan text, and event lines in pieces, with or without pauses between those.
struct Case {
    text: Vec<u8>,
    pieces: Vec<Vec<u8>>,
    pauses: bool,
}

#[test]
fn answers_come_with_their_lines() {
    let program = program();
    let mut said = Said::default();
    let mut pieces = 0;
    for index in 0..CASES {
        let case = any_case(&mut Random::of_case(SEED, index));
        let running = Running::start(&program, &case.text);
        match run_case(running, &case) {
            Ok(found) => {
                said.answers.extend(found.answers);
                said.words.extend(found.words);
            }
            Err(failure) => panic!("case {index} of seed {SEED}: {failure}"),
        }
        pieces += case.pieces.len();
    }
    assert_all_told(&String::from_utf8_lossy(&said.words));
    let lines = said.answers.iter().filter(|&&byte| byte == b'\n').count();
    println!("celldesk: {CASES} inputs in {pieces} pieces, {lines} lines answered");
}

fn run_case(mut running: Running, case: &Case) -> Result<Said, String> {
    let mut due = Said::default();
    let mut desk = Desk::open(&case.text, &mut due);
    running.await_answers(due.answers.len())?;
    for piece in &case.pieces {
        running.send(piece)?;
        let before = due.answers.len();
        desk.read(piece, &mut due);
        running.await_answers(due.answers.len())?;
        if case.pauses && due.answers.len() == before {
            sleep(PAUSE);
        }
    }
    desk.end(&mut due);
    let found = running.end()?;
    let events = case.pieces.concat();
    compare("answers", &answers(&case.text, &events), &found.answers)?;
    compare("answers", &due.answers, &found.answers)?;
    compare("words", &due.words, &found.words)?;
    Ok(found)
}

fn compare(what: &str, expected: &[u8], found: &[u8]) -> Result<(), String> {
    if expected == found {
        return Ok(());
    }
    let expected = String::from_utf8_lossy(expected);
    let found = String::from_utf8_lossy(found);
    Err(format!("{what}: expected\n{expected}\nfound\n{found}"))
}

/// The cases are worth something only if all there is to say was said.
fn assert_all_told(words: &str) {
    for &number in NUMBERS {
        assert!(words.contains(meaning(number)), "no {number} occurred");
    }
    for slip in SLIPS {
        assert!(words.contains(&slip.to_string()), "no{slip} occurred");
    }
}

/// An input of `cellmoves`, at times with too long a plan or a long line, or cut off somewhere.
fn any_case(random: &mut Random) -> Case {
    let input = input(random);
    let (text, events) = split(&input);
    let mut text = text.to_vec();
    if random.chance(2) {
        text.resize(MAX_TEXT + random.between(0, 2), b'\n');
    }
    let mut events = events.to_vec();
    if random.chance(25) {
        add_long_line(random, &mut events);
    }
    if random.chance(25) {
        events.truncate(random.between(events.len() / 2, events.len()));
    }
    Case {
        text,
        pieces: cut(random, &events),
        pauses: random.chance(30),
    }
}

/// Of about 64 bytes, of about as many as are read at a time, or long; skipped or not.
fn add_long_line(random: &mut Random, events: &mut Vec<u8>) {
    let length = random.pick(&[64, 65, 66, 1023, 1024, 1025, 2048, 5000, 100_000]);
    let mut line = vec![random.pick(b"#L0 \t\r\x80"); length];
    line[0] = random.pick(b"#L");
    line[length - 1] = b'\n';
    let after_ends = (1..=events.len()).filter(|&at| events[at - 1] == b'\n');
    let starts: Vec<usize> = [0].into_iter().chain(after_ends).collect();
    let at = random.pick(&starts);
    events.splice(at..at, line);
}

/// Pieces of one byte and more, of a long input not too many.
fn cut(random: &mut Random, events: &[u8]) -> Vec<Vec<u8>> {
    let most = random.pick(&[1, 3, 10, 100, 1500, 200_000]);
    let most = most.max(events.len() / 150);
    let mut pieces = Vec::new();
    let mut rest = events;
    while !rest.is_empty() {
        let length = random.between(1, most).min(rest.len());
        let (piece, later) = rest.split_at(length);
        pieces.push(piece.to_vec());
        rest = later;
    }
    pieces
}
