//! Whole inputs of `cellmoves`: a plan text, an E line or something like it, and event lines.

use crate::plans::{self, Room, Size};
use crate::random::Random;
use crate::texts::{change_bytes, damaged, join, lines, skipped, text};

/// The crossing plan of document 01.
pub const CROSSING: &[u8] = b"C\t3\t2\t3\nR\t1\t1\nR\t2\t1\nR\t3\t1\nT\t1\t3\nT\t2\t3\n\
S\t1\t1\t1\t1\nS\t1\t2\t2\t1\nS\t1\t3\t3\t1\nS\t2\t1\t3\t1\nS\t2\t2\t2\t1\nS\t2\t3\t1\t1\n\
B\t1\t1\nB\t2\t1\nB\t3\t1\nA\t1\t1\t1\t1\nA\t1\t2\t3\t1\nA\t2\t1\t1\t1\nA\t2\t1\t2\t1\n\
A\t2\t2\t1\t1\nA\t2\t2\t2\t1\nA\t3\t1\t3\t1\nA\t3\t2\t1\t1\nK\t1\t1\nK\t2\t2\nK\t3\t1\n";

/// Lines that are not `E` and its LF.
const NOT_E: &[&[u8]] = &[
    b"", b"E\r\n", b"E \n", b" E\n", b"E\t\n", b"e\n", b"EE\n", b"#E\n", b"E\0\n",
];

/// Event lines of another form, parted by `|`.
const MALFORMED: &[u8] = b"E|L|L\t|L\t1|L\t1\t|L\t\t1|L\t1\t1\t1|L\t1\t1\t|L\t000001\t1|L\t1\t100000|\
L 1 1|l\t1\t1|A|A\t|A\t1\t1|A\t1\t|A\t100000|A\t1\r|AA\t1|\tA\t1|A\t+1|U|U\t-1|U\t1 |U\t1\t1|U\t1\0|u\t1|\
X|X\t|X\t1\t1|X\t1\t|X\t000001|X\t100000|X\t1\r|XX\t1|\tX\t1|X\t-1|x\t1|Y\t1| |\t|C\t1\t1\t0|\x80|D\t5| #";

/// Last lines without their LF.
const UNENDED: &[&[u8]] = &[b"#", b"# x", b"L\t1\t1", b"A\t1", b"U\t1", b"X\t1"];

/// Any input.
pub fn input(random: &mut Random) -> Vec<u8> {
    if random.chance(4) {
        return filled_table(random);
    }
    let mut input = plan_text(random);
    match random.below(100) {
        0..=91 => input.extend_from_slice(b"E\n"),
        92..=97 => input.extend_from_slice(random.pick(NOT_E)),
        98 => input.extend_from_slice(b"E\nE\n"),
        _ => {
            input.push(b'E');
            return input;
        }
    }
    let count = match random.chance(4) {
        true => 200,
        false => random.below(50),
    };
    let types = random.between(1, 3);
    let mut loaded = Vec::new();
    for _ in 0..count {
        input.extend(event_line(random, types, &mut loaded));
        input.push(b'\n');
    }
    if random.chance(10) {
        change_bytes(random, &mut input);
    }
    if random.chance(2) {
        input.extend_from_slice(random.pick(UNENDED));
    }
    if random.chance(2) {
        pad(random, &mut input);
    }
    input
}

fn plan_text(random: &mut Random) -> Vec<u8> {
    let size = random.pick(&[Size::Tiny, Size::Tiny, Size::Small]);
    match random.below(100) {
        0..=39 => {
            let room = random.pick(&[Room::Tight, Room::Tight, Room::Rows]);
            let plan = plans::general(random, size, room);
            join(&lines(random, &plan))
        }
        40..=69 => {
            let mut plan = plans::conforming(random, size);
            for _ in 0..random.below(3) {
                let number = random.pick(&[21, 22, 23, 24, 24, 24, 25, 25]);
                plans::add_fault(random, &mut plan, number);
            }
            join(&lines(random, &plan))
        }
        70..=79 => CROSSING.to_vec(),
        80..=91 => damaged(random),
        _ => text(random).bytes,
    }
}

/// An event line without its LF. `loaded` holds the numbers that were probably loaded, so that
/// the other events mostly meet active jobs.
fn event_line(random: &mut Random, types: usize, loaded: &mut Vec<usize>) -> Vec<u8> {
    let width = if random.chance(10) {
        random.between(1, 5)
    } else {
        1
    };
    let part = match loaded.is_empty() && random.chance(80) {
        true => 0,
        false => random.below(100),
    };
    let line = match part {
        0..=29 => {
            let job = any_number(random);
            loaded.push(job);
            let kind = match random.below(100) {
                0..=94 => random.between(1, types),
                _ => random.pick(&[0, 17, 257, 65_537, 99_999]),
            };
            format!("L\t{job:0width$}\t{kind:0width$}")
        }
        30..=64 => format!("A\t{:0width$}", loaded_number(random, loaded)),
        65..=86 => {
            let job = loaded_number(random, loaded);
            if random.chance(50) {
                loaded.retain(|&other| other != job);
            }
            let letter = random.pick(&['U', 'U', 'X']);
            format!("{letter}\t{job:0width$}")
        }
        87..=91 => return skipped(random),
        92 => return b"#\x80\r\0".to_vec(),
        _ => return malformed(random),
    };
    line.into_bytes()
}

fn malformed(random: &mut Random) -> Vec<u8> {
    let lines: Vec<&[u8]> = MALFORMED.split(|&byte| byte == b'|').collect();
    random.pick(&lines).to_vec()
}

/// Few job numbers, so that they meet.
fn any_number(random: &mut Random) -> usize {
    match random.below(100) {
        0..=94 => random.between(1, 6),
        _ => random.pick(&[0, 65_535, 65_536, 99_999]),
    }
}

fn loaded_number(random: &mut Random, loaded: &[usize]) -> usize {
    match loaded.is_empty() || random.chance(10) {
        true => any_number(random),
        false => random.pick(loaded),
    }
}

/// More loads than a table holds, under a plan with room for them.
fn filled_table(random: &mut Random) -> Vec<u8> {
    let plan = plans::general(random, Size::Tiny, Room::Wide);
    let mut input = join(&lines(random, &plan));
    input.extend_from_slice(b"E\n");
    for job in 1..=random.between(63, 70) {
        let kind = match random.chance(97) {
            true => random.between(1, usize::from(plan.types)),
            false => 3,
        };
        input.extend(format!("L\t{job}\t{kind}\n").bytes());
        if random.chance(5) {
            input.extend(event_line(random, 2, &mut vec![job]));
            input.push(b'\n');
        }
    }
    input
}

/// Comments at either end up to 65,535, 65,536 or 65,537 bytes.
fn pad(random: &mut Random, input: &mut Vec<u8>) {
    let length: usize = random.pick(&[65_535, 65_536, 65_537, 70_000]);
    let Some(left @ 2..) = length.checked_sub(input.len()) else {
        return;
    };
    let mut comment = vec![b'#'; left];
    comment[left - 1] = b'\n';
    let at = if random.chance(50) { 0 } else { input.len() };
    input.splice(at..at, comment);
}
