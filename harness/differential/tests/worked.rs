//! The worked runs of document 01, pulls, the row that 19 names and the canonical form of a plan
//! (document 02, S-1 to S-3), asked of the library itself, without the reference.

use differential::cells;
use differential::compare::answer;
use differential::guarded::Guarded;
use rilthoss::{offset, Answer, CELL_SIZE, MAX_OUTPUT, STAGE_SIZE};
use std::collections::BTreeSet;

#[path = "../../reference/tests/document/mod.rs"]
mod document;

use document::canonical::{
    assert_canonical, longest, CANONICAL, CROSSING_LENGTH, ROW_OF_ONE_DIGIT, SMALLEST,
    SMALLEST_LENGTH, ZEROS,
};
use document::rows::{crowded, weighed, ADVANCES, LOADS, RUN};
use document::{tabbed, table, CROSSING, EQUATION_40, WITHOUT_ROWS};

fn read(text: &str) -> (Answer, Vec<u8>) {
    let mut bytes = vec![0; CELL_SIZE];
    let answer = rilthoss::read_plan(&mut bytes, &tabbed(text));
    (answer, bytes)
}

/// A cell with a plan and this many jobs at stages 1 to 3 of type 1, then of type 2.
fn cell(text: &str, counts: [u8; 6]) -> Vec<u8> {
    let (read, mut bytes) = read(text);
    assert_eq!(read, answer(0, 0, 0));
    cells::encode_table(&table(counts), &mut bytes);
    bytes
}

/// The jobs of a cell by type and stage.
fn counts(bytes: &[u8]) -> [u8; 6] {
    let mut counts = [0; 6];
    for job in cells::decode_table(bytes).active() {
        counts[(job.kind as usize - 1) * 3 + job.stage as usize - 1] += 1;
    }
    counts
}

fn assert_run(input: &str, printed: &str) {
    let mut output = vec![0; MAX_OUTPUT];
    let length = rilthoss::run(&tabbed(input), &mut output);
    assert_eq!(output[..length], tabbed(printed), "{input}");
}

/// What a run of the crossing plan prints of its events.
fn assert_printed(events: &str, printed: &str) {
    let input = format!("{CROSSING}E/{events}");
    assert_run(&input, &format!("P 0 0/Q 0 0 0/{printed}"));
}

/// An event that is refused writes no byte.
fn assert_refused(before: &[u8], event: impl Fn(&mut [u8]) -> Answer, number: u32, place: u32) {
    let mut after = before.to_vec();
    assert_eq!(event(&mut after), answer(number, place, 0));
    assert_eq!(after, before);
}

fn load(bytes: &mut [u8]) -> Answer {
    rilthoss::load(bytes, 99, 1)
}

/// No byte of a text.
const FILLING: u8 = 0xEE;

/// Answer and buffer after a writing into so many bytes; neither the cell nor what lies around the
/// buffer changes.
fn write(bytes: &[u8], length: usize) -> (Answer, Vec<u8>) {
    let before = bytes.to_vec();
    let mut buffer = Guarded::new(&vec![FILLING; length]);
    let answer = rilthoss::write_plan(bytes, buffer.inner_mut());
    assert_eq!(bytes, before);
    assert_eq!(buffer.check(), Ok(()));
    (answer, buffer.inner().to_vec())
}

/// The text of a cell's plan; what lies beyond it in the buffer stays.
fn written(bytes: &[u8], length: usize) -> Vec<u8> {
    let (found, buffer) = write(bytes, length);
    assert_eq!(found, answer(0, found.place(), 0));
    let (text, beyond) = buffer.split_at(found.length());
    assert!(beyond.iter().all(|&byte| byte == FILLING));
    text.to_vec()
}

/// A refusal has length 0 and writes nothing.
fn assert_unwritten(bytes: &[u8], number: u32, length: usize) {
    let expected = (answer(number, 0, 0), vec![FILLING; length]);
    assert_eq!(write(bytes, length), expected);
}

/// The cell of the longest text with one digit more: 65,537 bytes.
fn too_long() -> Vec<u8> {
    let mut bytes = cell(&longest(), [0; 6]);
    bytes[offset::BOUNDS + 2 * (ROW_OF_ONE_DIGIT - 1)] = 10;
    bytes
}

#[test]
fn whole_run() {
    assert_printed(
        "L 7 1/L 8 2/A 7/L 8 2/A 7/L 8 2/U 7/L 8 2/",
        "1 0 0 1/2 19 2 1/3 0 0 1/4 19 2 1/5 0 0 1/6 18 3 1/7 0 0 0/8 0 0 1/",
    );
}

/// Pulls at stage 1, in mid-route and at the last stage; the first and the last let in a load.
#[test]
fn whole_run_with_pulls() {
    let runs = [
        (
            "L 7 1/L 8 2/X 7/L 8 2/",
            "1 0 0 1/2 19 2 1/3 0 0 0/4 0 0 1/",
        ),
        (
            "L 7 1/A 7/X 7/X 7/L 7 1/X 0/X 65536/",
            "1 0 0 1/2 0 0 1/3 0 0 0/4 14 0 0/5 0 0 1/6 13 0 1/7 13 0 1/",
        ),
        (
            "L 7 1/A 7/A 7/L 8 2/X 7/L 8 2/",
            "1 0 0 1/2 0 0 1/3 0 0 1/4 18 3 1/5 0 0 0/6 0 0 1/",
        ),
        (
            "L 7 1/X/X 7 7/X 000007/x 7/X 00007/X 7",
            "1 0 0 1/2 41 0 1/3 41 0 1/4 41 0 1/5 41 0 1/6 0 0 0/7 41 0 0/",
        ),
    ];
    for (events, printed) in runs {
        assert_printed(events, printed);
    }
}

#[test]
fn texts() {
    let full = "C 1 5 0/R 1 1/T 1 32/T 2 32/T 3 32/T 4 32/";
    let over = format!("{full}T 5 1/");
    let cases = [
        ("", 7, 1),
        ("C 1 1 0/R 1 255/", 7, 3),
        ("C 1 1 0/R 1 256/", 5, 2),
        (full, 7, 7),
        (&over, 5, 7),
    ];
    for (text, number, line) in cases {
        assert_eq!(
            read(text),
            (answer(number, line, 0), vec![0; CELL_SIZE]),
            "{text}"
        );
    }
}

/// The line that a refusal is about, without its LF and by its ends; none for 0, 1 and 7.
#[test]
fn shown_parts() {
    let too_long = format!("#{}", "/".repeat(65_536));
    let cases = [
        (CROSSING, 0..0),
        (&too_long, 0..0),
        ("", 0..0),
        ("C 1 1 0/R 1 255/", 0..0),
        ("C 1 1 0/R 1 256/", 8..15),
        ("#/C 1 1 0/R 1 256/K 1 1/", 10..17),
        ("C 1 1 0/R 1 255", 8..15),
        ("C 1 1 0/R 1 1/C 1 1 0/", 14..21),
        ("c", 0..1),
    ];
    for (text, part) in cases {
        assert_eq!(rilthoss::shown(&tabbed(text)), part, "{text}");
    }
}

#[test]
fn checks() {
    let bound = CROSSING.replace("B 2 1/", "B 2 2/");
    let weight = CROSSING.replace("A 1 2 3 1/", "A 1 2 3 1/A 1 1 2 1/");
    let cases = [
        (CROSSING, answer(0, 0, 0)),
        (&bound, answer(25, 2, 0)),
        (&weight, answer(24, 1, 0)),
        (EQUATION_40, answer(21, 0, 0)),
    ];
    for (text, expected) in cases {
        assert_eq!(rilthoss::check(&cell(text, [0; 6])), expected);
    }
}

/// A state that keeps the rows, and three that break one row each: as tables, and as loads.
#[test]
fn equation_40() {
    let mut kept = cell(EQUATION_40, [1, 0, 0, 1, 1, 0]);
    assert_eq!(rilthoss::unload(&mut kept, 99), answer(14, 0, 0));
    let cases = [
        ([1, 1, 0, 0, 1, 0], 2, [1, 1, 0, 1, 1, 0], 3),
        ([1, 2, 0, 0, 0, 0], 2, [1, 2, 0, 1, 0, 0], 2),
        ([0, 0, 0, 0, 2, 0], 1, [1, 0, 0, 0, 2, 0], 1),
    ];
    for (before, kind, after, row) in cases {
        let mut bytes = cell(EQUATION_40, before);
        assert_eq!(rilthoss::load(&mut bytes, 9, kind), answer(19, row, 0));
        let mut bytes = cell(EQUATION_40, after);
        assert_eq!(rilthoss::unload(&mut bytes, 1), answer(12, 0, 0));
    }
}

#[test]
fn whole_run_with_broken_rows() {
    let (input, output) = RUN;
    assert_run(input, output);
}

/// Rows broken by different amounts and by the same: the one exceeded by the most, of equals the
/// lowest.
#[test]
fn rows_broken_by_a_load() {
    for &(bounds, weights, row, _) in LOADS {
        let empty = cell(&weighed(bounds, &[weights]), [0; 6]);
        assert_refused(&empty, load, 19, row);
    }
}

#[test]
fn rows_broken_by_an_advance() {
    for &(bounds, stages, row, _) in ADVANCES {
        let two = cell(&weighed(bounds, &stages), [2, 0, 0, 0, 0, 0]);
        for job in [1, 2] {
            assert_refused(&two, |bytes| rilthoss::advance(bytes, job), 19, row);
        }
    }
}

/// 63 jobs have 16,065 and 64 have 16,320: excess 254, 255, 255.
#[test]
fn largest_excess_of_an_event() {
    let text = weighed(&[16_066, 16_065, 16_065], &[&[255; 3]]);
    assert_refused(&cell(&text, [63, 0, 0, 0, 0, 0]), load, 19, 2);
}

/// 18 keeps the lowest resource and comes before the rows.
#[test]
fn capacities_before_rows() {
    for (text, number, place) in crowded() {
        assert_refused(&cell(&text, [1, 0, 0, 0, 0, 0]), load, number, place);
    }
}

/// A table whose rows are broken is 12 without a place, also where 64 jobs come to the greatest
/// excess, 16,320.
#[test]
fn rows_broken_before() {
    let two = cell(&weighed(&[5, 2], &[&[3, 3]]), [2, 0, 0, 0, 0, 0]);
    let full = cell(&weighed(&[1, 0], &[&[255; 2]]), [64, 0, 0, 0, 0, 0]);
    for bytes in [two, full] {
        assert_refused(&bytes, load, 12, 0);
        assert_refused(&bytes, |bytes| rilthoss::unload(bytes, 1), 12, 0);
    }
}

#[test]
fn drains() {
    let mut bytes = cell(CROSSING, [1, 0, 0, 0, 0, 0]);
    assert_eq!(rilthoss::drain(&mut bytes, 2), answer(31, 2, 0));
    assert_eq!(counts(&bytes), [0, 0, 1, 0, 0, 0]);
    let mut bytes = cell(CROSSING, [1, 0, 0, 0, 0, 0]);
    assert_eq!(rilthoss::drain(&mut bytes, 3), answer(0, 3, 0));
    assert_eq!(rilthoss::drain(&mut bytes, 0), answer(0, 0, 0));
    assert_eq!(bytes, cell(CROSSING, [0; 6]));
    let mut bytes = cell(WITHOUT_ROWS, [1, 1, 0, 1, 1, 0]);
    assert_eq!(rilthoss::drain(&mut bytes, 5), answer(32, 0, 0));
    assert_eq!(bytes, cell(WITHOUT_ROWS, [1, 1, 0, 1, 1, 0]));
}

#[test]
fn same_resource_advance() {
    let (_, mut bytes) = read("C 1 1 0/R 1 1/T 1 2/S 1 1 1 1/S 1 2 1 1/");
    assert_eq!(rilthoss::load(&mut bytes, 5, 1), answer(0, 0, 0));
    assert_eq!(rilthoss::advance(&mut bytes, 5), answer(0, 0, 0));
}

#[test]
fn full_table() {
    let (_, mut bytes) = read("C 1 1 0/R 1 255/T 1 1/S 1 1 1 1/");
    for job in 1..=64 {
        assert_eq!(rilthoss::load(&mut bytes, job, 1), answer(0, 0, 0));
    }
    assert_eq!(rilthoss::load(&mut bytes, 65, 1), answer(16, 0, 0));
    assert_eq!(rilthoss::load(&mut bytes, 65, 2), answer(15, 0, 0));
    assert_eq!(rilthoss::load(&mut bytes, 64, 2), answer(14, 0, 0));
}

/// A job is pulled at whichever stage it has.
#[test]
fn pulls_at_every_stage() {
    for at in 0..6 {
        let mut one = [0; 6];
        one[at] = 1;
        let mut bytes = cell(CROSSING, one);
        assert_eq!(rilthoss::pull(&mut bytes, 1), answer(0, 0, 0));
        assert_eq!(bytes, cell(CROSSING, [0; 6]));
    }
}

/// The others keep their order: from the locked table one pull leaves jobs 1, 3 and 4, which
/// have 3, 3 and 2 stages before them.
#[test]
fn pull_from_a_locked_table() {
    let mut bytes = cell(WITHOUT_ROWS, [1, 1, 0, 1, 1, 0]);
    assert_eq!(rilthoss::drain(&mut bytes, 9), answer(32, 0, 0));
    assert_eq!(rilthoss::pull(&mut bytes, 2), answer(0, 0, 0));
    let mut left = table([1, 0, 0, 1, 1, 0]);
    left.jobs[1].number = 3;
    left.jobs[2].number = 4;
    assert_eq!(cells::decode_table(&bytes), left);
    assert_eq!(rilthoss::drain(&mut bytes, 9), answer(0, 8, 0));
}

#[test]
fn refused_pulls() {
    let broken = cell(EQUATION_40, [1, 1, 0, 1, 1, 0]);
    let kept = cell(EQUATION_40, [1, 0, 0, 1, 1, 0]);
    let mut unsound = kept.clone();
    unsound[offset::TYPES] = 0;
    let short = kept[..CELL_SIZE - 1].to_vec();
    let cases = [
        (short, 1, 9),
        (unsound, 1, 11),
        (broken, 1, 12),
        (kept.clone(), 0, 13),
        (kept.clone(), 65_536, 13),
        (kept, 99, 14),
    ];
    for (before, job, number) in cases {
        assert_refused(&before, |bytes| rilthoss::pull(bytes, job), number, 0);
    }
}

/// The 47 states of Table 1 in source document 003.
#[test]
fn reachable_states() {
    let mut states = BTreeSet::new();
    let mut open = vec![[0; 6]];
    while let Some(state) = open.pop() {
        if !states.insert(state) {
            continue;
        }
        let before = cell(WITHOUT_ROWS, state);
        let mut visit = |event: &dyn Fn(&mut [u8]) -> Answer| {
            let mut after = before.clone();
            if event(&mut after).number() == 0 {
                open.push(counts(&after));
            }
        };
        visit(&|bytes| rilthoss::load(bytes, 99, 1));
        visit(&|bytes| rilthoss::load(bytes, 99, 2));
        for job in 1..=u32::from(before[offset::JOB_COUNT]) {
            visit(&|bytes| rilthoss::advance(bytes, job));
            visit(&|bytes| rilthoss::unload(bytes, job));
        }
    }
    assert_eq!(states.len(), 47);
}

#[test]
fn canonical_forms() {
    assert_canonical(|text| written(&cell(text, [0; 6]), 65_536));
}

/// By the bytes of its values, without reading a text.
#[test]
fn zeros_are_left_out() {
    let mut bytes = vec![0; CELL_SIZE];
    bytes[..3].copy_from_slice(&[2, 1, 2]);
    bytes[offset::CAPACITIES..][..2].fill(1);
    bytes[offset::LENGTHS] = 2;
    bytes[offset::STAGES + 1] = 1;
    bytes[offset::STAGES + STAGE_SIZE + 1] = 1;
    bytes[offset::STAGES + STAGE_SIZE + 33] = 1;
    assert_eq!(written(&bytes, 65_536), tabbed(ZEROS));
}

/// None, one byte short, just enough, one more. Neither the jobs nor bytes after the cell matter.
#[test]
fn buffers() {
    assert_eq!(tabbed(SMALLEST).len(), SMALLEST_LENGTH);
    assert_eq!(tabbed(CROSSING).len(), CROSSING_LENGTH);
    for text in CANONICAL {
        let length = text.len();
        let bytes = cell(text, [0; 6]);
        let mut crowded = bytes.clone();
        crowded[cells::TABLE..].fill(0xFF);
        crowded.push(0xFF);
        for bytes in [bytes, crowded] {
            for short in [0, 1, length - 1] {
                assert_unwritten(&bytes, 9, short);
            }
            for enough in [length, length + 1, 65_536, 65_537] {
                assert_eq!(written(&bytes, enough), tabbed(text));
            }
        }
    }
}

#[test]
fn longest_text() {
    let bytes = cell(&longest(), [0; 6]);
    for enough in [65_536, 65_537, 200_000] {
        assert_eq!(written(&bytes, enough), tabbed(&longest()));
    }
    assert_unwritten(&bytes, 9, 65_535);
    for any in [0, 65_536, 65_537, 65_538, 200_000] {
        assert_unwritten(&too_long(), 9, any);
    }
}

/// Everything at its highest: 108,791 bytes.
#[test]
fn far_too_long() {
    let mut bytes = cell(&longest(), [0; 6]);
    bytes[offset::CAPACITIES..offset::LENGTHS].fill(0xFF);
    bytes[offset::STAGES..cells::TABLE].fill(0xFF);
    for any in [0, 65_536, 108_790, 108_791, 108_792] {
        assert_unwritten(&bytes, 9, any);
    }
}

/// A cell with a byte changed.
fn changed(text: &str, offset: usize, byte: u8) -> Vec<u8> {
    let mut bytes = cell(text, [0; 6]);
    bytes[offset] = byte;
    bytes
}

/// 9 for a cell that is too short before 11; 11 before 9 for the buffer or for 65,536 bytes.
#[test]
fn unwritten_plans() {
    let mut long = too_long();
    long[offset::STAGES] = 2;
    let unsound = [
        vec![0; CELL_SIZE],
        changed(CROSSING, cells::TABLE - 1, 1),
        changed(CROSSING, offset::STAGES, 2),
        changed(SMALLEST, offset::STAGES, 0),
        changed(ZEROS, offset::RANKS, 1),
        changed(ZEROS, offset::BOUNDS + 4, 1),
        changed(ZEROS, offset::STAGES + 34, 1),
        long,
    ];
    for any in [0, 1, 65_536, 200_000] {
        for bytes in &unsound {
            assert_unwritten(bytes, 11, any);
            assert_unwritten(&bytes[..CELL_SIZE - 1], 9, any);
        }
        for length in [0, 1, cells::TABLE, CELL_SIZE - 1] {
            assert_unwritten(&cell(CROSSING, [0; 6])[..length], 9, any);
        }
    }
}
