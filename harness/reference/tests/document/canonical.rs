//! Plans and their canonical form (document 02, S-3), worked out by hand.

use super::CROSSING;

/// The smallest plan: 8, 6, 6 and 10 bytes.
pub const SMALLEST: &str = "C 1 1 0/R 1 1/T 1 1/S 1 1 1 1/";
pub const SMALLEST_LENGTH: usize = 30;

/// One record of 8 bytes, 11 of 6 and 14 of 10.
pub const CROSSING_LENGTH: usize = 214;

/// The crossing plan with its records in another order, comments, empty lines and leading zeros.
const SHUFFLED: &str = "#/C 003 02 00003//R 3 1/# R 3 1/R 00001 00001/R 2 01/T 2 3/T 01 003/\
    S 2 3 1 1/S 1 2 2 1/S 2 1 3 1/S 00001 00001 00001 00001/S 2 2 2 1/S 1 3 3 1/#B 1 1/B 3 1/\
    B 1 1/B 2 01//A 2 2 2 1/A 3 1 3 1/A 1 1 1 1/A 2 1 2 1/A 3 2 1 1/A 2 2 1 1/A 1 2 3 1/\
    A 2 1 1 1/##/K 2 2/K 3 1/K 1 1///#/";

/// Demands, weights and ranks of 0 are left out: resource 1 is demanded by no stage, row 1 has no
/// weight, row 2 one, and no resource has a rank. Both bounds are 0 and are written.
pub const ZEROS: &str = "C 2 1 2/R 1 1/R 2 1/T 1 2/S 1 1 2 1/S 1 2 2 1/B 1 0/B 2 0/A 2 1 2 1/";

/// Texts in canonical form.
pub const CANONICAL: &[&str] = &[
    SMALLEST,
    CROSSING,
    ZEROS,
    // the later field of a key, or the value, would give another order
    "C 2 2 2/R 1 9/R 2 8/T 1 2/T 2 1/S 1 1 2 7/S 1 2 1 1/S 2 1 1 6/S 2 1 2 5/B 1 7/B 2 0/\
    A 1 1 2 255/A 1 2 1 1/A 2 1 1 10/K 1 255/K 2 1/",
    // 10 comes after 2, and numbers of every length
    "C 10 10 10/R 1 1/R 2 10/R 3 255/R 4 1/R 5 99/R 6 100/R 7 1/R 8 1/R 9 1/R 10 1/\
    T 1 1/T 2 1/T 3 1/T 4 1/T 5 1/T 6 1/T 7 1/T 8 1/T 9 1/T 10 10/\
    S 1 1 1 1/S 2 1 2 10/S 2 1 10 1/S 3 1 3 255/S 4 1 4 1/S 5 1 5 99/S 6 1 6 100/S 7 1 7 1/\
    S 8 1 8 1/S 9 1 9 1/S 10 1 2 9/S 10 1 10 1/S 10 2 1 1/S 10 3 1 1/S 10 4 1 1/S 10 5 1 1/\
    S 10 6 1 1/S 10 7 1 1/S 10 8 1 1/S 10 9 1 1/S 10 10 2 1/S 10 10 10 1/\
    B 1 0/B 2 9/B 3 10/B 4 99/B 5 100/B 6 999/B 7 1000/B 8 9999/B 9 10000/B 10 65535/\
    A 1 2 1 9/A 1 10 2 10/A 1 10 10 99/A 2 1 1 100/A 2 10 1 255/A 10 1 1 1/A 10 9 1 1/\
    A 10 10 1 1/K 1 9/K 2 10/K 3 99/K 4 100/K 5 255/K 6 1/K 7 1/K 8 1/K 9 1/K 10 1/",
    // the highest numbers; stages of a type after one of 32
    "C 1 2 1/R 1 255/T 1 32/T 2 1/S 1 1 1 1/S 1 2 1 1/S 1 3 1 1/S 1 4 1 1/S 1 5 1 1/S 1 6 1 1/\
    S 1 7 1 1/S 1 8 1 1/S 1 9 1 1/S 1 10 1 1/S 1 11 1 1/S 1 12 1 1/S 1 13 1 1/S 1 14 1 1/\
    S 1 15 1 1/S 1 16 1 1/S 1 17 1 1/S 1 18 1 1/S 1 19 1 1/S 1 20 1 1/S 1 21 1 1/S 1 22 1 1/\
    S 1 23 1 1/S 1 24 1 1/S 1 25 1 1/S 1 26 1 1/S 1 27 1 1/S 1 28 1 1/S 1 29 1 1/S 1 30 1 1/\
    S 1 31 1 1/S 1 32 1 1/S 2 1 1 255/B 1 65535/A 1 1 32 2/A 1 2 1 3/K 1 255/",
];

/// The same plan in other words: the records of each section from the last to the first, every
/// number with five digits, and an empty line or a comment before each record.
fn disguised(text: &str) -> String {
    let mut records: Vec<&str> = text.split_terminator('/').collect();
    let sections = records.chunk_by_mut(|one, next| one[..1] == next[..1]);
    sections.for_each(<[&str]>::reverse);
    let mut disguised = String::new();
    for (at, record) in records.iter().enumerate() {
        let (letter, fields) = record.split_once(' ').expect("a record has fields");
        disguised += ["/", "# K 1 0/", "#/"][at % 3];
        disguised += letter;
        for field in fields.split(' ') {
            disguised += &format!(" {field:0>5}");
        }
        disguised += "/";
    }
    disguised
}

/// The canonical form of every text above: as it stands, in other words and shuffled.
pub fn assert_canonical(written: impl Fn(&str) -> Vec<u8>) {
    let assert_written = |text: &str, canonical: &str| {
        let found = String::from_utf8(written(text)).expect("a text is ASCII");
        assert_eq!(found.replace('\t', " ").replace('\n', "/"), canonical);
    };
    for canonical in CANONICAL {
        assert_written(canonical, canonical);
        assert_written(&disguised(canonical), canonical);
    }
    assert_written(SHUFFLED, CROSSING);
}

/// A text of 65,536 bytes in canonical form, with the highest counts and 8 stages in each
/// type. A record has 2 bytes, and for each field 1 and its digits. The numbers 1 to 32 have 55
/// digits, 1 to 16 have 23, so:
///
/// - C 11; R 128 + 55 + 32 = 215; T 64 + 23 + 16 = 103;
/// - S of all 4,096 demands, 1 unit each: 24,576 + 23 * 256 + 4,096 + 55 * 128 + 4,096 = 45,696;
/// - B 128 + 55 + 32 = 215, and 8 more for the bounds of rows 1 to 8, which have two digits;
/// - A of all stages in a row: 768 + 256 + 23 * 8 + 128 + 128 = 1,464, and 128 more if the weights
///   have two digits: for rows 20 to 32, with such weights in rows 20 and 21, 19,032 + 256.
///
/// 11 + 215 + 103 + 45,696 + 223 + 19,288 = 65,536.
pub fn longest() -> String {
    let stages = || (1..=16).flat_map(|kind| (1..=8).map(move |stage| (kind, stage)));
    let mut text = "C 32 16 32/".to_string();
    text.extend((1..=32).map(|resource| format!("R {resource} 1/")));
    text.extend((1..=16).map(|kind| format!("T {kind} 8/")));
    for (kind, stage) in stages() {
        text.extend((1..=32).map(|resource| format!("S {kind} {stage} {resource} 1/")));
    }
    for row in 1..=32 {
        let bound = if row <= 8 { 10 } else { 9 };
        text += &format!("B {row} {bound}/");
    }
    for row in 20..=32 {
        let weight = if row <= 21 { 10 } else { 1 };
        let weights = stages().map(|(kind, stage)| format!("A {row} {kind} {stage} {weight}/"));
        text.extend(weights);
    }
    text
}

/// A row of that plan whose bound has one digit: a second one makes 65,537 bytes.
pub const ROW_OF_ONE_DIGIT: usize = 9;
