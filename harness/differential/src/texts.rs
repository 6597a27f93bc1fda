//! Plan texts: sound plans written out in many ways, damaged texts, and texts at the limits.

use crate::plans::{self, Room, Size};
use crate::random::Random;
use reference::Plan;

/// Lines without their LF.
pub type Lines = Vec<Vec<u8>>;

/// A letter and its numbers.
type Record = (char, Vec<u32>);

const LIMIT: usize = 65_536;

/// Bytes that mean something in a text, or lie just outside of what it may hold.
const BYTES: &[u8] = b"\t\n\r 0159#CRTSBAKELUX!~/:@\x00\x1f\x7f\x80\xff";

/// Numbers at the ends of ranges, and fields that are no numbers, parted by `|`.
const FIELDS: &str = "0|1|2|3|15|16|17|31|32|33|64|65|127|128|129|254|255|256|257|511|512|65534|\
    65535|65536|65537|99999|100000|4294967297||-1|+1| 1|1 |0x1|00001|00000|000001|1.0|A|00255";

/// How a plan is written out.
struct Style {
    shuffled: bool,
    zeros: bool,
    /// Percentage of lines before which a comment or an empty line stands.
    skipped: usize,
}

/// A text and, if it must be accepted, the plan it gives.
pub struct Text {
    pub bytes: Vec<u8>,
    pub accepted: Option<Plan>,
}

/// Any text.
pub fn text(random: &mut Random) -> Text {
    let refused = |bytes| Text {
        bytes,
        accepted: None,
    };
    match random.below(100) {
        0..=29 => valid(random),
        30..=84 => refused(damaged(random)),
        85..=89 => refused(totals(random)),
        90..=92 => at_limit(random),
        93..=95 => {
            let length = random.below(100);
            refused(random.bytes(length))
        }
        _ => refused(alphabet(random)),
    }
}

/// A sound plan written out; too long a text is not promised to be accepted.
fn valid(random: &mut Random) -> Text {
    let plan = plans::plan(random);
    let bytes = join(&lines(random, &plan));
    let fits = bytes.len() <= LIMIT;
    Text {
        bytes,
        accepted: fits.then_some(plan),
    }
}

/// The lines of a plan's text in a random style.
pub fn lines(random: &mut Random, plan: &Plan) -> Lines {
    let style = Style {
        shuffled: random.chance(60),
        zeros: random.chance(20),
        skipped: random.pick(&[0, 0, 0, 5, 30]),
    };
    styled(random, plan, &style)
}

/// A text that gives this plan: each section shuffled and, if 65,536 bytes are enough for them,
/// with leading zeros and skipped lines. None if not even the records have room.
pub fn shuffled(random: &mut Random, plan: &Plan) -> Option<Vec<u8>> {
    let zeros = random.chance(80);
    let skipped = random.pick(&[0, 5, 30, 60]);
    let styles = [(zeros, skipped), (false, 5), (false, 0)];
    for (zeros, skipped) in styles {
        let style = Style {
            shuffled: true,
            zeros,
            skipped,
        };
        let mut lines = styled(random, plan, &style);
        if join(&lines).len() <= LIMIT {
            if random.chance(3) {
                fill_up(random, &mut lines, LIMIT);
            }
            return Some(join(&lines));
        }
    }
    None
}

/// The records of an accepted text by section and numbers, without leading zeros: its plan's
/// canonical form, by the text alone. Keys come first and differ, so the values do not decide.
pub fn sorted(text: &[u8]) -> Vec<u8> {
    let text = std::str::from_utf8(text).expect("an accepted text is ASCII");
    let is_record = |line: &&str| !line.is_empty() && !line.starts_with('#');
    let mut records: Vec<(Option<usize>, Vec<u32>, &str)> = Vec::new();
    for line in text.lines().filter(is_record) {
        let (letter, fields) = line.split_once('\t').expect("a record has fields");
        let number = |field: &str| field.parse().expect("a field is a number");
        let numbers = fields.split('\t').map(number).collect();
        records.push(("CRTSBAK".find(letter), numbers, letter));
    }
    records.sort();
    let mut sorted = String::new();
    for (_, numbers, letter) in records {
        sorted.push_str(letter);
        for number in numbers {
            sorted.push_str(&format!("\t{number}"));
        }
        sorted.push('\n');
    }
    sorted.into_bytes()
}

fn styled(random: &mut Random, plan: &Plan, style: &Style) -> Lines {
    let mut lines = Vec::new();
    for mut section in sections(plan) {
        if style.shuffled {
            random.shuffle(&mut section);
        }
        for (letter, numbers) in section {
            while random.chance(style.skipped) {
                lines.push(skipped(random));
            }
            lines.push(record(random, style, letter, &numbers));
        }
    }
    while random.chance(style.skipped) {
        lines.push(skipped(random));
    }
    lines
}

/// The records of each section in number order.
fn sections(plan: &Plan) -> [Vec<Record>; 7] {
    let counts = [plan.resources, plan.types, plan.rows].map(u32::from);
    let bounds = (1..).zip(&plan.bound[..usize::from(plan.rows)]);
    [
        vec![('C', counts.to_vec())],
        given('R', &plan.capacity),
        given('T', &plan.lengths),
        demands(plan),
        bounds
            .map(|(row, &bound)| ('B', vec![row, bound.into()]))
            .collect(),
        weights(plan),
        given('K', &plan.rank),
    ]
}

fn given(letter: char, values: &[u8]) -> Vec<Record> {
    let held = (1..).zip(values).filter(|(_, &value)| value != 0);
    held.map(|(number, &value)| (letter, vec![number, value.into()]))
        .collect()
}

fn demands(plan: &Plan) -> Vec<Record> {
    let mut records = Vec::new();
    for (stage, (kind, number)) in plan.stages.iter().zip(stage_numbers(plan)) {
        let held = (1..).zip(&stage.demand).filter(|(_, &units)| units != 0);
        for (resource, &units) in held {
            records.push(('S', vec![kind, number, resource, units.into()]));
        }
    }
    records
}

fn weights(plan: &Plan) -> Vec<Record> {
    let mut records = Vec::new();
    for (stage, (kind, number)) in plan.stages.iter().zip(stage_numbers(plan)) {
        let held = (1..).zip(&stage.weight).filter(|(_, &weight)| weight != 0);
        for (row, &weight) in held {
            records.push(('A', vec![row, kind, number, weight.into()]));
        }
    }
    records
}

/// Type and stage of each stage in the plan's order.
fn stage_numbers(plan: &Plan) -> Vec<(u32, u32)> {
    let types = (1u32..).zip(plan.lengths);
    types
        .flat_map(|(kind, length)| (1..=u32::from(length)).map(move |stage| (kind, stage)))
        .collect()
}

fn record(random: &mut Random, style: &Style, letter: char, numbers: &[u32]) -> Vec<u8> {
    let mut line = vec![letter as u8];
    for number in numbers {
        line.push(b'\t');
        let width = if style.zeros { random.between(1, 5) } else { 1 };
        line.extend(format!("{number:0width$}").bytes());
    }
    line
}

/// An empty line or a comment.
pub fn skipped(random: &mut Random) -> Vec<u8> {
    random
        .pick(&[&b""[..], b"#", b"# a comment", b"#\tC\t1\t1\t0", b"##~ "])
        .to_vec()
}

pub fn join(lines: &[Vec<u8>]) -> Vec<u8> {
    let mut bytes = Vec::new();
    for line in lines {
        bytes.extend_from_slice(line);
        bytes.push(b'\n');
    }
    bytes
}

/// A text with one to three changes.
pub fn damaged(random: &mut Random) -> Vec<u8> {
    let plan = plans::plan(random);
    let mut lines = lines(random, &plan);
    let changes = random.pick(&[1, 1, 1, 2, 3]);
    let in_lines = random.between(0, changes);
    for _ in 0..in_lines {
        change_lines(random, &plan, &mut lines);
    }
    let mut bytes = join(&lines);
    for _ in in_lines..changes {
        change_bytes(random, &mut bytes);
    }
    bytes
}

/// A line of some letter, so that short sections are met as often as long ones, or any line.
fn pick_line(random: &mut Random, lines: &Lines) -> usize {
    let letter = random.pick(b"CRTSBAK#");
    let is_found = |&at: &usize| lines[at].first() == Some(&letter);
    let found: Vec<usize> = (0..lines.len()).filter(is_found).collect();
    match found.is_empty() || random.chance(20) {
        true => random.below(lines.len()),
        false => random.pick(&found),
    }
}

/// One change of whole lines or of the fields of a line.
fn change_lines(random: &mut Random, plan: &Plan, lines: &mut Lines) {
    if lines.is_empty() {
        return;
    }
    let at = pick_line(random, lines);
    let other = random.below(lines.len());
    let next = (at + 1) % lines.len();
    match random.below(16) {
        0..=2 => drop(lines.remove(at)),
        3 => lines.insert(at + 1, lines[at].clone()),
        4 => lines.insert(other, lines[at].clone()),
        5 => {
            let mut again = lines[at].clone();
            change_fields(&mut again, |fields| put_in_range(random, plan, fields));
            lines.insert(at + 1, again);
        }
        6 => lines.swap(at, other),
        7 => lines.swap(at, next),
        8 => lines.truncate(at),
        9 => lines.insert(other.min(3), second_c(random)),
        10 => {
            let letter = random.pick(&["C", "R", "T", "S", "B", "A", "K", "E", "c", "", "RR"]);
            change_fields(&mut lines[at], |fields| fields[0] = letter.into());
        }
        11 => change_fields(&mut lines[at], |fields| {
            fields.insert(random.between(1, fields.len()), "1".into());
        }),
        12 => change_fields(&mut lines[at], |fields| {
            fields.remove(random.below(fields.len()));
        }),
        13 => change_bytes(random, &mut lines[at]),
        _ => change_fields(&mut lines[at], |fields| change_number(random, plan, fields)),
    }
}

fn change_fields(line: &mut Vec<u8>, change: impl FnOnce(&mut Lines)) {
    let parts = line.split(|&byte| byte == b'\t');
    let mut fields: Lines = parts.map(<[u8]>::to_vec).collect();
    change(&mut fields);
    *line = fields.join(&b'\t');
}

/// Puts another number or no number in a field: mostly one at or just beyond an end of its range.
fn change_number(random: &mut Random, plan: &Plan, fields: &mut Lines) {
    if fields.len() < 2 {
        return;
    }
    let at = random.between(1, fields.len() - 1);
    let (low, high) = range(plan, fields, at);
    let ends = [low.saturating_sub(1), low, high, high + 1];
    fields[at] = match random.chance(75) {
        true => random.pick(&ends).to_string().into(),
        false => random.pick(&FIELDS.split('|').collect::<Vec<_>>()).into(),
    };
}

/// Puts another number of its range in the last field.
fn put_in_range(random: &mut Random, plan: &Plan, fields: &mut Lines) {
    let at = fields.len() - 1;
    if at > 0 {
        let (low, high) = range(plan, fields, at);
        fields[at] = random.pick(&[low, high]).to_string().into();
    }
}

/// Lowest and highest number of a field of a record.
fn range(plan: &Plan, fields: &Lines, at: usize) -> (usize, usize) {
    let value = |at: usize| {
        let text = fields.get(at).map(|field| String::from_utf8_lossy(field));
        text.and_then(|text| text.parse().ok()).unwrap_or(0usize)
    };
    let of = |values: &[u8], number: usize| {
        let value = values.get(number.wrapping_sub(1));
        usize::from(*value.unwrap_or(&1))
    };
    let letter = fields[0].first().copied().unwrap_or(b' ');
    match (letter, at) {
        (b'C', 2) => (1, 16),
        (b'C', 3) => (0, 32),
        (b'R' | b'K', 1) | (b'S', 3) => (1, plan.resources.into()),
        (b'T' | b'S', 1) | (b'A', 2) => (1, plan.types.into()),
        (b'B' | b'A', 1) => (1, plan.rows.into()),
        (b'S', 2) => (1, of(&plan.lengths, value(1))),
        (b'A', 3) => (1, of(&plan.lengths, value(2))),
        (b'S', 4) => (1, of(&plan.capacity, value(3))),
        (b'B', 2) => (0, 65_535),
        (b'R' | b'K', 2) | (b'A', 4) => (1, 255),
        _ => (1, 32),
    }
}

fn second_c(random: &mut Random) -> Vec<u8> {
    random
        .pick(&["C\t1\t1\t0", "C\t32\t16\t32", "C\t33\t1\t0", "C\t1\t1", "C"])
        .into()
}

/// One change of single bytes, or of where the text ends.
pub fn change_bytes(random: &mut Random, bytes: &mut Vec<u8>) {
    if bytes.is_empty() {
        return;
    }
    let at = random.below(bytes.len());
    let byte = match random.chance(80) {
        true => random.pick(BYTES),
        false => random.byte(),
    };
    match random.below(10) {
        0..=3 => bytes[at] = byte,
        4..=5 => bytes.insert(at, byte),
        6..=7 => drop(bytes.remove(at)),
        8 => bytes.truncate(at),
        _ => drop(bytes.pop()),
    }
}

/// Types whose stages together come near to 128, with repeated ones.
fn totals(random: &mut Random) -> Vec<u8> {
    let types = random.between(4, 16);
    let mut lines: Lines = vec![format!("C\t1\t{types}\t0").into(), b"R\t1\t1".to_vec()];
    let mut total = 0;
    for kind in 1..=types {
        let left = 128usize.saturating_sub(total);
        let exact = left.clamp(1, 32);
        let length = random.pick(&[1, 32, 32, exact, (exact + 1).min(32), 33]);
        lines.push(format!("T\t{kind}\t{length}").into());
        total += length;
        if random.chance(10) {
            let again = random.between(1, kind);
            let length = random.pick(&[0, 1, 32, 33]);
            lines.push(format!("T\t{again}\t{length}").into());
        }
    }
    join(&lines)
}

/// A text filled up with comments to 65,535, 65,536 or 65,537 bytes.
fn at_limit(random: &mut Random) -> Text {
    let size = random.pick(&[Size::Tiny, Size::Small, Size::Medium]);
    let plan = plans::general(random, size, Room::Any);
    let mut lines = lines(random, &plan);
    let length = random.pick(&[LIMIT - 1, LIMIT, LIMIT, LIMIT + 1]);
    fill_up(random, &mut lines, length);
    Text {
        bytes: join(&lines),
        accepted: (length <= LIMIT).then_some(plan),
    }
}

/// Puts comments and empty lines anywhere, and one at the end, until the text has this length.
fn fill_up(random: &mut Random, lines: &mut Lines, length: usize) {
    let mut left = length - join(lines).len();
    while left > 0 {
        let most = random.pick(&[1, 80, 40_000]);
        let line = left.min(random.between(1, most));
        left -= line;
        let mut comment = vec![random.pick(b"\t ~x0"); line - 1];
        if let Some(first) = comment.first_mut() {
            *first = b'#';
        }
        let at = if left == 0 {
            lines.len()
        } else {
            random.below(lines.len() + 1)
        };
        lines.insert(at, comment);
    }
}

/// Random characters of those that texts are made of.
fn alphabet(random: &mut Random) -> Vec<u8> {
    let length = random.below(120);
    let mut bytes: Vec<u8> = (0..length)
        .map(|_| random.pick(b"\t\t\t\n\n0112CRTSBAK#"))
        .collect();
    if random.chance(50) {
        bytes.splice(0..0, *b"C\t2\t2\t1\n");
    }
    bytes
}

#[cfg(test)]
mod tests {
    use super::*;

    #[test]
    fn records_are_sorted() {
        let text = b"#\nC\t2\t01\t00\n\nR\t2\t010\nR\t1\t9\nT\t1\t11\n\
            S\t1\t10\t1\t1\nS\t1\t2\t2\t3\n# S\nS\t1\t2\t1\t4\nK\t1\t1\n";
        let expected = b"C\t2\t1\t0\nR\t1\t9\nR\t2\t10\nT\t1\t11\n\
            S\t1\t2\t1\t4\nS\t1\t2\t2\t3\nS\t1\t10\t1\t1\nK\t1\t1\n";
        assert_eq!(sorted(text), expected);
    }

    /// Their length, and that of their canonical form, by the text alone.
    #[test]
    fn plans_of_a_text_length() {
        for length in [10_000, 65_535, 65_536, 65_537, 90_000] {
            let mut random = Random::of_case(1, length as u64);
            let plan = plans::with_text_length(&mut random, length);
            assert!(plan.is_sound());
            let text = join(&lines(&mut random, &plan));
            assert_eq!(sorted(&text).len(), length);
            let text = shuffled(&mut random, &plan);
            assert_eq!(text.is_some(), length <= LIMIT);
            assert!(text.is_none_or(|text| text.len() <= LIMIT));
        }
    }
}
