//! How often each published number occurred, how the rows were broken where it was 19, how the
//! buffer stood to the text where a plan was written, and what never occurred.

use crate::compare::Call;
use crate::rows::Broken;
use reference::text::MAX_TEXT;

/// What is counted by a number: most of it answers a published one.
#[derive(Clone, Copy, Debug, PartialEq, Eq)]
pub enum Group {
    Text,
    /// A text whose shown part was compared, by its answer.
    Shown,
    Load,
    Advance,
    Unload,
    Pull,
    Check,
    Drain,
    /// From the output of whole runs: the P line, the Q line and the event lines.
    RunPlan,
    RunCheck,
    RunEvent,
    /// Whether the output of a run had room: 1 or 0.
    Fit,
    /// Where an event was answered 19: how many rows are broken.
    RowsBroken,
    /// Which of these is named, if they are broken by different amounts.
    RowNamed,
    /// How many of these are equally worst: where the lowest broken row is one of them, and where it
    /// is not.
    WorstFirst,
    WorstLater,
    Write,
    /// What a 9 of the writer was for; both are the buffer and the longest text.
    ShortCell,
    ShortBuffer,
    LongText,
    Both,
    /// A plan that is not sound, and a buffer of no bytes.
    EmptyBuffer,
    /// Bytes that the buffer has beyond the text, or is short of; 2 stands for more.
    BytesLeft,
    BytesShort,
    /// Bytes of a text above 65,535, where the buffer is long enough.
    NearLimit,
    /// The answer to a shuffled text, whose canonical form was then compared.
    Shuffled,
}

const GROUPS: usize = 26;
const NUMBERS: usize = 42;

#[derive(Clone, Debug)]
pub struct Counts {
    numbers: [[u64; NUMBERS]; GROUPS],
}

/// Numbers that must occur, by the name under which they are printed. Several groups are added.
const REQUIRED: &[(&str, &[Group], &[usize])] = {
    use Group::*;
    &[
        ("plan text", &[Text], &[0, 1, 2, 3, 4, 5, 6, 7, 9]),
        ("plan text, shown part", &[Shown], &[0, 1, 2, 3, 4, 5, 6, 7]),
        (
            "event",
            &[Load, Advance, Unload, Pull],
            &[0, 9, 11, 12, 13, 14, 15, 16, 17, 18, 19],
        ),
        ("event, load", &[Load], &[18, 19]),
        ("event, advance", &[Advance], &[18, 19]),
        ("event, pull", &[Pull], &[0, 9, 11, 12, 13, 14]),
        ("check", &[Check], &[0, 9, 11, 21, 22, 23, 24, 25]),
        ("drain", &[Drain], &[0, 9, 11, 12, 31, 32]),
        ("run, P line", &[RunPlan], &[0, 1, 2, 3, 4, 5, 6, 7]),
        ("run, Q line", &[RunCheck], &[0, 21, 22, 23, 24, 25]),
        (
            "run, event line",
            &[RunEvent],
            &[0, 11, 13, 14, 15, 16, 17, 18, 19, 41],
        ),
        ("run, output buffer (1: enough)", &[Fit], &[0, 1]),
        ("19, rows broken", &[RowsBroken], &[1, 2, 3, 4]),
        ("19, unequal, which is named", &[RowNamed], &[1, 2, 3, 4]),
        ("19, equally worst, the first", &[WorstFirst], &[1, 2, 3]),
        ("19, equally worst, later ones", &[WorstLater], &[1, 2, 3]),
        ("writer", &[Write], &[0, 9, 11]),
        ("writer, for the cell", &[ShortCell], &[9]),
        ("writer, for the buffer", &[ShortBuffer], &[9]),
        ("writer, for 65,536 bytes", &[LongText], &[9]),
        ("writer, for both of these", &[Both], &[9]),
        ("writer, buffer of 0 bytes", &[EmptyBuffer], &[11]),
        ("writer, bytes left (2: more)", &[BytesLeft], &[0, 1, 2]),
        ("writer, bytes short (2: more)", &[BytesShort], &[1, 2]),
        ("writer, bytes above 65,535", &[NearLimit], &[0, 1, 2]),
        ("shuffled text", &[Shuffled], &[0]),
    ]
};

impl Default for Counts {
    fn default() -> Counts {
        Counts {
            numbers: [[0; NUMBERS]; GROUPS],
        }
    }
}

impl Counts {
    pub fn add(&mut self, group: Group, number: u32) {
        self.numbers[group as usize][number as usize] += 1;
    }

    pub fn add_call(&mut self, call: Call, number: u32) {
        let group = match call {
            Call::Check => Group::Check,
            Call::Load { .. } => Group::Load,
            Call::Advance { .. } => Group::Advance,
            Call::Unload { .. } => Group::Unload,
            Call::Pull { .. } => Group::Pull,
            Call::Drain { .. } => Group::Drain,
        };
        self.add(group, number);
    }

    /// An answer of the writer in a buffer of so many bytes; with the length of the text, if there
    /// is a sound plan to ask for it.
    pub fn add_writing(&mut self, number: u32, length: Option<usize>, buffer: usize) {
        self.add(Group::Write, number);
        let Some(length) = length else {
            match number {
                9 => self.add(Group::ShortCell, number),
                _ if buffer == 0 => self.add(Group::EmptyBuffer, number),
                _ => {}
            }
            return;
        };
        match (length > buffer, length > MAX_TEXT) {
            (false, false) => self.add(Group::BytesLeft, (buffer - length).min(2) as u32),
            (true, false) => {
                self.add(Group::ShortBuffer, number);
                self.add(Group::BytesShort, (length - buffer).min(2) as u32);
            }
            (false, true) => self.add(Group::LongText, number),
            (true, true) => self.add(Group::Both, number),
        }
        if let (Some(above @ 0..=2), true) = (length.checked_sub(MAX_TEXT - 1), length <= buffer) {
            self.add(Group::NearLimit, above as u32);
        }
    }

    /// The rows that an event answered with 19 would break.
    pub fn add_broken(&mut self, broken: &Broken) {
        self.add(Group::RowsBroken, broken.rows);
        if broken.equals < broken.rows {
            self.add(Group::RowNamed, broken.ordinal);
        }
        let group = match broken.ordinal {
            1 => Group::WorstFirst,
            _ => Group::WorstLater,
        };
        self.add(group, broken.equals);
    }

    /// The numbers in the output of a whole run.
    pub fn add_output(&mut self, output: &[u8]) {
        let output = std::str::from_utf8(output).expect("the output is text");
        for line in output.lines() {
            let mut fields = line.split('\t');
            let group = match fields.next() {
                Some("P") => Group::RunPlan,
                Some("Q") => Group::RunCheck,
                _ => Group::RunEvent,
            };
            let number = fields.next().and_then(|field| field.parse().ok());
            self.add(group, number.expect("every line has an answer"));
        }
    }

    /// How often a number occurred in a group.
    pub fn of(&self, group: Group, number: usize) -> u64 {
        self.numbers[group as usize][number]
    }

    pub fn merge(&mut self, other: &Counts) {
        let counts = self.numbers.iter_mut().flatten();
        for (count, more) in counts.zip(other.numbers.iter().flatten()) {
            *count += more;
        }
    }

    fn required(&self) -> impl Iterator<Item = (&'static str, usize, u64)> + '_ {
        REQUIRED.iter().flat_map(move |&(name, groups, numbers)| {
            numbers.iter().map(move |&number| {
                let counts = groups.iter().map(|&group| self.of(group, number));
                (name, number, counts.sum())
            })
        })
    }

    /// One line per group and number.
    pub fn table(&self) -> String {
        self.required()
            .map(|(name, number, count)| format!("{name:<30} {number:>2} {count:>12}\n"))
            .collect()
    }

    /// Group and number of those that never occurred.
    pub fn missing(&self) -> Vec<String> {
        self.required()
            .filter(|&(_, _, count)| count == 0)
            .map(|(name, number, _)| format!("{name}: {number} never occurred"))
            .collect()
    }
}

#[cfg(test)]
mod tests {
    use super::*;

    #[test]
    fn missing_numbers_are_named() {
        let mut counts = Counts::default();
        let all = counts.missing().len();
        counts.add(Group::Advance, 19);
        let missing = counts.missing();
        assert_eq!(missing.len(), all - 2);
        assert!(!missing.contains(&"event: 19 never occurred".to_string()));
        assert!(missing.contains(&"event, load: 19 never occurred".to_string()));
    }

    /// Rows broken by 2, 5, 5, then by 4, 4, then a single one.
    #[test]
    fn broken_rows_are_counted() {
        let mut counts = Counts::default();
        for [rows, worst, ordinal, equals] in [[3, 8, 2, 2], [2, 5, 1, 2], [1, 1, 1, 1]] {
            counts.add_broken(&Broken {
                rows,
                worst,
                ordinal,
                equals,
            });
        }
        let of = |group: Group| &counts.numbers[group as usize][..4];
        assert_eq!(of(Group::RowsBroken), [0, 1, 1, 1]);
        assert_eq!(of(Group::RowNamed), [0, 0, 1, 0]);
        assert_eq!(of(Group::WorstFirst), [0, 1, 1, 0]);
        assert_eq!(of(Group::WorstLater), [0, 0, 1, 0]);
    }

    /// A short cell; an unsound plan; then texts around 65,536 bytes and buffers around the texts.
    #[test]
    fn writings_are_counted() {
        let mut counts = Counts::default();
        counts.add_writing(9, None, 0);
        counts.add_writing(11, None, 0);
        counts.add_writing(11, None, 5);
        for (length, buffer) in [(30, 30), (30, 31), (65_535, 65_536), (65_536, 99_999)] {
            counts.add_writing(0, Some(length), buffer);
        }
        for (length, buffer) in [(30, 29), (30, 0), (65_537, 65_537), (65_537, 65_536)] {
            counts.add_writing(9, Some(length), buffer);
        }
        let of = |group: Group| {
            let held = (0..NUMBERS).filter(|&number| counts.of(group, number) > 0);
            held.map(|number| (number, counts.of(group, number)))
                .collect::<Vec<_>>()
        };
        assert_eq!(of(Group::Write), [(0, 4), (9, 5), (11, 2)]);
        let reasons = [Group::ShortCell, Group::ShortBuffer, Group::LongText];
        assert_eq!(reasons.map(of), [[(9, 1)], [(9, 2)], [(9, 1)]]);
        assert_eq!(of(Group::Both), [(9, 1)]);
        assert_eq!(of(Group::EmptyBuffer), [(11, 1)]);
        assert_eq!(of(Group::BytesLeft), [(0, 1), (1, 2), (2, 1)]);
        assert_eq!(of(Group::BytesShort), [(1, 1), (2, 1)]);
        assert_eq!(of(Group::NearLimit), [(0, 1), (1, 1), (2, 1)]);
    }

    #[test]
    fn output_lines_are_counted() {
        let mut counts = Counts::default();
        counts.add_output(b"P\t0\t0\nQ\t24\t1\t0\n1\t41\t0\t0\n2\t41\t0\t0\n");
        assert_eq!(counts.numbers[Group::RunEvent as usize][41], 2);
        assert_eq!(counts.numbers[Group::RunCheck as usize][24], 1);
    }
}
