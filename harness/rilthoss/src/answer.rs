//! An answer of the library, 64 bits, in its parts.

use std::fmt;

/// What a function answered: its number, one of [`crate::number`], and what the function says that
/// it has beside that, which is 0 where it has none.
#[derive(Clone, Copy, PartialEq, Eq)]
pub struct Answer(u64);

impl Answer {
    pub const fn number(self) -> u32 {
        (self.0 & 0xFFFF) as u32
    }

    /// Of an event the resource or row, of a check the type or row.
    pub const fn place(self) -> u32 {
        (self.0 >> 32) as u32
    }

    /// Of a check the stage.
    pub const fn second_place(self) -> u32 {
        (self.0 >> 16 & 0xFFFF) as u32
    }

    /// Of a plan text the line that a refusal is about.
    pub const fn line(self) -> u32 {
        self.place()
    }

    /// Of a written plan the bytes of its text.
    pub const fn length(self) -> usize {
        self.place() as usize
    }

    /// Of a drain the moves made.
    pub const fn moves(self) -> u32 {
        self.place()
    }
}

impl From<u64> for Answer {
    fn from(bits: u64) -> Answer {
        Answer(bits)
    }
}

impl fmt::Debug for Answer {
    fn fmt(&self, formatter: &mut fmt::Formatter<'_>) -> fmt::Result {
        let parts = (self.number(), self.place(), self.second_place());
        write!(formatter, "Answer{parts:?}")
    }
}

#[cfg(test)]
mod tests {
    use super::*;

    #[test]
    fn parts() {
        let answer = Answer::from(24 + 65_536 * 7 + 4_294_967_296 * 9);
        assert_eq!(answer.number(), 24);
        assert_eq!(answer.second_place(), 7);
        assert_eq!([answer.place(), answer.line(), answer.moves()], [9; 3]);
        assert_eq!(answer.length(), 9);
        assert_eq!(format!("{answer:?}"), "Answer(24, 9, 7)");
    }
}
