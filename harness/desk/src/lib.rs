//! The operator's program in ordinary Rust over the reference: event lines come in pieces cut
//! anywhere, and each is answered as soon as its LF is there. The answers are those of `cellmoves`
//! (document 01, "The program"); of what is refused a person is told in words.

#![forbid(unsafe_code)]

mod plan_words;
pub mod words;

use reference::event::Refusal;
use reference::run::{is_skipped, print, print_head, read_event, MALFORMED};
use reference::text::read_plan;
use reference::{Plan, Table};
use words::Slip;

/// What goes to standard output, and what to standard error.
#[derive(Debug, Default)]
pub struct Said {
    pub answers: Vec<u8>,
    pub words: Vec<u8>,
}

/// What is kept from one piece of the input to the next.
pub struct Desk {
    plan: Plan,
    table: Table,
    /// Lines counted so far.
    ordinal: u64,
    /// The beginning of the line whose LF has not come yet.
    held: Vec<u8>,
}

impl Desk {
    /// The desk of a plan text, and the lines about the plan.
    pub fn open(text: &[u8], said: &mut Said) -> Desk {
        let reading = read_plan(text);
        print_head(&mut said.answers, &reading);
        plan_words::tell(&mut said.words, &reading);
        Desk {
            plan: reading.plan,
            table: Table::EMPTY,
            ordinal: 0,
            held: Vec::new(),
        }
    }

    /// A piece of the input: the answers of all lines whose LF it brings.
    pub fn read(&mut self, piece: &[u8], said: &mut Said) {
        for part in piece.split_inclusive(|&byte| byte == b'\n') {
            self.held.extend_from_slice(part);
            if part.ends_with(b"\n") {
                self.answer_held(said);
                self.held.clear();
            }
        }
    }

    /// The end of the input: what is held has no LF.
    pub fn end(&mut self, said: &mut Said) {
        if !self.held.is_empty() {
            self.ordinal += 1;
            self.malformed(Slip::NoLineEnd, said);
        }
    }

    fn answer_held(&mut self, said: &mut Said) {
        if is_skipped(&self.held) {
            return;
        }
        self.ordinal += 1;
        let Some(event) = read_event(&self.held) else {
            let bytes = &self.held[..self.held.len() - 1];
            return self.malformed(words::event_slip(bytes), said);
        };
        match event.attempt(&self.plan, &mut self.table) {
            Ok(()) => self.print(0, 0, said),
            Err(refusal) => self.refused(refusal, said),
        }
    }

    fn refused(&self, refusal: Refusal, said: &mut Said) {
        self.print(refusal.answer.number, refusal.answer.place, said);
        words::tell_refusal(&mut said.words, self.ordinal, refusal);
    }

    fn malformed(&self, slip: Slip, said: &mut Said) {
        self.print(MALFORMED.number, MALFORMED.place, said);
        words::tell_malformed(&mut said.words, self.ordinal, slip);
    }

    fn print(&self, number: u32, place: u32, said: &mut Said) {
        let numbers = [number, place, u32::from(self.table.count)];
        print(&mut said.answers, self.ordinal, &numbers);
    }
}
