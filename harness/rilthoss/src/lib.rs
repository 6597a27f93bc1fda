//! Rilthoss for a Rust host: move admission for robot cells, by safe calls of the functions that
//! `host/rilthoss.h` has. `examples/cell.rs` is a host.
//!
//! A cell, that is a plan and a table of active jobs, lives in [`CELL_SIZE`] bytes of the host's own.
//! Any bytes may stand there: what they hold is asked at each call and never trusted. Bytes that are
//! all 0 hold the empty plan and no job. Each function that takes a cell answers [`number::NO_ROOM`]
//! before all else, and writes nothing, if it has fewer bytes; bytes beyond those are neither read nor
//! written.
//!
//! Nothing is kept between calls, so that different cells may be used in different threads at once.

mod answer;
mod layout;
pub mod number;

use std::ops::Range;

pub use answer::Answer;
pub use layout::*;

/// No plan text that is read or written, and no input that is run, has more bytes.
pub const MAX_TEXT: usize = 65_536;

/// No output of [`run`] has more bytes.
pub const MAX_OUTPUT: usize = 491_526;

mod c {
    extern "C" {
        pub fn rilthoss_read_plan(
            cell: *mut u8,
            cell_length: usize,
            text: *const u8,
            text_length: usize,
        ) -> u64;
        pub fn rilthoss_shown(text: *const u8, text_length: usize) -> u64;
        pub fn rilthoss_write_plan(
            cell: *const u8,
            cell_length: usize,
            buffer: *mut u8,
            buffer_length: usize,
        ) -> u64;
        pub fn rilthoss_check(cell: *const u8, cell_length: usize) -> u64;
        pub fn rilthoss_load(cell: *mut u8, cell_length: usize, job: u32, kind: u32) -> u64;
        pub fn rilthoss_advance(cell: *mut u8, cell_length: usize, job: u32) -> u64;
        pub fn rilthoss_unload(cell: *mut u8, cell_length: usize, job: u32) -> u64;
        pub fn rilthoss_pull(cell: *mut u8, cell_length: usize, job: u32) -> u64;
        pub fn rilthoss_drain(cell: *mut u8, cell_length: usize, budget: u32) -> u64;
        pub fn rilthoss_run(
            input: *const u8,
            input_length: usize,
            buffer: *mut u8,
            buffer_length: usize,
        ) -> usize;
    }
}

// SAFETY, for every call below: pointer and length come from one live slice, an exclusive one
// where the function writes; the functions keep no pointer and ask nothing else of the bytes.

/// Reads a plan text into the cell in place of its plan; the jobs stay. 0 accepted, or 1 to 7 and the
/// [line](Answer::line); a refused text puts the empty plan there.
pub fn read_plan(cell: &mut [u8], text: &[u8]) -> Answer {
    unsafe { c::rilthoss_read_plan(cell.as_mut_ptr(), cell.len(), text.as_ptr(), text.len()) }
        .into()
}

/// Of a text that [`read_plan`] refuses, where the line lies that the refusal is about, without its LF:
/// `&text[shown(text)]`. It is `0..0` for an accepted text and for one refused by 1 or 7.
pub fn shown(text: &[u8]) -> Range<usize> {
    let ends = unsafe { c::rilthoss_shown(text.as_ptr(), text.len()) };
    (ends & 0xFFFF_FFFF) as usize..(ends >> 32) as usize
}

/// Writes the cell's plan as text, in its canonical form, to the beginning of the buffer. 0 and the
/// [length](Answer::length), or 11, or 9: the text is longer than the buffer or than [`MAX_TEXT`]. A
/// refusal changes no byte.
pub fn write_plan(cell: &[u8], buffer: &mut [u8]) -> Answer {
    unsafe { c::rilthoss_write_plan(cell.as_ptr(), cell.len(), buffer.as_mut_ptr(), buffer.len()) }
        .into()
}

/// The upstream check of the cell's plan. 0 the plan meets the upstream rule, or 11, 21 to 25; 22 has
/// a type and its stage as [place](Answer::place) and [second place](Answer::second_place), 24 and 25
/// a row.
pub fn check(cell: &[u8]) -> Answer {
    unsafe { c::rilthoss_check(cell.as_ptr(), cell.len()) }.into()
}

/// Puts a job at stage 1 of its type. 0 admitted, or 11 to 16, or 18 with the lowest resource exceeded
/// as its [place](Answer::place), or 19 with the row exceeded by the most, of equals the lowest. A
/// refusal changes no byte.
pub fn load(cell: &mut [u8], job: u32, kind: u32) -> Answer {
    unsafe { c::rilthoss_load(cell.as_mut_ptr(), cell.len(), job, kind) }.into()
}

/// Moves a job to its next stage; answered as a load is, by 17 in place of 15 and 16.
pub fn advance(cell: &mut [u8], job: u32) -> Answer {
    unsafe { c::rilthoss_advance(cell.as_mut_ptr(), cell.len(), job) }.into()
}

/// Takes out a job that is at its last stage: 0, or 11 to 14, or 17. A refusal changes no byte.
pub fn unload(cell: &mut [u8], job: u32) -> Answer {
    unsafe { c::rilthoss_unload(cell.as_mut_ptr(), cell.len(), job) }.into()
}

/// Takes out a job that is scrapped, at whichever stage it is: 0, or 11 to 14. A refusal changes no
/// byte.
pub fn pull(cell: &mut [u8], job: u32) -> Answer {
    unsafe { c::rilthoss_pull(cell.as_mut_ptr(), cell.len(), job) }.into()
}

/// Makes [moves](Answer::moves), each of the earliest loaded job for which one is admitted, at most as
/// many as the budget. 0 no job is left, 31 the budget is spent, 32 no move is admitted, or 11, 12.
pub fn drain(cell: &mut [u8], budget: u32) -> Answer {
    unsafe { c::rilthoss_drain(cell.as_mut_ptr(), cell.len(), budget) }.into()
}

/// The whole run of `cellmoves`, from its input to what it prints. The buffer then begins with the
/// output, and the answer is its length; 0, and the buffer unchanged, if it does not fit.
pub fn run(input: &[u8], buffer: &mut [u8]) -> usize {
    unsafe {
        c::rilthoss_run(
            input.as_ptr(),
            input.len(),
            buffer.as_mut_ptr(),
            buffer.len(),
        )
    }
}
