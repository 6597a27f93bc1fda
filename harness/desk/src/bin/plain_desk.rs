//! `plain_desk PLAN` does what `celldesk PLAN` does: it reads the plan from the file, then event
//! lines from standard input, and answers each as soon as its LF is there.

use desk::{Desk, Said};
use reference::text::MAX_TEXT;
use std::env;
use std::ffi::{OsStr, OsString};
use std::fs::File;
use std::io::{self, stderr, stdin, stdout, IsTerminal, Read, Write};
use std::os::fd::AsFd;
use std::path::Path;
use std::process::ExitCode;

/// So many bytes are read at a time, as by `celldesk`.
const PIECE: usize = 1024;

fn main() -> ExitCode {
    let words: Vec<OsString> = env::args_os().skip(1).collect();
    let [path] = &words[..] else {
        eprintln!("usage: plain_desk PLAN");
        eprintln!("PLAN is a file with a plan text; event lines are read from standard input.");
        return ExitCode::from(2);
    };
    let text = match read_text(path) {
        Ok(text) => text,
        Err(error) => {
            eprintln!("{}: {error}", Path::new(path).display());
            return ExitCode::FAILURE;
        }
    };
    match serve(&text) {
        Ok(()) => ExitCode::SUCCESS,
        Err(error) => {
            eprintln!("{error}");
            ExitCode::FAILURE
        }
    }
}

/// One byte more than a text may have, so that a longer one is noticed.
fn read_text(path: &OsStr) -> io::Result<Vec<u8>> {
    let mut text = Vec::new();
    File::open(path)?
        .take(MAX_TEXT as u64 + 1)
        .read_to_end(&mut text)?;
    Ok(text)
}

fn serve(text: &[u8]) -> io::Result<()> {
    // Rust's own handle would read up to 8 KiB at a time.
    let mut input = File::from(stdin().as_fd().try_clone_to_owned()?);
    let mut said = Said::default();
    let mut desk = Desk::open(text, &mut said);
    say(&mut said)?;
    if input.is_terminal() {
        eprintln!("event lines are awaited: L job type, A job, U job or X job, with tabs");
    }
    let mut piece = [0; PIECE];
    loop {
        let length = input.read(&mut piece)?;
        match length {
            0 => desk.end(&mut said),
            _ => desk.read(&piece[..length], &mut said),
        }
        say(&mut said)?;
        if length == 0 {
            return Ok(());
        }
    }
}

/// Writes out what is said and forgets it. A piece without the end of a line says nothing.
fn say(said: &mut Said) -> io::Result<()> {
    if !said.answers.is_empty() {
        stdout().write_all(&said.answers)?;
        stdout().flush()?;
    }
    if !said.words.is_empty() {
        stderr().write_all(&said.words)?;
    }
    said.answers.clear();
    said.words.clear();
    Ok(())
}
