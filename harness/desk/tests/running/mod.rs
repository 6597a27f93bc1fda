//! A program that runs with pipes at all three of its ends.

use desk::Said;
use std::env;
use std::fs;
use std::io::{Read, Write};
use std::path::{Path, PathBuf};
use std::process::{Child, ChildStdin, Command, Stdio};
use std::sync::mpsc::{channel, Receiver, RecvTimeoutError};
use std::thread;
use std::time::Duration;

/// What takes longer does not come.
const PATIENCE: Duration = Duration::from_secs(10);

/// The program to test: in target/bin, or in the folder that RILTHOSS_PROGRAMS names.
pub fn program() -> PathBuf {
    let folder = match env::var_os("RILTHOSS_PROGRAMS") {
        Some(folder) => PathBuf::from(folder),
        None => Path::new(env!("CARGO_MANIFEST_DIR")).join("../../target/bin"),
    };
    let program = folder.join("celldesk");
    assert!(
        program.is_file(),
        "there is no program {}: run `host/programs`, or name its folder in RILTHOSS_PROGRAMS",
        program.display()
    );
    program
}

/// Ended when it is dropped.
pub struct Running {
    child: Child,
    input: Option<ChildStdin>,
    answers: Stream,
    words: Stream,
}

impl Running {
    pub fn start(program: &Path, text: &[u8]) -> Running {
        let plan = Path::new(env!("CARGO_TARGET_TMPDIR")).join("plan.txt");
        fs::write(&plan, text).expect("the plan can be written");
        let mut child = Command::new(program)
            .arg(plan)
            .stdin(Stdio::piped())
            .stdout(Stdio::piped())
            .stderr(Stdio::piped())
            .spawn()
            .expect("the program can be started");
        Running {
            input: child.stdin.take(),
            answers: Stream::of(child.stdout.take().expect("it was piped")),
            words: Stream::of(child.stderr.take().expect("it was piped")),
            child,
        }
    }

    pub fn send(&mut self, piece: &[u8]) -> Result<(), String> {
        let mut input = self.input.as_ref().expect("it has not ended");
        input
            .write_all(piece)
            .map_err(|error| format!("the input is not read: {error}"))
    }

    /// Waits until its answers have so many bytes.
    pub fn await_answers(&mut self, length: usize) -> Result<(), String> {
        while self.answers.said.len() < length {
            if !self.answers.await_more()? {
                return Err("it ended before its input did".to_string());
            }
        }
        Ok(())
    }

    /// All that it said, after the end of its input.
    pub fn end(mut self) -> Result<Said, String> {
        self.input = None;
        Ok(Said {
            answers: self.answers.take_all()?,
            words: self.words.take_all()?,
        })
    }
}

impl Drop for Running {
    fn drop(&mut self) {
        // It may have ended by itself.
        let _ = self.child.kill();
        let _ = self.child.wait();
    }
}

/// What comes from the program is read by a thread of its own, so that one can wait for it with
/// patience, and so that the program never waits for us.
struct Stream {
    source: Receiver<Vec<u8>>,
    said: Vec<u8>,
}

impl Stream {
    fn of(mut pipe: impl Read + Send + 'static) -> Stream {
        let (sender, source) = channel();
        thread::spawn(move || {
            let mut buffer = [0; 4096];
            while let Ok(length @ 1..) = pipe.read(&mut buffer) {
                if sender.send(buffer[..length].to_vec()).is_err() {
                    break;
                }
            }
        });
        Stream {
            source,
            said: Vec::new(),
        }
    }

    /// False at the end.
    fn await_more(&mut self) -> Result<bool, String> {
        match self.source.recv_timeout(PATIENCE) {
            Ok(more) => {
                self.said.extend(more);
                Ok(true)
            }
            Err(RecvTimeoutError::Disconnected) => Ok(false),
            Err(RecvTimeoutError::Timeout) => {
                let said = String::from_utf8_lossy(&self.said);
                Err(format!("no more is said after\n{said}"))
            }
        }
    }

    /// Up to its end.
    fn take_all(&mut self) -> Result<Vec<u8>, String> {
        while self.await_more()? {}
        Ok(std::mem::take(&mut self.said))
    }
}
