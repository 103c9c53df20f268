//! Runs the command and keeps what it wrote.

#![allow(dead_code)]

use std::ffi::OsStr;
use std::io::Write;
use std::process::{Command, Output, Stdio};
use std::thread;

pub struct Ran {
    pub status: Option<i32>,
    pub out: String,
    pub err: String,
}

impl From<Output> for Ran {
    fn from(output: Output) -> Self {
        Ran {
            status: output.status.code(),
            out: String::from_utf8(output.stdout).unwrap(),
            err: String::from_utf8(output.stderr).unwrap(),
        }
    }
}

impl Ran {
    pub fn lines(&self) -> Vec<&str> {
        self.out.lines().collect()
    }

    /// No message of a Rust panic.
    pub fn is_calm(&self) -> bool {
        self.status.is_some() && !self.err.contains("panicked") && !self.err.contains("RUST_")
    }
}

pub fn command() -> Command {
    Command::new(env!("CARGO_BIN_EXE_gozhnerim"))
}

/// Runs the command with these words and nothing on standard input.
pub fn run(words: impl IntoIterator<Item: AsRef<OsStr>>) -> Ran {
    let ran = command().args(words).stdin(Stdio::null()).output();
    ran.unwrap().into()
}

/// Runs the command with words that stand in one text.
pub fn run_text(words: &str) -> Ran {
    run(words.split_whitespace())
}

/// Runs `serve` with these words more and this input.
pub fn serve(words: &[&str], input: impl AsRef<[u8]>) -> Ran {
    let input = input.as_ref().to_vec();
    let mut child = command()
        .arg("serve")
        .args(words)
        .stdin(Stdio::piped())
        .stdout(Stdio::piped())
        .stderr(Stdio::piped())
        .spawn()
        .unwrap();
    let mut stdin = child.stdin.take().unwrap();
    let writer = thread::spawn(move || stdin.write_all(&input));
    let ran = child.wait_with_output().unwrap().into();
    writer.join().unwrap().unwrap();
    ran
}
