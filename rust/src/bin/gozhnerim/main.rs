//! The command `gozhnerim`: answers a request, prints a table or both halves of D, and serves
//! requests line by line.

#![forbid(unsafe_code)]

mod arguments;
mod calls;
mod help;
mod lines;
mod mirror;
mod numbers;
mod output;
mod serve;
mod table;
mod words;

use std::env;
use std::io::{self, ErrorKind, Write};
use std::process::ExitCode;

use arguments::Task;

/// Exit status where a request was refused, a line was bad, a ladder to check is not held, a rung is
/// not mirrored or something failed.
const NOT_ALL_ANSWERED: u8 = 1;
/// Exit status for wrong usage.
const WRONG_USAGE: u8 = 2;

fn main() -> ExitCode {
    let task = match arguments::read(env::args_os().skip(1)) {
        Ok(task) => task,
        Err(message) => {
            say(&message);
            say("`gozhnerim --help` says how it is used");
            return ExitCode::from(WRONG_USAGE);
        }
    };
    match run(task) {
        Ok(all_answered) => ExitCode::from(status(all_answered)),
        Err(error) => {
            // With a broken pipe, whoever read the output wants no more of it.
            if error.kind() != ErrorKind::BrokenPipe {
                say(&format!("standard output cannot be written: {error}"));
            }
            ExitCode::from(NOT_ALL_ANSWERED)
        }
    }
}

/// The exit status of a task that was done.
fn status(all_answered: bool) -> u8 {
    if all_answered { 0 } else { NOT_ALL_ANSWERED }
}

/// Does the task. Gives whether all was answered and mirrored, or why standard output cannot be
/// written.
fn run(task: Task) -> io::Result<bool> {
    match task {
        Task::Print(text) => {
            let mut out = io::stdout().lock();
            out.write_all(text.as_bytes())?;
            out.flush()?;
            Ok(true)
        }
        Task::Pair(call, bits) => calls::print(call, bits),
        Task::Table(request, bits) => table::print(request, bits),
        Task::Mirror(halves, bits) => mirror::print(halves, bits),
        Task::Serve(bits) => serve::standard(bits),
    }
}

/// A message on standard error. One that cannot be written is dropped.
fn say(message: &str) {
    let _ = writeln!(io::stderr(), "gozhnerim: {message}");
}
