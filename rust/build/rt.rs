//! The toolchain's command `rt`.

use std::fs;
use std::io::{self, BufRead, BufReader, ErrorKind, Read};
use std::path::Path;
use std::process::{Child, Command, ExitStatus, Stdio};
use std::sync::{Mutex, MutexGuard, PoisonError};
use std::thread;

use crate::lock::Lock;
use crate::progress::Progress;
use crate::{VARIABLE, WHAT_TO_DO};

/// All that a run wrote.
struct Said {
    out: Vec<u8>,
    err: Vec<u8>,
}

/// The toolchain's identity, if it has one.
pub fn version(root: &Path) -> Result<Option<String>, String> {
    let output = command(root, "version")
        .stdin(Stdio::null())
        .output()
        .map_err(not_run)?;
    let text = String::from_utf8_lossy(&output.stdout).trim().to_string();
    Ok((output.status.success() && !text.is_empty()).then_some(text))
}

/// Proves the library and writes it, while the lock is held.
pub fn library(root: &Path, lock: &Lock) -> Result<(), String> {
    let crates = fs::read_to_string(root.join("crates.txt")).unwrap_or_default();
    let child = lock.as_input().and_then(|input| {
        // The lock is a folder, which `rt` does not take as its standard input.
        Command::new("sh")
            .args(["-c", "exec 9<&0 </dev/null && exec rt lib"])
            .current_dir(root.join("crates/gozhnerim"))
            .stdin(input)
            .stdout(Stdio::piped())
            .stderr(Stdio::piped())
            .spawn()
    });
    let child = child.map_err(not_run)?;
    let progress = Mutex::new(Progress::begin(&crates));
    let (status, said) = followed(child, &progress).map_err(not_run)?;
    if status.success() {
        locked(&progress).end();
        return Ok(());
    }
    Err(failed(status, &said))
}

fn command(folder: &Path, word: &str) -> Command {
    let mut rt = Command::new("rt");
    rt.arg(word).current_dir(folder);
    rt
}

fn not_run(error: io::Error) -> String {
    if error.kind() == ErrorKind::NotFound {
        return format!(
            "{VARIABLE} is not set, and there is no command `rt` to build the library. {WHAT_TO_DO}"
        );
    }
    format!("{VARIABLE} is not set, and the command `rt` cannot be run: {error}. {WHAT_TO_DO}")
}

/// Reads all that the command writes, line by line, until it ends.
fn followed(mut rt: Child, progress: &Mutex<Progress>) -> io::Result<(ExitStatus, Said)> {
    let (out, err) = (rt.stdout.take(), rt.stderr.take());
    let said = thread::scope(|scope| {
        let err = scope.spawn(|| read(err, progress));
        Said {
            out: read(out, progress),
            err: err.join().unwrap_or_default(),
        }
    });
    Ok((rt.wait()?, said))
}

fn read(stream: Option<impl Read>, progress: &Mutex<Progress>) -> Vec<u8> {
    let mut all = Vec::new();
    let Some(mut stream) = stream.map(BufReader::new) else {
        return all;
    };
    let mut seen = 0;
    while stream.read_until(b'\n', &mut all).is_ok() && seen < all.len() {
        locked(progress).see(&all[seen..]);
        seen = all.len();
    }
    all
}

fn locked(progress: &Mutex<Progress>) -> MutexGuard<'_, Progress> {
    progress.lock().unwrap_or_else(PoisonError::into_inner)
}

fn failed(status: ExitStatus, said: &Said) -> String {
    let [out, err] = [&said.out, &said.err].map(|bytes| String::from_utf8_lossy(bytes));
    format!(
        "`rt lib` failed in crates/gozhnerim ({status}). Run it there and mend what it names, \
         or set {VARIABLE} to the full path of a libgozhnerim.a. It wrote:\n{out}{err}"
    )
}
