//! What a user sees while the library is proved.

use std::collections::{HashMap, HashSet};
use std::env;
use std::fs::OpenOptions;
use std::io::{self, Write};
use std::time::Instant;

/// Writes a line to standard error, and to the terminal if there is one, as cargo shows what this
/// program writes only after it has ended. With CARGO_TERM_QUIET=true none goes to the terminal.
pub fn say(text: &str) {
    // There may be nobody left to read it; the proving goes on.
    let _ = writeln!(io::stderr(), "gozhnerim: {text}");
    if env::var_os("CARGO_TERM_QUIET").is_some_and(|quiet| quiet == "true") {
        return;
    }
    if let Ok(mut terminal) = OpenOptions::new().write(true).open("/dev/tty") {
        // The line takes the place of cargo's progress bar, which cargo draws again below it.
        let line = format!("\r\x1b[Kgozhnerim: {text}\n");
        let _ = terminal.write_all(line.as_bytes());
    }
}

/// How far a run of `rt lib` is.
pub struct Progress {
    needed: Option<usize>,
    proved: usize,
    /// The crate whose verdict comes next, and whether anything in it was proved in this run.
    judged: Option<(String, bool)>,
    began: Instant,
}

impl Progress {
    /// Begins a run over the crates that the text of crates.txt lists.
    pub fn begin(crates: &str) -> Self {
        let needed = needed(crates);
        let count = needed.map_or(String::new(), |count| format!("{count} crates, "));
        say(&format!(
            "proving the library: {count}some minutes the first time"
        ));
        Progress {
            needed,
            proved: 0,
            judged: None,
            began: Instant::now(),
        }
    }

    /// Takes in a line that `rt` wrote, and says so if it proved a crate: a line names the crate
    /// and how many modules were checked, and one after it has the verdict. A crate that it had
    /// proved before is only counted, unless it is the last but gozhnerim.
    pub fn see(&mut self, line: &[u8]) {
        let line = String::from_utf8_lossy(line);
        let named = line
            .strip_prefix("crate ")
            .and_then(|rest| rest.split_once(": modules "));
        if let Some((name, counts)) = named {
            self.judged = Some((name.to_string(), !counts.trim_end().ends_with("checked=0")));
            return;
        }
        if !line.starts_with("logic=") {
            return;
        }
        let Some((name, anew)) = self.judged.take() else {
            return;
        };
        if !line.starts_with("logic=proved") {
            return;
        }
        self.proved += 1;
        if !anew && self.needed != Some(self.proved + 1) {
            return;
        }
        let count = match self.needed {
            Some(needed) => format!("{} of {needed} crates", self.proved),
            None => format!("crate {}", self.proved),
        };
        let seconds = self.began.elapsed().as_secs();
        say(&format!(
            "proving the library: {count}, {seconds} s ({name})"
        ));
    }

    pub fn end(&self) {
        let seconds = self.began.elapsed().as_secs();
        say(&format!("the library is proved, {seconds} s"));
    }
}

/// How many crates there are to prove: gozhnerim, and those it cites, they cite and so on. What no
/// line has belongs to the toolchain.
fn needed(crates: &str) -> Option<usize> {
    let lines = crates.lines().filter_map(|line| line.split('#').next());
    let cited: HashMap<&str, &str> = lines
        .filter_map(|line| line.split_once(':'))
        .map(|(name, cited)| (name.trim(), cited))
        .collect();
    let mut open = vec!["gozhnerim"];
    let mut needed = HashSet::new();
    while let Some(name) = open.pop() {
        if let Some(more) = cited.get(name)
            && needed.insert(name)
        {
            open.extend(more.split_whitespace());
        }
    }
    (!needed.is_empty()).then_some(needed.len())
}
