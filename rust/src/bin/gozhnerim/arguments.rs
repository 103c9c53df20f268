//! What the words of the command line, and of a line of `serve`, ask for.

use std::ffi::OsString;

use gozhnerim::Function;

use crate::help::{HELP, version};
use crate::numbers;
use crate::words::{function, quoted};

/// What is to be done. `bool` is whether bits are wanted.
#[derive(Debug, PartialEq)]
pub enum Task {
    Print(String),
    Pair(Call, bool),
    Table(Request, bool),
    Mirror(Halves, bool),
    Serve(bool),
}

/// A function, an order and an argument.
#[derive(Clone, Copy, Debug, PartialEq)]
pub struct Request {
    pub function: Function,
    pub v: f64,
    pub x: f64,
}

/// A whole order of D, and an argument whose two signs are asked for.
#[derive(Clone, Copy, Debug, PartialEq)]
pub struct Halves {
    pub order: u32,
    pub x: f64,
}

/// A call that answers a pair.
#[derive(Clone, Copy, Debug, PartialEq)]
pub enum Call {
    Table(Request),
    Expansion { v: f64, x: f64 },
    Maclaurin([f64; 5]),
}

/// What a line of `serve` asks for.
#[derive(Debug, PartialEq)]
pub enum Asked {
    OnLadder(Request),
    /// That a ladder is forgotten.
    Release,
    /// That the rungs of a ladder are tested.
    Check,
    /// A call that uses no ladder.
    Call(Call),
}

/// Reads the words, or says what is wrong with them.
pub fn read(words: impl Iterator<Item = OsString>) -> Result<Task, String> {
    let (mut bits, mut options_end, mut rest) = (false, false, Vec::new());
    for word in words {
        let Ok(word) = word.into_string() else {
            return Err("an argument is not UTF-8 text".to_string());
        };
        match word.as_str() {
            _ if options_end => rest.push(word),
            "--" => options_end = true,
            "--help" | "-h" => return Ok(Task::Print(HELP.to_string())),
            "--version" => return Ok(Task::Print(version())),
            "--bits" => bits = true,
            option if option.starts_with("--") => {
                return Err(format!("there is no option {}", quoted(option)));
            }
            _ => rest.push(word),
        }
    }
    let words: Vec<&str> = rest.iter().map(String::as_str).collect();
    task(&words, bits)
}

fn task(words: &[&str], bits: bool) -> Result<Task, String> {
    let Some((&first, rest)) = words.split_first() else {
        return Err("nothing is asked for".to_string());
    };
    match first {
        "table" => Ok(Task::Table(request("table", rest)?, bits)),
        "mirror" => Ok(Task::Mirror(halves(rest)?, bits)),
        "expansion" => Ok(Task::Pair(expansion(rest)?, bits)),
        "maclaurin" => Ok(Task::Pair(series(rest)?, bits)),
        "serve" if rest.is_empty() => Ok(Task::Serve(bits)),
        "serve" => Err(format!(
            "serve takes no {}; it reads its requests from standard input, one a line",
            quoted(rest[0])
        )),
        "help" => Ok(Task::Print(HELP.to_string())),
        _ if function(first).is_some() => Ok(Task::Pair(Call::Table(request(first, words)?), bits)),
        other => Err(format!(
            "{} is none of D, V, table, mirror, expansion, maclaurin and serve",
            quoted(other)
        )),
    }
}

/// A function, an order and an argument, for the command `name`.
fn request(name: &str, words: &[&str]) -> Result<Request, String> {
    let Some((&first, rest)) = words.split_first() else {
        return Err(format!("{name} takes D or V, an order and an argument"));
    };
    let Some(function) = function(first) else {
        return Err(format!("the function is D or V, not {}", quoted(first)));
    };
    let [v, x] = read_numbers(first, ["order", "argument"], rest)?;
    Ok(Request { function, v, x })
}

/// What `mirror` takes.
fn halves(words: &[&str]) -> Result<Halves, String> {
    if let Some(word) = words.first().filter(|word| function(word).is_some()) {
        return Err(format!(
            "mirror takes no {}; it is about D alone: write an order and an argument",
            quoted(word)
        ));
    }
    let [v, x] = read_numbers("mirror", ["order", "argument"], words)?;
    let is_whole = v.trunc() == v && (0.0..1000.0).contains(&v);
    if !is_whole {
        return Err(format!(
            "the order is not a whole number from 0 to 999: {}; write one such as 3, as D is \
             mirrored at whole orders from 0 on and orders from 1000 on are refused",
            quoted(words[0])
        ));
    }
    let order = v as u32;
    Ok(Halves { order, x })
}

fn expansion(words: &[&str]) -> Result<Call, String> {
    let [v, x] = read_numbers("expansion", ["order", "argument"], words)?;
    Ok(Call::Expansion { v, x })
}

fn series(words: &[&str]) -> Result<Call, String> {
    let inputs = read_numbers("maclaurin", ["A", "X", "C0", "C1", "E"], words)?;
    Ok(Call::Maclaurin(inputs))
}

/// As many numbers as there are names, for the command `command`.
fn read_numbers<const N: usize>(
    command: &str,
    names: [&str; N],
    words: &[&str],
) -> Result<[f64; N], String> {
    if words.len() != N {
        return Err(format!(
            "{command} takes {N} numbers ({}), and {} given",
            names.join(", "),
            match words.len() {
                1 => "1 is".to_string(),
                count => format!("{count} are"),
            }
        ));
    }
    let mut read = [0.0; N];
    for (place, (name, word)) in names.iter().zip(words).enumerate() {
        read[place] = numbers::read(name, word)?;
    }
    Ok(read)
}

/// Reads a line of `serve` without the ladder's name.
pub fn line(words: &[&str]) -> Result<Asked, String> {
    let Some((&first, rest)) = words.split_first() else {
        return Err("nothing is asked for; a request is like `D 2.5 1.0`".to_string());
    };
    match first {
        "expansion" => expansion(rest).map(Asked::Call),
        "maclaurin" => series(rest).map(Asked::Call),
        "release" if rest.is_empty() => Ok(Asked::Release),
        "check" if rest.is_empty() => Ok(Asked::Check),
        "release" | "check" => Err(format!(
            "{first} takes no {}; write the ladder's name in front, as in `NAME: {first}`",
            quoted(rest[0])
        )),
        _ if function(first).is_some() => request(first, words).map(Asked::OnLadder),
        other => Err(format!(
            "{} is none of D, V, expansion, maclaurin, release and check",
            quoted(other)
        )),
    }
}
