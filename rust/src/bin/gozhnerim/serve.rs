//! Requests line by line, on held ladders.

use std::collections::HashMap;
use std::io::{self, BufReader, IsTerminal, Read, Write};

use gozhnerim::Column::Values;
use gozhnerim::{Ladder, Refusal};

use crate::arguments::{self, Asked, Request};
use crate::lines::{self, LONGEST, Line};
use crate::output::{Column, DECIMAL, Rows};
use crate::words::quoted;
use crate::{calls, say};

const COLUMNS: [Column; 4] = [
    ("value", DECIMAL),
    ("derivative", DECIMAL),
    ("written", 7),
    ("case", 10),
];
/// So many ladders are held at most.
const MOST_LADDERS: usize = 1000;
/// The line for a ladder that there is not.
const NOT_HELD: &str = "not-held";

/// Serves standard input. Gives whether every line was answered.
pub fn standard(bits: bool) -> io::Result<bool> {
    let rows = Rows::standard(&COLUMNS, bits)?;
    if rows.is_terminal() && io::stdin().is_terminal() {
        say(
            "a request is a line like `D 2.5 1.0` or `NAME: V -3 0.5`; the end of input (Ctrl-D) \
             ends it",
        );
    }
    let input = BufReader::new(io::stdin().lock());
    let mut server = Server {
        rows,
        ladders: HashMap::new(),
        all_answered: true,
    };
    server.serve(input)
}

/// What a line is answered with.
enum Answer {
    /// Value and derivative; the rungs written and the case, both empty where no ladder is used.
    Pair([f64; 2], [String; 2]),
    Refused(Refusal),
    /// Whether a ladder was held that is now forgotten.
    Released(bool),
    /// How many rungs were tested and are right; nothing where no ladder is held.
    Checked(Option<usize>),
}

struct Server<W: Write> {
    rows: Rows<W>,
    /// The ladders by their names; requests without one go to the ladder of the empty name.
    ladders: HashMap<String, Ladder>,
    all_answered: bool,
}

impl<W: Write> Server<W> {
    fn serve(&mut self, mut input: BufReader<impl Read>) -> io::Result<bool> {
        for number in 1_u64.. {
            // Reading may wait: whoever sends the requests has to have the replies by then.
            if !input.buffer().contains(&b'\n') {
                self.rows.flush()?;
            }
            match lines::next(&mut input) {
                Ok(Some(mut line)) => {
                    if number == 1 {
                        line.skip_mark();
                    }
                    self.line(number, &line)?;
                }
                Ok(None) => break,
                Err(error) => {
                    say(&format!("standard input cannot be read: {error}"));
                    self.all_answered = false;
                    break;
                }
            }
        }
        self.rows.flush()?;
        Ok(self.all_answered)
    }

    /// Answers one line. Blank lines and remarks get no answer.
    fn line(&mut self, number: u64, line: &Line) -> io::Result<()> {
        let bytes = line.bytes.trim_ascii();
        let blank = bytes.is_empty() && !line.cut;
        if blank || bytes.starts_with(b"#") {
            return Ok(());
        }
        match text(line).and_then(|text| self.answer(text)) {
            Ok(Answer::Pair(pair, more)) => self.rows.pair(pair, more),
            Ok(Answer::Refused(refusal)) => self.not_answered(&refusal.to_string()),
            Ok(Answer::Released(true)) => self.rows.text("released"),
            Ok(Answer::Released(false)) => self.rows.text(NOT_HELD),
            Ok(Answer::Checked(Some(rungs))) => self.rows.text(&format!("checked {rungs}")),
            // Nothing was tested: the exit status says so too.
            Ok(Answer::Checked(None)) => self.not_answered(NOT_HELD),
            Err(message) => self.not_answered(&format!("error line {number}: {message}")),
        }
    }

    /// Does what a line asks for, or says what is wrong with the line.
    fn answer(&mut self, text: &str) -> Result<Answer, String> {
        let (name, asked) = asked(text)?;
        match asked {
            Asked::OnLadder(request) => self.request(name, request),
            Asked::Release => Ok(Answer::Released(self.ladders.remove(name).is_some())),
            Asked::Check => Ok(self.check(name)),
            Asked::Call(call) => Ok(calls::answer(call).map_or_else(Answer::Refused, |pair| {
                Answer::Pair([pair.value, pair.derivative], Default::default())
            })),
        }
    }

    /// A request on the ladder of that name. A ladder that holds nothing is not kept.
    fn request(&mut self, name: &str, request: Request) -> Result<Answer, String> {
        let ladder = self.ladder(name)?;
        let reply = ladder.request(request.function, request.v, request.x);
        if ladder.state().is_empty() {
            self.ladders.remove(name);
        }
        Ok(reply.map_or_else(Answer::Refused, |reply| {
            let more = [reply.written.to_string(), reply.case.to_string()];
            Answer::Pair([reply.value, reply.derivative], more)
        }))
    }

    /// Tests the tables of the ladder of that name, both of them.
    fn check(&self, name: &str) -> Answer {
        let tested = self.ladders.get(name).map(|ladder| ladder.tested(Values));
        tested.transpose().map_or_else(Answer::Refused, |values| {
            Answer::Checked(values.map(<[f64]>::len))
        })
    }

    /// The ladder of that name, a new one if there is none yet.
    fn ladder(&mut self, name: &str) -> Result<&mut Ladder, String> {
        if !self.ladders.contains_key(name) && self.ladders.len() >= MOST_LADDERS {
            return Err(format!(
                "{MOST_LADDERS} ladders are held already; release one by a line `NAME: release`, \
                 or use the name of one of them"
            ));
        }
        Ok(self.ladders.entry(name.to_string()).or_default())
    }

    fn not_answered(&mut self, text: &str) -> io::Result<()> {
        self.all_answered = false;
        self.rows.text(text)
    }
}

/// A line as text.
fn text(line: &Line) -> Result<&str, String> {
    if line.cut {
        return Err(format!(
            "the line is longer than {LONGEST} bytes; write each request on a line of its own"
        ));
    }
    std::str::from_utf8(&line.bytes)
        .map_err(|_| "the line is not UTF-8 text; write the input in UTF-8".to_string())
}

/// The ladder's name, empty where none is given, and what is asked for.
fn asked(text: &str) -> Result<(&str, Asked), String> {
    let (name, rest) = match text.split_once(':') {
        Some((name, rest)) => (ladder_name(name.trim())?, rest),
        None => ("", text),
    };
    let words: Vec<&str> = rest.split_whitespace().collect();
    let asked = arguments::line(&words)?;
    if matches!(asked, Asked::Call(_)) && !name.is_empty() {
        return Err(format!(
            "{} uses no ladder; leave out the name {} and the colon",
            words[0],
            quoted(name)
        ));
    }
    Ok((name, asked))
}

fn ladder_name(name: &str) -> Result<&str, String> {
    if name.is_empty() {
        return Err(
            "there is no name before the colon; write one, or leave out the colon".to_string(),
        );
    }
    if name.contains(char::is_whitespace) {
        let shown = quoted(name);
        return Err(format!(
            "a ladder's name before the colon is one word, not {shown}"
        ));
    }
    Ok(name)
}
