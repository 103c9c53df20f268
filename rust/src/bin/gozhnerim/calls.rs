//! One answer.

use std::io;

use gozhnerim::{Pair, Refusal, d_expansion, maclaurin};

use crate::arguments::Call;
use crate::output::{Column, DECIMAL, Rows};
use crate::{say, table};

const COLUMNS: [Column; 2] = [("value", DECIMAL), ("derivative", DECIMAL)];

/// Makes a call.
pub fn answer(call: Call) -> Result<Pair, Refusal> {
    match call {
        Call::Table(request) => table::fill(request).map(|filled| filled.pair),
        Call::Expansion { v, x } => d_expansion(v, x),
        Call::Maclaurin([a, x, c0, c1, e]) => maclaurin(a, x, c0, c1, e),
    }
}

/// Prints the pair of a call.
pub fn print(call: Call, bits: bool) -> io::Result<bool> {
    let pair = match answer(call) {
        Ok(pair) => pair,
        Err(refusal) => return refused(refusal),
    };
    let mut rows = Rows::standard(&COLUMNS, bits)?;
    rows.pair([pair.value, pair.derivative], [])?;
    rows.flush()?;
    Ok(true)
}

/// Says why there is no answer.
pub fn refused(refusal: Refusal) -> io::Result<bool> {
    say(&refusal.to_string());
    Ok(false)
}
