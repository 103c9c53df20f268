//! The table of one request, rung by rung or slot by slot.

use std::io;

use gozhnerim::{
    Function, Pair, Refusal, d_table, rung_order, rungs_needed, slots_needed, v_table,
};

use crate::arguments::Request;
use crate::calls::refused;
use crate::numbers::{self, decimal};
use crate::output::{BITS, Column, DECIMAL, Rows};

const RUNGS: [Column; 4] = [
    ("rung", 4),
    ("order", DECIMAL),
    ("value", DECIMAL),
    ("derivative", DECIMAL),
];
const SLOTS: [Column; 6] = [
    ("slot", 4),
    ("bits", BITS),
    ("number", DECIMAL),
    ("column", 10),
    ("rung", 4),
    ("order", DECIMAL),
];

/// The table of a request, and its pair.
pub struct Filled {
    pub pair: Pair,
    pub slots: Vec<f64>,
}

/// Makes the table call.
pub fn fill(request: Request) -> Result<Filled, Refusal> {
    // An order that is refused needs no slots: the call itself says by which number.
    let needed = slots_needed(request.v).unwrap_or(0);
    let mut slots = vec![0.0; needed];
    let pair = match request.function {
        Function::D => d_table(request.v, request.x, &mut slots),
        Function::V => v_table(request.v, request.x, &mut slots),
    }?;
    Ok(Filled { pair, slots })
}

/// Prints the table of a request: a line for each rung, or with `bits` for each slot written.
pub fn print(request: Request, bits: bool) -> io::Result<bool> {
    let columns: &[Column] = if bits { &SLOTS } else { &RUNGS };
    let lines = if bits { slot_lines } else { rung_lines };
    let lines = match fill(request).and_then(|filled| lines(request, &filled.slots)) {
        Ok(lines) => lines,
        Err(refusal) => return refused(refusal),
    };
    let mut rows = Rows::standard(columns, false)?;
    for cells in lines {
        rows.row(cells)?;
    }
    rows.flush()?;
    Ok(true)
}

/// Rung, order, value and derivative of each rung. The top rung has no derivative.
fn rung_lines(request: Request, slots: &[f64]) -> Result<Vec<Vec<String>>, Refusal> {
    let (values, derivatives) = slots.split_at(slots.len() / 2);
    let n = rungs_needed(request.v)?;
    let line = |k: usize| {
        let derivative = if k < n {
            decimal(derivatives[k])
        } else {
            "-".to_string()
        };
        let order = decimal(rung_order(request.v, k)?);
        Ok(vec![k.to_string(), order, decimal(values[k]), derivative])
    };
    (0..=n).map(line).collect()
}

/// Slot, bits, number, column, rung and order of each slot written.
fn slot_lines(request: Request, slots: &[f64]) -> Result<Vec<Vec<String>>, Refusal> {
    let line = |(slot, column, rung): (usize, &str, usize)| {
        let (number, order) = (slots[slot], rung_order(request.v, rung)?);
        Ok(vec![
            slot.to_string(),
            numbers::bits(number),
            decimal(number),
            column.to_string(),
            rung.to_string(),
            decimal(order),
        ])
    };
    written(request)?.into_iter().map(line).collect()
}

/// The slots that the table call writes, by its definition, with column and rung: value k in slot
/// k, derivative k in slot num + k.
fn written(request: Request) -> Result<Vec<(usize, &'static str, usize)>, Refusal> {
    let num = slots_needed(request.v)? / 2;
    let n = rungs_needed(request.v)?;
    let top = if has_value_2(request, n)? { 2 } else { n };
    let values = (0..=top).map(|k| (k, "value", k));
    let derivatives = (0..n).map(|k| (num + k, "derivative", k));
    Ok(values.chain(derivatives).collect())
}

/// Whether value 2 is written though n is 1: V with v < 0 and no fraction. The order of rung 0 is
/// the fraction.
fn has_value_2(request: Request, n: usize) -> Result<bool, Refusal> {
    let whole = rung_order(request.v, 0)? == 0.0;
    Ok(request.function == Function::V && request.v < 0.0 && n == 1 && whole)
}
