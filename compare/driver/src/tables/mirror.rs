//! Both halves of D: the library's tables at x and at −x, held to 02, #101. The Rust has no part in
//! it.

#[cfg(test)]
mod tests;

use super::requests::Junk;
use super::split::needed;
use super::{Answer, Call, Kind, call, edges};
use crate::comparing::{Comparable, Line, Tally};
use crate::inputs::{Draw, mixed};

/// The whole orders are those below it, from 0 on.
const ORDERS: u32 = 1000;
/// The arguments of the grid are 0/32 to 2000/32.
const GRID: u32 = 2000;
const STEPS_IN_1: f64 = 32.0;
/// So many arguments are drawn.
const DRAWN: usize = 100;
/// A table has up to so many slots more than its order needs.
const MORE_SLOTS: u64 = 7;
/// A table holds a part of the junk before the call, which begins at one of so many places.
const PLACES: u64 = 2048;

/// A call with order, argument and table.
type TableCall = fn(f64, f64, &mut [f64]) -> Answer;

/// A whole order, an argument, and the two tables lent for it: at x and at −x.
#[derive(Clone, Copy, Debug)]
struct Request {
    v: f64,
    x: f64,
    /// Order and argument at −x. A zero may have either sign.
    other: (f64, f64),
    lengths: [usize; 2],
    /// Where in the junk the slots of each begin. The two places differ.
    places: [usize; 2],
}

/// What a call answered, and its table.
struct Half {
    answer: Answer,
    table: Vec<f64>,
}

/// What was compared so far.
struct Comparison {
    line: Line<'static>,
    junk: Vec<f64>,
    /// Of the values and derivatives at x.
    infinite: usize,
    nan: usize,
}

/// Compares both halves of all whole orders at all arguments.
pub fn compare(tally: &mut Tally, seed: u64) {
    let mut comparison = Comparison::new();
    comparison.run(requests(seed), library);
    comparison.finish(tally);
}

/// The library's call.
fn library(v: f64, x: f64, table: &mut [f64]) -> Answer {
    let [library, ..] = Call::SIDES;
    library(call(Kind::D), v, x, table)
}

/// Each argument with all orders.
fn requests(seed: u64) -> impl Iterator<Item = Request> {
    let arguments = arguments(seed).into_iter();
    let pairs = arguments.flat_map(|x| orders().map(move |v| (v, x)));
    pairs.enumerate().map(move |(i, (v, x))| {
        let bits = mixed(seed.wrapping_add(i as u64));
        Request::new(v, x, bits)
    })
}

/// −0.0 is order 0 too.
fn orders() -> impl Iterator<Item = f64> {
    std::iter::once(-0.0).chain((0..ORDERS).map(f64::from))
}

/// The grid, the edge arguments of the table calls that are neither NaN nor below 0, further ones
/// beyond the grid, and drawn ones.
fn arguments(seed: u64) -> Vec<f64> {
    let mut arguments: Vec<f64> = (0..=GRID).map(|k| f64::from(k) / STEPS_IN_1).collect();
    let edges = edges::arguments().into_iter();
    arguments.extend(edges.filter(|x| !x.is_nan() && x.is_sign_positive()));
    arguments.extend([62.75, 64.0, 75.5, 100.0, 1e3, 1e100, 1e155, 1e300]);
    let mut draw = Draw::new(seed);
    let drawn = std::iter::repeat_with(|| match draw.below(8) {
        0 => draw.number(),
        1 => draw.tiny(),
        _ => draw.uniform(f64::from(GRID) / STEPS_IN_1),
    });
    arguments.extend(drawn.filter(|x| !x.is_nan()).take(DRAWN));
    arguments
}

impl Request {
    /// With lengths and places that follow from the bits.
    fn new(v: f64, x: f64, bits: u64) -> Self {
        let length = |bits: u64| needed(v) + (bits % (MORE_SLOTS + 1)) as usize;
        let turned = |number: f64, turn: bool| if turn { -number } else { number };
        let other_order = turned(v, v == 0.0 && bits >> 48 & 1 == 1);
        let other_argument = turned(x, x != 0.0 || bits >> 49 & 1 == 1);
        let first = bits >> 16 & (PLACES - 1);
        let second = first + 1 + (bits >> 32 & (PLACES - 1));
        Request {
            v,
            x,
            other: (other_order, other_argument),
            lengths: [length(bits), length(bits >> 8)],
            places: [first as usize, second as usize],
        }
    }

    fn show(&self) -> String {
        let Request { v, x, lengths, .. } = self;
        let [at_x, at_minus_x] = lengths;
        let (v, x) = (v.show(), x.show());
        format!("v {v}, x {x}, lengths {at_x} and {at_minus_x}")
    }
}

impl Half {
    /// Values 0 to n and derivatives 0 to n − 1, for a whole order.
    fn columns(&self, v: f64) -> [&[f64]; 2] {
        let (n, num) = (v as usize + 1, v as usize + 3);
        [&self.table[..=n], &self.table[num..][..n]]
    }
}

impl Comparison {
    fn new() -> Self {
        let longest = needed(f64::from(ORDERS)) + MORE_SLOTS as usize;
        let slots = 0..2 * PLACES as usize + longest;
        Comparison {
            line: Line::new("mirror"),
            junk: slots.map(|k| Junk(1).slot(k)).collect(),
            infinite: 0,
            nan: 0,
        }
    }

    fn run(&mut self, requests: impl Iterator<Item = Request>, table_call: TableCall) {
        for request in requests {
            let halves = self.halves(&request, table_call);
            let [values, derivatives] = halves[0].columns(request.v);
            for column in [values, derivatives] {
                self.infinite += column.iter().filter(|x| x.is_infinite()).count();
                self.nan += column.iter().filter(|x| x.is_nan()).count();
            }
            let difference = difference(request.v, &halves);
            self.line
                .count(difference.map(|sides| (request.show(), sides)));
        }
    }

    /// The calls at x and at −x.
    fn halves(&self, request: &Request, table_call: TableCall) -> [Half; 2] {
        let half = |((v, x), i): ((f64, f64), usize)| {
            let found = &self.junk[request.places[i]..][..request.lengths[i]];
            let mut table = found.to_vec();
            let answer = table_call(v, x, &mut table);
            Half { answer, table }
        };
        [((request.v, request.x), 0), (request.other, 1)].map(half)
    }

    /// Prints the line, and how often overflow was met.
    fn finish(&self, tally: &mut Tally) {
        tally.add(&self.line);
        let (infinite, nan) = (self.infinite, self.nan);
        println!("  among the values and derivatives at x {infinite} infinite, {nan} NaN");
    }
}

/// Whether b is (−1)^exponent times a: zeros of either sign are equal, and NaN is exactly where the
/// other is NaN.
fn is_mirrored(exponent: usize, a: f64, b: f64) -> bool {
    let sign = if exponent % 2 == 1 { -1.0 } else { 1.0 };
    if a.is_nan() || b.is_nan() {
        return a.is_nan() && b.is_nan();
    }
    b == sign * a
}

/// The first value, derivative or answered number that is not mirrored.
fn difference(v: f64, [at_x, at_minus_x]: &[Half; 2]) -> Option<String> {
    let (ours, others) = (at_x.answer, at_minus_x.answer);
    if [ours.refusal, others.refusal] != [0, 0] {
        let refusals = format!("{} at x, {} at −x", ours.refusal, others.refusal);
        return Some(format!("refusals: {refusals}"));
    }
    let [values, derivatives] = at_x.columns(v);
    let [other_values, other_derivatives] = at_minus_x.columns(v);
    let m = v as usize;
    column_difference("value", 0, values, other_values)
        .or_else(|| column_difference("derivative", 1, derivatives, other_derivatives))
        .or_else(|| number_difference("answered value", m, ours.value, others.value))
        .or_else(|| {
            let [ours, others] = [ours, others].map(|answer| answer.derivative);
            number_difference("answered derivative", m + 1, ours, others)
        })
}

/// The first rung of a column that is not mirrored. Rung k carries the sign (−1)^(k + exponent).
fn column_difference(
    name: &str,
    exponent: usize,
    at_x: &[f64],
    at_minus_x: &[f64],
) -> Option<String> {
    let mut rungs = at_x.iter().zip(at_minus_x).enumerate();
    let (k, (&a, &b)) = rungs.find(|&(k, (&a, &b))| !is_mirrored(k + exponent, a, b))?;
    number_difference(&format!("{name} {k}"), k + exponent, a, b)
}

fn number_difference(name: &str, exponent: usize, a: f64, b: f64) -> Option<String> {
    let sides = || format!("{name}: {} at x, {} at −x", a.show(), b.show());
    (!is_mirrored(exponent, a, b)).then(sides)
}
