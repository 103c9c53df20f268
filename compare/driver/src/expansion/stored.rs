//! The stored answers of the layer.

use super::calls::{Call, D_EXPANSION, MACLAURIN, PBDV_ELEMENTARY, UV_SUMS};
use super::{FUNCTIONS, drawn};
use crate::comparing::Comparable;
use crate::inputs::{Draw, Input, pairs};
use crate::store::{self, Record, SEED, add_new, answer_bits, sampled};
use crate::tables::Answer;

/// Inputs of each call, and how many of them may be edge inputs.
const INPUTS: usize = 240;
const EDGES: usize = 200;

/// The mantissas and the exponents of the stored series, by number.
const CONSTANTS: [f64; 16] = [
    0.0,
    -0.0,
    1.0,
    -1.0,
    0.5,
    -2.25,
    1e300,
    -1e-300,
    700.0,
    -745.5,
    1500.0,
    -1500.0,
    5e-324,
    f64::INFINITY,
    f64::NAN,
    0.1,
];

/// A series: a and x, and the numbers of c0, c1 and e in `CONSTANTS`.
type Row = (f64, f64, [usize; 3]);

/// The records of the functions, then those of the calls.
pub fn all_records() -> Vec<Record> {
    let mut records = store::all_records(&FUNCTIONS);
    records.extend(call_records(&UV_SUMS, by_number));
    records.extend(call_records(&PBDV_ELEMENTARY, by_number));
    records.extend(call_records(&D_EXPANSION, places));
    records.extend(rows().into_iter().flat_map(series_records));
    records
}

/// The numbers of an answer by their places.
fn by_number<const N: usize>(numbers: [f64; N]) -> Vec<(u64, f64)> {
    (0..).zip(numbers).collect()
}

/// The refusal as a number, the value and the derivative by their places.
fn places(answer: Answer) -> Vec<(u64, f64)> {
    let Answer {
        refusal,
        value,
        derivative,
    } = answer;
    vec![(64, f64::from(refusal)), (65, value), (66, derivative)]
}

/// A record's number is call + 256·place.
fn call_records<A: Comparable>(
    call: &Call<[f64; 2], A>,
    places: impl Fn(A) -> Vec<(u64, f64)>,
) -> Vec<Record> {
    let mut records = vec![];
    for input in inputs(call) {
        let [x, y] = input.map(f64::to_bits);
        for (place, answer) in places((call.sides.reference)(input)) {
            records.push([call.number + 256 * place, x, y, answer_bits(answer)]);
        }
    }
    records
}

/// Limits, then edge inputs, sampled, then drawn ones; none stands twice.
fn inputs<A: Comparable>(call: &Call<[f64; 2], A>) -> Vec<[f64; 2]> {
    let bits = |input: [f64; 2]| input.map(f64::to_bits);
    let mut inputs = vec![];
    add_new(&mut inputs, (call.limits)(), EDGES, bits);
    let left = EDGES - inputs.len();
    add_new(&mut inputs, sampled(&(call.edges)(), left), EDGES, bits);
    add_new(&mut inputs, call.drawn(SEED), INPUTS, bits);
    inputs
}

fn series_records((a, x, constants): Row) -> Vec<Record> {
    let [i, j, k] = constants.map(|constant| constant as u64);
    let [c0, c1, e] = constants.map(|constant| CONSTANTS[constant]);
    let answer = (MACLAURIN.sides.reference)([a, x, c0, c1, e]);
    let number = MACLAURIN.number + 65536 * i + 1048576 * j + 16777216 * k;
    let record = |(place, answer)| {
        let number = number + 256 * place;
        [number, a.to_bits(), x.to_bits(), answer_bits(answer)]
    };
    places(answer).into_iter().map(record).collect()
}

/// Each constant as each of the three; then limits of a and x; then drawn series.
fn rows() -> Vec<Row> {
    let bits = |(a, x, constants): Row| (a.to_bits(), x.to_bits(), constants);
    let replaced = (0..CONSTANTS.len())
        .flat_map(|constant| [[constant, 4, 15], [2, constant, 15], [2, 4, constant]]);
    let replaced = replaced.map(|constants| (-20.5, 0.1, constants));
    let mut rows = vec![];
    add_new(&mut rows, replaced, EDGES, bits);
    let limits = limits_of_series().into_iter().enumerate();
    let triples = [[2, 4, 0], [0, 3, 8], [5, 0, 9], [7, 12, 10], [6, 2, 11]];
    let limits = limits.map(|(i, (a, x))| (a, x, triples[i % triples.len()]));
    add_new(&mut rows, limits, EDGES, bits);
    let mut draw = Draw::new(MACLAURIN.seed(SEED));
    let drawn = std::iter::repeat_with(|| {
        let a = drawn::parameter(&mut draw);
        let x = drawn::series_argument(&mut draw, a);
        (a, x, [0; 3].map(|_| draw.below(CONSTANTS.len())))
    });
    add_new(&mut rows, drawn, INPUTS, bits);
    rows
}

fn limits_of_series() -> Vec<Input> {
    let short = [1e-150, 1e-150_f64.next_down(), -1e-160, 0.0, -0.0, 5e-324];
    let others = [-0.25, 3.0, 12.0, -1e120, f64::NEG_INFINITY, f64::NAN];
    let parameters = [0.0, -0.5, -300.5, 30.25, 1e200, f64::INFINITY, f64::NAN];
    pairs(&parameters, &[short, others].concat())
}
