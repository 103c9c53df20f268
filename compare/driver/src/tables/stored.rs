//! The stored answers of the table calls: what each call answers, and the table after it.

use std::ops::RangeInclusive;

use super::edges;
use super::outcome::Expected;
use super::requests::drawn;
use super::split::needed;
use super::{CALLS, Call, Kind};
use crate::inputs::{Input, pairs};
use crate::store::{Record, SEED, add_new, answer_bits, sampled};

/// An order, an argument and the length of the table.
type Row = (f64, f64, usize);

/// Slots of the longest table stored, but for those of `LARGE_AT_LIMIT`, which have 62. The places
/// of slots end at 63.
const SLOTS: usize = 41;

/// The places of a request's records. Those of the table's slots are the slots' numbers.
const REFUSAL: u64 = 64;
const VALUE: u64 = 65;
const DERIVATIVE: u64 = 66;

/// What the slots hold before the call, over and over.
const FOUND: [f64; 7] = [
    f64::NAN,
    -0.0,
    f64::INFINITY,
    1.5,
    f64::NEG_INFINITY,
    5e-324,
    -1e300,
];

/// How many edge requests and drawn ones have orders that need so many slots.
struct Share {
    slots: RangeInclusive<usize>,
    edges: usize,
    drawn: usize,
}

/// Most orders are small. The numbers of edge requests are primes, so that the samples have
/// different arguments.
const SHARES: [Share; 2] = [
    Share {
        slots: 6..=14,
        edges: 59,
        drawn: 48,
    },
    Share {
        slots: 15..=SLOTS,
        edges: 17,
        drawn: 14,
    },
];

/// Orders that are accepted with at most `SLOTS` slots, each with tables just long enough, one slot
/// shorter and longer.
const ORDERS: [f64; 13] = [
    0.0,
    -0.0,
    -8.673617379884035e-19,
    0.9999999999999999,
    -0.9999999999999999,
    1.0,
    2.0,
    -1.0,
    3.9999999999999996,
    -3.9999999999999996,
    7.5,
    17.999999999999996,
    -17.999999999999996,
];

/// These orders with these arguments are answered by different branches.
const BRANCH_ORDERS: [f64; 4] = [0.3, 5.0, -0.3, -4.0];
const BRANCH_ARGUMENTS: [f64; 8] = [1.0, 2.0, 3.0, 8.0, 12.0, -1.0, -8.0, -12.0];

/// Orders that need 40 slots, answered by other branches than those of `ORDERS`.
const LARGE: [Input; 4] = [(17.5, 8.0), (17.0, 12.0), (-17.5, 3.0), (-17.0, 12.0)];

/// Orders at the sizes of arguments from which the other start sum is taken, and at the next floats.
const AT_LIMIT: [f64; 3] = [0.5, -0.5, -1.0];
/// Of V too, where its branches part at that size: the shifted order is above half its square.
const LARGE_AT_LIMIT: f64 = 28.0;

/// Requests that are refused whatever the length.
const REFUSED: [Input; 14] = [
    (f64::NAN, 0.0),
    (f64::NAN, f64::NAN),
    (0.0, f64::NAN),
    (-2.5, f64::NAN),
    (1000.0, f64::NAN),
    (f64::INFINITY, f64::NAN),
    (f64::NAN, f64::INFINITY),
    (1000.0, 0.0),
    (-1000.0, 0.0),
    (1000.5, 2.0),
    (2147483648.0, 1.0),
    (-1e300, 1.0),
    (f64::INFINITY, 0.0),
    (f64::NEG_INFINITY, f64::INFINITY),
];

/// Orders that need one slot more than `SLOTS`, and many more.
const LONGER: [f64; 2] = [18.0, -18.0];
const MUCH_LONGER: [f64; 6] = [
    100.3,
    -512.0,
    999.5,
    -999.5,
    999.9999999999999,
    -999.9999999999999,
];

/// The records of both calls.
pub fn all_records() -> Vec<Record> {
    CALLS.iter().flat_map(records).collect()
}

/// The records of a call, request by request.
pub fn records(call: &Call) -> Vec<Record> {
    let rows = rows(call).into_iter();
    rows.flat_map(|row| records_of(call, row)).collect()
}

/// A request's records: refusal, value and derivative, then the slots after the call. Each has the
/// number, the bits of v, of x and of the answer.
fn records_of(call: &Call, (v, x, length): Row) -> Vec<Record> {
    let Expected { answer, slots } = call.expected(v, x, length);
    let written = |k: usize| slots.get(k).copied().flatten();
    let slot = |k: usize| written(k).unwrap_or(FOUND[k % FOUND.len()]);
    let answers = [
        (REFUSAL, f64::from(answer.refusal)),
        (VALUE, answer.value),
        (DERIVATIVE, answer.derivative),
    ];
    let slots = (0..length).map(|k| (k as u64, slot(k)));
    let record = |(place, answer)| {
        let number = call.number + 256 * place + 65536 * length as u64;
        [number, v.to_bits(), x.to_bits(), answer_bits(answer)]
    };
    answers.into_iter().chain(slots).map(record).collect()
}

/// Limits, then edge requests and drawn ones, with small orders and with larger ones; none stands
/// twice.
fn rows(call: &Call) -> Vec<Row> {
    let mut rows = limits();
    rows.extend(at_limit(call.kind));
    for share in SHARES {
        let is_in = |&(v, _, _): &Row| share.slots.contains(&needed(v));
        let edges: Vec<Row> = edges().into_iter().filter(is_in).collect();
        add_new(&mut rows, sampled(&edges, share.edges), usize::MAX, bits);
        let drawn = drawn(call.seed(SEED)).map(|request| (request.v, request.x, request.length));
        let drawn = drawn.filter(|row| is_in(row) && row.2 <= SLOTS);
        let limit = rows.len() + share.drawn;
        add_new(&mut rows, drawn, limit, bits);
    }
    rows
}

/// Tables of refused requests are short: no slot, or one for each number of `FOUND`.
fn limits() -> Vec<Row> {
    let mut rows = vec![];
    for v in ORDERS {
        let needed = needed(v);
        rows.extend([needed, needed - 1].map(|length| (v, 0.0, length)));
        rows.extend([needed, needed + 1].map(|length| (v, -3.0, length)));
    }
    let branches = pairs(&BRANCH_ORDERS, &BRANCH_ARGUMENTS).into_iter();
    rows.extend(branches.chain(LARGE).map(|(v, x)| (v, x, needed(v))));
    rows.extend([0, 1, 3].map(|length| (0.0, 0.0, length)));
    rows.extend(REFUSED.map(|(v, x)| (v, x, FOUND.len())));
    rows.extend(REFUSED.map(|(v, x)| (v, x, 0)));
    rows.extend(LONGER.map(|v| (v, 1.0, SLOTS)));
    rows.extend(MUCH_LONGER.map(|v| (v, 1.0, FOUND.len())));
    rows
}

/// The largest arguments with the start sum for small ones, and the next floats, of both signs.
fn at_limit(kind: Kind) -> Vec<Row> {
    let (limit, orders) = match kind {
        Kind::D => (5.8_f64, AT_LIMIT.to_vec()),
        Kind::V => (7.5, [&AT_LIMIT[..], &[LARGE_AT_LIMIT]].concat()),
    };
    let sizes = [limit, limit.next_up()];
    let arguments = sizes.map(|size| [size, -size]).concat();
    let rows = pairs(&orders, &arguments).into_iter();
    rows.map(|(v, x)| (v, x, needed(v))).collect()
}

/// Edge orders with edge arguments; every fifth table is too short.
fn edges() -> Vec<Row> {
    let mut orders = edges::orders();
    orders.retain(|&v| needed(v) <= SLOTS && !v.is_nan());
    let mut arguments = edges::arguments();
    arguments.retain(|x| !x.is_nan());
    let row = |(i, (v, x)): (usize, Input)| {
        let needed = needed(v);
        let longer = needed + FOUND.len();
        let length = [needed, needed + 1, longer, needed, needed - 1][i % 5];
        (v, x, length.min(SLOTS))
    };
    let pairs = pairs(&orders, &arguments).into_iter();
    pairs.enumerate().map(row).collect()
}

fn bits((v, x, length): Row) -> (u64, u64, usize) {
    (v.to_bits(), x.to_bits(), length)
}
