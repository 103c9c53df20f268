//! The edge requests: orders, arguments and lengths at which a table call changes its course.

use super::requests::{Junk, Request};
use super::split::{Split, needed};
use crate::inputs::{
    Input, NANS, around, both_signs, halves, mixed, pairs, power_of_two, with_next,
};
use crate::start_sums::{SQUARE_INFINITE, SQUARES};

/// Slots that a table may have beyond those needed.
const FEW: usize = 5;
const MANY: usize = 300;

/// Each edge order with each edge argument, twice: with a table that is just long enough, and with
/// one of the other lengths in turn. A table of length 0 is lent by a null pointer as well.
pub fn requests() -> Vec<Request> {
    let pairs = pairs(&orders(), &arguments());
    let mut requests = vec![];
    for (i, (v, x)) in pairs.into_iter().chain(squares_at_orders()).enumerate() {
        let others = other_lengths(v);
        let other = others[i % others.len()];
        let null = (other == 0).then_some((0, true));
        let lent = [(needed(v), false), (other, false)];
        for (length, is_null) in lent.into_iter().chain(null) {
            requests.push(Request {
                v,
                x,
                length,
                is_null,
                junk: Junk(mixed(requests.len() as u64)),
            });
        }
    }
    requests
}

/// Whole and half-whole orders with their neighbours; those next to 0, at which the shifted order
/// is rounded; powers of two, below which it is rounded to a whole number; the last orders that are
/// accepted; and refused ones.
pub fn orders() -> Vec<f64> {
    let next_to_zero = [-60, -54, -53, -52].map(power_of_two);
    let powers = [4, 5, 6, 7, 8, 9].map(power_of_two);
    let far = [171.0, 343.0, 999.0, 999.5, 1000.0];
    let sizes = [&next_to_zero[..], &powers, &far].concat();
    let others = [
        f64::MIN_POSITIVE,
        1e-300,
        0.3,
        100.3,
        1001.0,
        1023.5,
        2147483647.0,
        2147483648.0,
        4294967296.0,
        1e300,
        f64::MAX,
        f64::INFINITY,
    ];
    let mut orders: Vec<f64> = halves(-24, 24).flat_map(|v| around(v, 1)).collect();
    orders.push(-0.0);
    orders.extend(both_signs(&with_next(&sizes, &others)));
    orders.extend(NANS.map(f64::from_bits));
    orders
}

/// Limits that the source tests, with their neighbours; arguments at which the exponentials or the
/// square are at a limit; and refused ones.
pub fn arguments() -> Vec<f64> {
    let limits = [2.0, 5.8, 7.5, 10.0];
    let ordinary = [0.5, 1.0, 3.0, 9.0, 12.0, 20.0, 40.0];
    let exponentials = SQUARES.map(|square| 2.0 * square.sqrt());
    let far = [1e10, SQUARE_INFINITE, f64::MAX, f64::INFINITY];
    let others = [&[5e-324, 1e-160, 1e-17], &ordinary[..], &exponentials, &far].concat();
    let mut arguments = vec![0.0, -0.0];
    arguments.extend(both_signs(&with_next(&limits, &others)));
    arguments.extend(NANS.map(f64::from_bits));
    arguments
}

/// Lengths around that of a column, and around the length needed.
fn other_lengths(v: f64) -> [usize; 9] {
    let needed = needed(v);
    let num = needed / 2;
    [
        0,
        1,
        num - 2,
        num - 1,
        num,
        needed - 1,
        needed + 1,
        needed + FEW,
        needed + MANY,
    ]
}

/// Orders from 0 to 50 with the arguments at which half the square is the shifted order, and their
/// neighbours.
fn squares_at_orders() -> Vec<Input> {
    let mut inputs = vec![];
    for v in halves(0, 100) {
        let arguments = around(square_at_order(v), 2);
        inputs.extend(pairs(&[v], &both_signs(&arguments)));
    }
    inputs
}

/// The argument at which half the square is the size of the shifted order.
pub fn square_at_order(v: f64) -> f64 {
    (2.0 * Split::of(v).u.abs()).sqrt()
}
