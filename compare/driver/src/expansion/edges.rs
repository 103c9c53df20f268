//! The edge inputs of the calls.

use source::entry;

use super::calls::Polynomial;
use super::own::LARGEST;
use super::reference;
use crate::inputs::{self, NANS, around, both_signs, change, halves, with_next};
use crate::start_sums::SQUARE_INFINITE;
use crate::tables::Answer;

/// The order and the argument from which on requests are refused or clamped.
pub const LAST_ORDER: f64 = -20.0;
pub const FIRST_REFUSED: f64 = -2147483648.0;
pub const CLAMP: f64 = 1e9;
/// The last order at which the source can be called.
pub const LAST_OF_SOURCE: f64 = -13.0;
/// Below this size of the argument the series has its short form.
pub const SHORT: f64 = 1e-150;

/// Bars that are false and true.
pub const BARS: [u32; 2] = [0, 1];

/// Every row with each bar at each argument.
pub fn polynomials() -> Vec<Polynomial> {
    let mut polynomials = vec![];
    for t in sum_arguments() {
        for row in 0..Polynomial::ROWS {
            polynomials.extend(BARS.map(|bar| Polynomial { row, bar, t }));
        }
    }
    polynomials
}

/// Those of all functions; and where t² is 0 or subnormal, or the polynomials are infinite.
fn sum_arguments() -> Vec<f64> {
    let sizes = [1e-162, 1e-154, 0.3, 0.75, 1e10, 1e11, 1e12, 1e15, 1e38];
    let mut arguments = inputs::edges();
    arguments.extend(both_signs(&with_next(&[SQUARE_INFINITE], &sizes)));
    arguments
}

fn lists<const N: usize>(xs: &[f64], ys: &[f64], list: fn(f64, f64) -> [f64; N]) -> Vec<[f64; N]> {
    let pairs = inputs::pairs(xs, ys).into_iter();
    pairs.map(|(x, y)| list(x, y)).collect()
}

pub fn limits_of_sums() -> Vec<[f64; 2]> {
    let arguments = [0.0, -0.0, 0.3, -0.3, 5.0, 1e-170, 1e12, f64::INFINITY];
    let weights = [0.0, 0.018, -0.025, 1.0, f64::INFINITY, f64::NAN];
    lists(&arguments, &weights, |t, w| [t, w])
}

pub fn sums() -> Vec<[f64; 2]> {
    let sizes = [0.0, 5e-324, 1e-300, 1e-9, 0.018, 0.025, 1.0, 1e10, f64::MAX];
    let weights = both_signs(&sizes);
    lists(&sum_arguments(), &weights, |t, w| [t, w])
}

/// Limits of the requests, with their neighbours; whole and half-whole orders; and of all sizes.
pub fn orders() -> Vec<f64> {
    let limits = [LAST_ORDER, FIRST_REFUSED, LAST_OF_SOURCE, -21.0];
    let sizes = [
        0.0,
        5e-324,
        1.0,
        12.5,
        20.0,
        21.0,
        100.25,
        500.25,
        1000.0,
        1e5,
        1e8,
        2147483647.0,
        2147483647.5,
        2147483648.5,
        4294967296.0,
        1e15,
        1e22,
        1e100,
        1e300,
        f64::MAX,
        f64::INFINITY,
    ];
    let mut orders = with_next(&limits, &both_signs(&sizes));
    orders.extend(halves(-80, -27));
    orders.extend(NANS.map(f64::from_bits));
    orders
}

/// The clamp's limits with their neighbours; 0; tiny, ordinary and huge; refused ones.
pub fn arguments() -> Vec<f64> {
    let sizes = [
        0.0,
        5e-324,
        1e-310,
        1e-160,
        1e-17,
        0.5,
        1.0,
        3.0,
        5.8,
        10.0,
        40.0,
        53.0,
        1000.0,
        1e5,
        1e8,
        1e10,
        SQUARE_INFINITE,
        f64::MAX,
        f64::INFINITY,
    ];
    let mut arguments = both_signs(&with_next(&[CLAMP], &sizes));
    arguments.extend(NANS.map(f64::from_bits));
    arguments
}

/// Orders of the inputs at which exponents and answers are at a limit.
pub const ORDERS_AT_LIMITS: [f64; 14] = [
    -20.0,
    -20.5,
    -21.0,
    -25.0,
    -50.25,
    -100.0,
    -200.5,
    -300.0,
    -500.25,
    -1000.0,
    -12345.0,
    -1e6,
    -1e8,
    -2147483647.0,
];

/// How many limits `at_limit` knows.
pub const LIMITS: usize = 8;

/// An argument at which limit number `i` is met, if there is one: the exponent is 1400 or −1400, or
/// the value or the derivative is the largest float, the smallest normal one or 0.
pub fn at_limit(v: f64, i: usize) -> Option<f64> {
    let exponent = |x| entry::pbdv_elementary(v, x).1;
    let answer = |x| reference::d_pair([v, x]);
    let above = |size: f64, part: fn(Answer) -> f64| {
        change(|x| part(answer(x)).abs() > size, -CLAMP, CLAMP)
    };
    let sizes = [f64::MAX, f64::MIN_POSITIVE, 0.0];
    match i {
        0 => change(|x| exponent(x) > LARGEST, -CLAMP, CLAMP),
        1 => change(|x| exponent(x) < -LARGEST, -CLAMP, CLAMP),
        2..5 => above(sizes[i - 2], |answer| answer.value),
        _ => above(sizes[i - 5], |answer| answer.derivative),
    }
}

/// The order with the arguments at which limits are met, up to `distance` floats away.
fn at_limits(v: f64, distance: usize) -> impl Iterator<Item = [f64; 2]> {
    let limits = (0..LIMITS).filter_map(move |i| at_limit(v, i));
    limits
        .flat_map(move |x| around(x, distance))
        .map(move |x| [v, x])
}

pub fn limits_of_requests() -> Vec<[f64; 2]> {
    let orders = with_next(&[LAST_ORDER, FIRST_REFUSED], &[-25.0, -500.25]);
    let refused = [0.0, f64::NEG_INFINITY, f64::NAN];
    let mut limits = lists(&orders, &few_arguments(), |v, x| [v, x]);
    limits.extend(lists(&refused, &[0.0, f64::INFINITY, f64::NAN], |v, x| {
        [v, x]
    }));
    limits.extend([-25.0, -500.25].into_iter().flat_map(|v| at_limits(v, 1)));
    limits
}

pub fn requests() -> Vec<[f64; 2]> {
    let mut requests = lists(&orders(), &arguments(), |v, x| [v, x]);
    let orders = ORDERS_AT_LIMITS.into_iter();
    requests.extend(orders.flat_map(|v| at_limits(v, 2)));
    requests
}

pub fn limits_of_mantissas() -> Vec<[f64; 2]> {
    let orders = [LAST_OF_SOURCE, -20.0, -500.25, -1e300, f64::NEG_INFINITY];
    lists(&orders, &few_arguments(), |v, x| [v, x])
}

/// Of the requests, those at which the source can be called.
pub fn mantissas() -> Vec<[f64; 2]> {
    let mut inputs = requests();
    inputs.retain(|&[v, _]| v.is_nan() || v <= LAST_OF_SOURCE);
    inputs
}

fn few_arguments() -> Vec<f64> {
    let sizes = [0.0, CLAMP, CLAMP.next_up(), 3.0, 40.0, f64::INFINITY];
    [&both_signs(&sizes), &[1e-310, f64::NAN][..]].concat()
}

/// Inputs of the series in which two numbers are replaced by edges, and the others are as here.
pub const ORDINARY_SERIES: [[f64; 5]; 4] = [
    [-20.5, 0.1, 1.0, 0.5, 0.0],
    [-300.5, -0.02, 0.0, -1.5, 900.0],
    [2.25, 1e-155, 0.5, -2.0, -3.0],
    [30.25, 12.0, 1e-300, 0.0, -700.0],
];

/// The edges of a, x, c0, c1 and e.
pub fn edges_of_series() -> [Vec<f64>; 5] {
    let parameters = [
        0.0, 0.5, 1.5, 20.5, 20.25, 300.5, 5e-324, 1e10, 1e160, 1e300,
    ];
    let arguments = [
        0.0, 5e-324, 1e-310, 1e-160, 1e-140, 0.1, 2.0, 20.0, 1e3, 1e9,
    ];
    let far = [1e52, 1e77, 1e103, 1e120, SQUARE_INFINITE];
    let mantissas = [0.0, 5e-324, 1e-310, 1e-200, 0.5, 1.0, 1e10, 1e128, 1e300];
    // With the short form the exponent is 600·ln 2 less.
    let scale = 600.0 * std::f64::consts::LN_2;
    let exponents = [0.0, 1.0, scale, 745.2, 1380.0, 1500.0, 1900.0, 1e17, 1e300];
    let limits = [LARGEST, LARGEST - scale, LARGEST + scale, 745.0];
    let ends = [f64::MAX, f64::INFINITY];
    let signed = |numbers: &[f64]| {
        let mut numbers = both_signs(&[numbers, &ends].concat());
        numbers.push(f64::NAN);
        numbers
    };
    [
        signed(&parameters),
        signed(&[&around(SHORT, 1), &arguments[..], &far].concat()),
        signed(&mantissas),
        signed(&mantissas),
        signed(&with_next(&limits, &exponents)),
    ]
}

pub fn series() -> Vec<[f64; 5]> {
    let edges = edges_of_series();
    let mut inputs = vec![];
    for ordinary in ORDINARY_SERIES {
        for i in 0..ordinary.len() {
            for j in 0..i {
                for (x, y) in inputs::pairs(&edges[i], &edges[j]) {
                    let mut input = ordinary;
                    (input[i], input[j]) = (x, y);
                    inputs.push(input);
                }
            }
        }
    }
    inputs
}
