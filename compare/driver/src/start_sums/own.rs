//! The inputs of `start_sums`'s functions beside those of all functions.

use std::f64::consts::PI;
use std::sync::LazyLock;

use super::terms::{self, Sum};
use crate::inputs::{
    Draw, Input, OwnInputs, around, both_signs, change, close_to, halves, pairs, with_next,
};

/// 2^30/π: from this size on the sine and the cosine of π·x are NaN.
pub const SINE_LIMIT: f64 = 1073741824.0 / PI;
/// `gamma2` is infinite from here on.
pub const GAMMA2_INFINITE: f64 = 171.6025447784897;
/// `gamma2` is 0 from here down to −2^30/π, except at poles.
pub const GAMMA2_ZERO: f64 = -170.62437695630274;
/// `gamma2` is infinite from here down to 0, and at the negatives.
pub const RECIPROCAL_INFINITE: f64 = 5.562684646268003e-309;

/// e^(x²/4) is infinite, e^(−x²/4) subnormal or 0 where x²/4 is above these.
pub const SQUARES: [f64; 4] = [
    709.782712893384,
    708.3964185322641,
    745.1332191019412,
    745.2,
];
/// From this size on x² is infinite.
pub const SQUARE_INFINITE: f64 = 1.3407807929942597e154;
/// Up to this size x² is 0.
pub const SQUARE_ZERO: f64 = 1.5717277847026285e-162;

pub const GAMMA2: OwnInputs = OwnInputs {
    limits: || {
        let zero_to_three = [0.0, 0.5, 1.0, 2.0, 3.0, -0.5, -1.0, -2.0, -3.0];
        let far = [171.0, GAMMA2_INFINITE, 172.0, -170.0, GAMMA2_ZERO, -171.0];
        // Whole numbers leave i32, halves and odd numbers end.
        let ends = [2147483648.0, 4503599627370496.0, 9007199254740992.0];
        let sizes = [&ends[..], &[RECIPROCAL_INFINITE, SINE_LIMIT]].concat();
        close_to([&zero_to_three[..], &far, &both_signs(&sizes)].concat())
    },
    edges: || close_to(halves(-400, 400)),
    ordinary: |draw| {
        let x = match draw.below(8) {
            0..2 => draw.uniform(3.0),
            2..4 => draw.uniform(60.0),
            4 => draw.uniform(190.0),
            5 => draw.half_whole(190.0, 0.0),
            6 => draw.close_to_whole(201.0),
            _ => draw.tiny(),
        };
        (x, 0.0)
    },
    timed: |draw| (draw.uniform(60.0), 0.0),
    points: &[],
};

pub const DVSA: OwnInputs = OwnInputs {
    limits: small_limits,
    edges: || [small_edges(), DVSA_LENGTHS.clone()].concat(),
    ordinary: |draw| match draw.below(16) {
        0 => (draw.zero(), whole_order(draw)),
        _ => (small_argument(draw), order(draw)),
    },
    timed: |draw| (draw.uniform(5.8), draw.uniform(1.0)),
    points: &[(2.0, 0.3), (4.0, 0.5), (1.0, -51.5)],
};

pub const VVSA: OwnInputs = OwnInputs {
    edges: || [small_edges(), VVSA_LENGTHS.clone()].concat(),
    timed: |draw| (draw.uniform(7.5), draw.uniform(1.0)),
    points: &[(3.0, 0.25)],
    ..DVSA
};

pub const DVLA: OwnInputs = OwnInputs {
    limits: large_limits,
    edges: || [large_edges(), DVLA_LENGTHS.clone()].concat(),
    ordinary: |draw| (large_argument(draw), order(draw)),
    timed: |draw| (draw.beyond(5.8, 40.0), draw.uniform(1.0)),
    points: &[(-12.0, 4.25)],
};

pub const VVLA: OwnInputs = OwnInputs {
    edges: || [large_edges(), VVLA_LENGTHS.clone()].concat(),
    timed: |draw| (draw.beyond(7.5, 40.0), draw.uniform(1.0)),
    points: &[],
    ..DVLA
};

/// Where 0.5·(1 − va) and 1 + 0.5·va are at i32's lower end, and the poles on either side.
const ORDERS_AT_I32: [f64; 6] = [
    4294967295.0,
    4294967297.0,
    4294967299.0,
    -4294967296.0,
    -4294967298.0,
    -4294967300.0,
];

/// Sizes of orders at which a function changes its course or its answer.
#[rustfmt::skip]
const ORDER_SIZES: [f64; 34] = [
    // The sums for large arguments end at whole orders up to 31, and down to −36.
    30.0, 31.0, 32.0, 33.0, 35.0, 36.0, 37.0,
    // The gamma function of the order or of its half is infinite or 0.
    100.0, 170.0, 171.0, 172.0, 250.0, 340.0, 341.0, 342.0, 343.0, 344.0,
    // The tables end.
    999.0, 999.5, 1000.0, 1001.0, 1002.0,
    // The power of two is infinite, subnormal or 0.
    2044.0, 2046.0, 2048.0, 2050.0, 2150.0, 2158.0, 2160.0,
    // The sine is NaN.
    SINE_LIMIT - 0.5, SINE_LIMIT, SINE_LIMIT + 0.5, 2.0 * SINE_LIMIT - 2.0, 2.0 * SINE_LIMIT + 2.0,
];

/// Inputs between which the number of terms changes.
pub static DVSA_LENGTHS: LazyLock<Vec<Input>> = LazyLock::new(|| lengths(terms::dvsa, 4, 7.5));
pub static VVSA_LENGTHS: LazyLock<Vec<Input>> = LazyLock::new(|| lengths(terms::vvsa, 4, 7.5));
pub static DVLA_LENGTHS: LazyLock<Vec<Input>> = LazyLock::new(|| lengths(terms::dvla, 30, 25.0));
pub static VVLA_LENGTHS: LazyLock<Vec<Input>> = LazyLock::new(|| lengths(terms::vvla, 30, 25.0));

/// The orders that stand with the far arguments.
const FEW_ORDERS: [f64; 6] = [0.0, 0.25, -0.25, 1.0, 2.5, -3.0];

fn small_limits() -> Vec<Input> {
    let at_zero = [&[-0.0, 2.0, -1.0], &ORDERS_AT_I32[..]].concat();
    let at_zero = with_next(&[0.0, 1.0, 3.0, -2.0, -4.0], &at_zero);
    let others = [
        -0.0,
        0.5,
        -0.5,
        -51.5,
        60.5,
        1001.0,
        -1001.0,
        -2048.0,
        -2050.0,
        2158.0,
        2160.0,
        SINE_LIMIT,
        -SINE_LIMIT,
    ];
    let in_series = with_next(&[0.0, 1.0, 2.0, -1.0], &others);
    let arguments = with_next(&[2.0 * SQUARES[3].sqrt()], &[5e-324, 1e-160, 5.8, 7.5]);
    let mut limits = pairs(&[0.0, -0.0], &at_zero);
    limits.extend(pairs(&[1.25, -5.8], &in_series));
    limits.extend(pairs(&both_signs(&arguments), &[0.25]));
    limits
}

fn small_edges() -> Vec<Input> {
    let sizes = [1.0, 5.8, 7.5, 10.0];
    let arguments = [&[0.0, -0.0, 1e-160, 2.0], &both_signs(&sizes)[..]].concat();
    let mut edges = pairs(&arguments, &orders());
    edges.extend(pairs(&far_arguments(), &FEW_ORDERS));
    edges
}

fn large_limits() -> Vec<Input> {
    let others = [
        -0.0,
        0.5,
        -0.5,
        30.0,
        31.0,
        32.0,
        -36.0,
        -37.0,
        SINE_LIMIT,
        -SINE_LIMIT,
    ];
    let orders = with_next(&[0.0, 1.0, 2.0, -1.0, -2.0], &others);
    let roots = SQUARES.map(|square| 2.0 * square.sqrt());
    let arguments = with_next(&roots, &[SQUARE_ZERO, SQUARE_INFINITE]);
    let mut limits = pairs(&[0.0, 5.8, -7.5], &orders);
    limits.extend(pairs(&both_signs(&arguments), &[0.25]));
    limits
}

fn large_edges() -> Vec<Input> {
    let sizes = [5.8, 7.5, 12.0, 40.0];
    let arguments = [&[0.0, -0.0, 2.0], &both_signs(&sizes)[..]].concat();
    let mut edges = pairs(&arguments, &orders());
    edges.extend(pairs(&far_arguments(), &FEW_ORDERS));
    edges
}

/// Whole orders with the four floats on either side, half-whole ones, `ORDER_SIZES` and
/// `ORDERS_AT_I32` with the floats next to them.
fn orders() -> Vec<f64> {
    let whole = (-12..=12).flat_map(|va| around(f64::from(va), 4));
    let far = [&both_signs(&ORDER_SIZES), &ORDERS_AT_I32[..]].concat();
    let orders = whole.chain(halves(-120, 120));
    orders.chain(with_next(&far, &[])).collect()
}

/// Arguments at which x² or an exponential is infinite, subnormal or 0, with their neighbours.
fn far_arguments() -> Vec<f64> {
    let roots = SQUARES.map(|square| 2.0 * square.sqrt());
    let sizes = [&roots[..], &[SQUARE_ZERO, SQUARE_INFINITE]].concat();
    let sizes = both_signs(&sizes).into_iter();
    sizes.flat_map(|x| around(x, 2)).collect()
}

/// Changes of the number of terms up to arguments of this size, with their neighbours. There are
/// `orders` orders of either sign.
fn lengths(sum: Sum, orders: i32, size: f64) -> Vec<Input> {
    let mut inputs = vec![];
    for va in (-orders..orders).map(|k| 0.3 * f64::from(k) + 0.1) {
        let argument = |i: i32| size * f64::from(i) / 20.0;
        for (low, high) in (0..20).map(|i| (argument(i), argument(i + 1))) {
            for sign in [1.0, -1.0] {
                let change = change(|x| sum(sign * x, va).0, low, high);
                let close = change.into_iter().flat_map(|x| around(sign * x, 2));
                inputs.extend(close.map(|x| (x, va)));
            }
        }
    }
    inputs
}

fn small_argument(draw: &mut Draw) -> f64 {
    match draw.below(8) {
        0 => draw.zero(),
        1 => draw.tiny(),
        2..4 => draw.uniform(2.0),
        4..7 => draw.uniform(7.5),
        _ => draw.uniform(20.0),
    }
}

fn large_argument(draw: &mut Draw) -> f64 {
    match draw.below(8) {
        0 => draw.uniform(5.8),
        1 => draw.beyond(40.0, 55.0),
        _ => draw.beyond(5.8, 40.0),
    }
}

fn order(draw: &mut Draw) -> f64 {
    match draw.below(8) {
        0..3 => draw.uniform(3.0),
        3 => draw.uniform(60.0),
        4 => draw.uniform(1002.0),
        5 => draw.close_to_whole(61.0),
        6 => draw.half_whole(60.0, 0.0),
        _ => whole_order(draw),
    }
}

fn whole_order(draw: &mut Draw) -> f64 {
    let size = [4.0, 61.0, 1003.0][draw.below(3)];
    draw.uniform(size).trunc()
}
