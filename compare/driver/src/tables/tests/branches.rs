//! The branches of the source's table functions by name.

use crate::tables::Kind;
use crate::tables::split::{Split, needed};

pub const REFUSALS: [&str; 3] = ["refusal 1", "refusal 2", "refusal 3"];

const D: [&str; 8] = [
    "v >= 0, f = 0",
    "v >= 0, small x",
    "v >= 0, large x",
    "v < 0, small x <= 0",
    "v < 0, large x <= 0",
    "v < 0, 0 < x <= 2",
    "v < 0, small x > 2",
    "v < 0, large x > 2",
];

const V: [&str; 13] = [
    "v < 0, f = 0, n = 1",
    "v < 0, f = 0, small x",
    "v < 0, f = 0, large x",
    "v < 0, small x",
    "v < 0, large x",
    "v >= 0, 0 <= x <= 7.5",
    "v >= 0, x < 0, u <= x*x/2",
    "v >= 0, x > 7.5, u <= x*x/2",
    "v >= 0, x > 7.5, u > x*x/2",
    "v >= 0, x > 10",
    "v >= 0, small x < 0, u > x*x/2",
    "v >= 0, large x < 0, u > x*x/2",
    "v >= 0, x < -10",
];

/// Branches that orders above 27 reach alone.
pub const ABOVE_ORDER_27: [&str; 2] = [V[8], V[11]];

/// The refusals and branches of a call.
pub fn all(kind: Kind) -> Vec<&'static str> {
    let branches = match kind {
        Kind::D => &D[..],
        Kind::V => &V,
    };
    [&REFUSALS, branches].concat()
}

/// The refusal of a request, or the branch that answers it.
pub fn with_refusals(kind: Kind, v: f64, x: f64, length: usize) -> &'static str {
    if v.is_nan() || x.is_nan() {
        REFUSALS[0]
    } else if v.abs() >= 1000.0 {
        REFUSALS[1]
    } else if length < needed(v) {
        REFUSALS[2]
    } else {
        match kind {
            Kind::D => of_d(v, x),
            Kind::V => of_v(v, x),
        }
    }
}

fn of_d(v: f64, x: f64) -> &'static str {
    let Split { u, f, .. } = Split::of(v);
    let large = usize::from(x.abs() > 5.8);
    if u > 0.0 && f == 0.0 {
        D[0]
    } else if u > 0.0 {
        D[1 + large]
    } else if x <= 0.0 {
        D[3 + large]
    } else if x <= 2.0 {
        D[5]
    } else {
        D[6 + large]
    }
}

fn of_v(v: f64, x: f64) -> &'static str {
    let Split { u, f, n, .. } = Split::of(v);
    let large = usize::from(x.abs() > 7.5);
    let below_square = x.abs() <= 10.0 && u <= 0.5 * x * x;
    if u < 0.0 && f == 0.0 {
        if n == 1 { V[0] } else { V[1 + large] }
    } else if u < 0.0 {
        V[3 + large]
    } else if (0.0..=7.5).contains(&x) {
        V[5]
    } else if below_square {
        if x < 0.0 { V[6] } else { V[7] }
    } else if x > 0.0 {
        if x <= 10.0 { V[8] } else { V[9] }
    } else {
        if x < -10.0 { V[12] } else { V[10 + large] }
    }
}
