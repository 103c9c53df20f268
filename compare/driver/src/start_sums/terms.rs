//! The source's series and sums written once more, to count their terms.

use std::f64::consts::{PI, SQRT_2, TAU};

use source::entry::gamma2;
use stand_ins::{exp, exp2, powf, sin};

/// The most terms of a series for small arguments, and of the sums of `dvla` and `vvla`.
pub const SERIES: i32 = 250;
pub const DVLA_SUM: i32 = 16;
pub const VVLA_SUM: i32 = 18;

/// The number of terms, and the answer.
pub type Sum = fn(x: f64, va: f64) -> (i32, f64);

/// The first term at which the sum stops, else the last.
fn terms(last: i32, mut stops: impl FnMut(f64) -> bool) -> i32 {
    (1..=last).find(|&k| stops(f64::from(k))).unwrap_or(last)
}

/// For x and va other than 0.
pub fn dvsa(x: f64, va: f64) -> (i32, f64) {
    let (mut sum, mut r) = (gamma2(-0.5 * va), 1.0);
    let terms = terms(SERIES, |m| {
        r = -r * SQRT_2 * x / m;
        let term = gamma2(0.5 * (m - va)) * r;
        sum += term;
        term.abs() < f64::abs(sum) * 1e-15
    });
    let factor = exp2(-0.5 * va - 1.0) * exp(-0.25 * x * x) / gamma2(-va);
    (terms, sum * factor)
}

/// For x other than 0.
pub fn vvsa(x: f64, va: f64) -> (i32, f64) {
    let sine = sin(-(va + 0.5) * PI);
    let (mut sum, mut r, mut weight) = ((sine + 1.0) * gamma2(-0.5 * va), 1.0, sine);
    let terms = terms(SERIES, |m| {
        let gamma = gamma2(0.5 * (m - va));
        r = r * SQRT_2 * x / m;
        weight = -weight;
        sum += (weight + 1.0) * r * gamma;
        f64::abs(r * gamma / sum) < 1e-15
    });
    let factor = exp2(-0.5 * va) * exp(-0.25 * x * x) / TAU;
    (terms, sum * factor)
}

/// The answer is that for x's size.
pub fn dvla(x: f64, va: f64) -> (i32, f64) {
    let (mut sum, mut r) = (1.0, 1.0);
    let terms = terms(DVLA_SUM, |k| {
        r = -0.5 * r * (2.0 * k - va - 1.0) * (2.0 * k - va - 2.0) / (k * x * x);
        sum += r;
        f64::abs(r / sum) < 1e-12
    });
    let factor = powf(x.abs(), va) * exp(-0.25 * x * x);
    (terms, sum * factor)
}

/// The answer is that for x's size.
pub fn vvla(x: f64, va: f64) -> (i32, f64) {
    let (mut sum, mut r) = (1.0, 1.0);
    let terms = terms(VVLA_SUM, |k| {
        r = 0.5 * r * (2.0 * k + va - 1.0) * (2.0 * k + va) / (k * x * x);
        sum += r;
        f64::abs(r / sum) < 1e-12
    });
    let factor = powf(x.abs(), -va - 1.0) * (2.0 / PI).sqrt() * exp(0.25 * x * x);
    (terms, sum * factor)
}
