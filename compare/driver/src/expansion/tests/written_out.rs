//! The source's expansion and series written once more, with parts that a wrong call exchanges.

use std::f64::consts::LN_2;

use source::entry::{U_POLY, V_POLY, mul_exp, uv_poly};
use stand_ins::{exp_m1, ln};

use crate::expansion::edges::{CLAMP, SHORT};
use crate::expansion::reference::ln_gamma_ratio;
use crate::tables::Answer;

pub fn clamped(x: f64) -> f64 {
    x.clamp(-CLAMP, CLAMP)
}

/// The sums over the flat table. Row number `wrong` is taken `shift` entries farther on.
pub fn sums([t, w]: [f64; 2], wrong: usize, shift: usize) -> [f64; 2] {
    let rows = [U_POLY, V_POLY].concat();
    let table = rows.concat();
    let row = |number: usize| {
        let start: usize = rows[..number].iter().map(|row| row.len()).sum();
        let start = start + if number == wrong { shift } else { 0 };
        &table[start..start + rows[number].len()]
    };
    let term = |first: usize, k: usize| uv_poly(row(first + k), k, t, true);
    let sum = |first| (0..11).rev().fold(0.0, |sum, k| sum * w + term(first, k));
    [sum(0), sum(U_POLY.len())]
}

pub fn mantissas([v, x]: [f64; 2], clamp: fn(f64) -> f64) -> [f64; 3] {
    let (a, x) = (-v - 0.5, clamp(x));
    let s = (0.25 * x * x + a).sqrt();
    let logarithm = if x >= 0.0 {
        ln(0.5 * x + s)
    } else {
        ln(a) - ln(s - 0.5 * x)
    };
    let t = 0.5 * x / a.sqrt();
    let q = t * t + 1.0;
    let [su, sv] = sums([t, 1.0 / (q * q.sqrt() * (2.0 * a))], 0, 0);
    let g = 1.0 + 0.5 * exp_m1(-ln_gamma_ratio(a));
    [
        g * su / (2.0 * s).sqrt(),
        -g * sv * (0.5 * s).sqrt(),
        -0.5 * x * s - a * logarithm + 0.5 * a,
    ]
}

/// The number of steps and the sums; `min` and `max` are those of the test for the last step.
pub fn series(
    [a, x, c0, c1, e]: [f64; 5],
    min: fn(f64, f64) -> f64,
    max: fn(f64, f64) -> f64,
) -> (i32, Answer) {
    let mut c = [0.0, 0.0, c0, c1];
    let (mut d, mut dp, mut xn, mut prev) = (c0 + c1 * x, c1, x, f64::INFINITY);
    let last = (0..60).find(|&n| {
        let n = f64::from(n);
        let next = (a * c[2] + 0.25 * c[0]) / ((n + 1.0) * (n + 2.0));
        c = [c[1], c[2], c[3], next];
        let term = (n + 2.0) * next * xn;
        dp += term;
        xn *= x;
        d += next * xn;
        let size = max(term.abs(), prev);
        prev = term.abs();
        size <= 1e-17 * min(dp.abs(), d.abs() / x.abs())
    });
    let pair = Answer::pair((mul_exp(d, e), mul_exp(dp, e)));
    (last.map_or(60, |n| n + 1), pair)
}

/// The linear terms, scaled by 2^`scale`.
fn short_form([a, x, c0, c1, e]: [f64; 5], scale: i32) -> Answer {
    let (k, e) = (2.0_f64.powi(scale), e - f64::from(scale) * LN_2);
    Answer::pair((
        mul_exp(c0 * k + c1 * (x * k), e),
        mul_exp(c1 * k + a * c0 * (x * k), e),
    ))
}

pub fn maclaurin(input: [f64; 5], scale: i32, min: fn(f64, f64) -> f64) -> Answer {
    let is = |test: fn(f64) -> bool| input.iter().any(|&number| test(number));
    match () {
        () if is(f64::is_nan) => Answer::refused(1),
        () if is(f64::is_infinite) => Answer::refused(5),
        () if input[1].abs() < SHORT => short_form(input, scale),
        () => series(input, min, f64::max).1,
    }
}
