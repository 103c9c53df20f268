//! The library crates `gamma_ratio`, `mul_exp`, `expansion`, `maclaurin` and those of the same names
//! with an ending: D at large negative orders, the Maclaurin series, and the functions below them.

mod calls;
mod drawn;
mod edges;
mod own;
mod reference;
pub mod stored;
#[cfg(test)]
mod tests;

use crate::comparing::Tally;
use crate::functions::{Function, Pair, Sides, function};
pub use calls::{Call, D_EXPANSION, MACLAURIN, PBDV_ELEMENTARY, UV_POLY, UV_SUMS};
#[cfg(test)]
pub use edges::SHORT;
pub use reference::maclaurin;

/// The library's functions.
mod library {
    use super::calls::Numbers;
    use crate::tables::Answer;

    unsafe extern "C" {
        pub safe fn compared_log1pmx(w: f64) -> f64;
        pub safe fn compared_lgam_stirling_corr(x: f64) -> f64;
        pub safe fn compared_ln_gamma_ratio(z: f64) -> f64;
        pub safe fn compared_mul_exp(m: f64, e: f64) -> f64;
        pub fn compared_uv_poly(p: *const f64, len: usize, s: u32, t: f64, bar: u32) -> f64;
        pub safe fn compared_uv_sums(t: f64, w: f64) -> Numbers<2>;
        pub safe fn compared_pbdv_elementary(v: f64, x: f64) -> Numbers<3>;
        pub safe fn gozhnerim_d_expansion(v: f64, x: f64) -> Answer;
        pub safe fn gozhnerim_maclaurin(a: f64, x: f64, c0: f64, c1: f64, e: f64) -> Answer;
    }
}

/// The functions by their numbers in the stored answers.
pub const FUNCTIONS: [Function; 4] = [
    function!(26, Number, log1pmx, compared_log1pmx, Some(own::LOG1PMX)),
    function!(
        27,
        Number,
        lgam_stirling_corr,
        compared_lgam_stirling_corr,
        Some(own::LGAM_STIRLING_CORR)
    ),
    function!(
        28,
        Number,
        ln_gamma_ratio,
        compared_ln_gamma_ratio,
        Some(own::LN_GAMMA_RATIO)
    ),
    function!(
        29,
        NumberOfTwo,
        mul_exp,
        compared_mul_exp,
        Some(own::MUL_EXP)
    ),
];

/// How many calls there are beside the functions.
pub const CALLS: usize = 5;

/// Compares the calls over `count` inputs each.
pub fn compare_calls(tally: &mut Tally, count: usize, seed: u64) {
    UV_POLY.compare(tally, count, seed);
    UV_SUMS.compare(tally, count, seed);
    PBDV_ELEMENTARY.compare(tally, count, seed);
    D_EXPANSION.compare(tally, count, seed);
    MACLAURIN.compare(tally, count, seed);
}
