//! The library crates `exponential`, `logarithm`, `trigonometric` and `roots`: the scope paper's elementary functions.

mod own;
#[cfg(test)]
mod tests;

use crate::functions::{Function, Pair, Sides, function};

/// The library's functions.
mod library {
    unsafe extern "C" {
        pub safe fn compared_exp(y: f64) -> f64;
        pub safe fn compared_exp2(y: f64) -> f64;
        pub safe fn compared_exp_m1(y: f64) -> f64;
        pub safe fn compared_ln(b: f64) -> f64;
        pub safe fn compared_pow(b: f64, p: f64) -> f64;
        pub safe fn compared_sin(y: f64) -> f64;
        pub safe fn compared_cos(y: f64) -> f64;
        pub safe fn compared_square_root(x: f64) -> f64;
    }
}

/// The stand-ins, and the platform's square root.
mod reference {
    pub extern "C" fn exp(y: f64) -> f64 {
        stand_ins::exp(y)
    }

    pub extern "C" fn exp2(y: f64) -> f64 {
        stand_ins::exp2(y)
    }

    pub extern "C" fn exp_m1(y: f64) -> f64 {
        stand_ins::exp_m1(y)
    }

    pub extern "C" fn ln(b: f64) -> f64 {
        stand_ins::ln(b)
    }

    pub extern "C" fn pow(b: f64, p: f64) -> f64 {
        stand_ins::powf(b, p)
    }

    pub extern "C" fn sin(y: f64) -> f64 {
        stand_ins::sin(y)
    }

    pub extern "C" fn cos(y: f64) -> f64 {
        stand_ins::cos(y)
    }

    pub extern "C" fn square_root(x: f64) -> f64 {
        x.sqrt()
    }
}

/// The functions by their numbers in the stored answers.
pub const FUNCTIONS: [Function; 8] = [
    function!(11, Number, exp, compared_exp, Some(own::EXP)),
    function!(12, Number, exp2, compared_exp2, Some(own::EXP2)),
    function!(13, Number, exp_m1, compared_exp_m1, Some(own::EXP_M1)),
    function!(14, Number, ln, compared_ln, Some(own::POSITIVE)),
    function!(15, NumberOfTwo, pow, compared_pow, Some(own::POW)),
    function!(16, Number, sin, compared_sin, Some(own::ANGLES)),
    function!(17, Number, cos, compared_cos, Some(own::ANGLES)),
    function!(
        18,
        Number,
        square_root,
        compared_square_root,
        Some(own::POSITIVE)
    ),
];
