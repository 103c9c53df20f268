//! The library crates `signs`, `truncation` and `extremes`: what the text needs of f64 beside its arithmetic.

use crate::functions::{Function, Pair, Sides, function};

/// The library's functions.
mod library {
    unsafe extern "C" {
        pub safe fn compared_abs(x: f64) -> f64;
        pub safe fn compared_is_nan(x: f64) -> u8;
        pub safe fn compared_is_infinite(x: f64) -> u8;
        pub safe fn compared_to_i32(x: f64) -> i32;
        pub safe fn compared_trunc(x: f64) -> f64;
        pub safe fn compared_fract(x: f64) -> f64;
        pub safe fn compared_min(x: f64, y: f64) -> f64;
        pub safe fn compared_max(x: f64, y: f64) -> f64;
        pub safe fn compared_signum(x: f64) -> f64;
        pub safe fn compared_alike(x: f64, y: f64) -> u8;
    }
}

/// Rust's own.
mod reference {
    pub extern "C" fn abs(x: f64) -> f64 {
        x.abs()
    }

    pub extern "C" fn is_nan(x: f64) -> u8 {
        u8::from(x.is_nan())
    }

    pub extern "C" fn is_infinite(x: f64) -> u8 {
        u8::from(x.is_infinite())
    }

    pub extern "C" fn to_i32(x: f64) -> i32 {
        x as i32
    }

    pub extern "C" fn trunc(x: f64) -> f64 {
        x.trunc()
    }

    pub extern "C" fn fract(x: f64) -> f64 {
        x - x.trunc()
    }

    /// Of two that compare equal the first: Rust leaves open which zero it gives.
    pub extern "C" fn min(x: f64, y: f64) -> f64 {
        if x == y { x } else { x.min(y) }
    }

    /// Of two that compare equal the first.
    pub extern "C" fn max(x: f64, y: f64) -> f64 {
        if x == y { x } else { x.max(y) }
    }

    pub extern "C" fn signum(x: f64) -> f64 {
        x.signum()
    }

    pub extern "C" fn alike(x: f64, y: f64) -> u8 {
        u8::from(x.to_bits() == y.to_bits() || (x.is_nan() && y.is_nan()))
    }
}

/// The functions by their numbers in the stored answers.
pub const FUNCTIONS: [Function; 10] = [
    function!(1, Number, abs, compared_abs, None),
    function!(2, Truth, is_nan, compared_is_nan, None),
    function!(3, Truth, is_infinite, compared_is_infinite, None),
    function!(4, Whole, to_i32, compared_to_i32, None),
    function!(5, Number, trunc, compared_trunc, None),
    function!(6, Number, fract, compared_fract, None),
    function!(7, NumberOfTwo, min, compared_min, None),
    function!(8, NumberOfTwo, max, compared_max, None),
    function!(9, Number, signum, compared_signum, None),
    function!(10, TruthOfTwo, alike, compared_alike, None),
];
