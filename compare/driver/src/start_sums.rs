//! The library crates `gamma`, `start_sums_small` and `start_sums_large`: the gamma function and the
//! sums from which the tables start.

mod own;
mod terms;
#[cfg(test)]
mod tests;

use crate::functions::{Function, Pair, Sides, function};
pub use own::{SQUARE_INFINITE, SQUARES};

/// The library's functions.
mod library {
    unsafe extern "C" {
        pub safe fn compared_gamma2(x: f64) -> f64;
        pub safe fn compared_dvsa(x: f64, va: f64) -> f64;
        pub safe fn compared_dvla(x: f64, va: f64) -> f64;
        pub safe fn compared_vvsa(x: f64, va: f64) -> f64;
        pub safe fn compared_vvla(x: f64, va: f64) -> f64;
    }
}

/// The source's functions over the stand-ins.
mod reference {
    use source::entry;

    pub extern "C" fn gamma2(x: f64) -> f64 {
        entry::gamma2(x)
    }

    pub extern "C" fn dvsa(x: f64, va: f64) -> f64 {
        entry::dvsa(x, va)
    }

    pub extern "C" fn dvla(x: f64, va: f64) -> f64 {
        entry::dvla(x, va)
    }

    pub extern "C" fn vvsa(x: f64, va: f64) -> f64 {
        entry::vvsa(x, va)
    }

    pub extern "C" fn vvla(x: f64, va: f64) -> f64 {
        entry::vvla(x, va)
    }
}

/// The functions by their numbers in the stored answers.
pub const FUNCTIONS: [Function; 5] = [
    function!(19, Number, gamma2, compared_gamma2, Some(own::GAMMA2)),
    function!(20, NumberOfTwo, dvsa, compared_dvsa, Some(own::DVSA)),
    function!(21, NumberOfTwo, dvla, compared_dvla, Some(own::DVLA)),
    function!(22, NumberOfTwo, vvsa, compared_vvsa, Some(own::VVSA)),
    function!(23, NumberOfTwo, vvla, compared_vvla, Some(own::VVLA)),
];
