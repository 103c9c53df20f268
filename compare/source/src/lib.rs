//! The source's text over the stand-ins.
//!
//! Without std, `exp` and the others are no methods of f64 itself, so that the text's calls of
//! them go to [`Elementary`].

#![no_std]
// In the source's text.
#![allow(clippy::excessive_precision)]

extern crate alloc;

use alloc::vec::Vec;
use stand_ins::Elementary;

include!("../../entries.rs");

/// Compiles only if none of these is a method of f64 itself, which would go before a trait's.
mod no_method_of_f64 {
    struct OfTheTrait;

    macro_rules! no_method_of_f64 {
        ($($name:ident),*) => {
            trait Probe: Sized {
                $(fn $name(self) -> OfTheTrait {
                    OfTheTrait
                })*
            }
            impl Probe for f64 {}
            $(const _: fn(f64) -> OfTheTrait = |x| x.$name();)*
        };
    }

    no_method_of_f64!(exp, exp2, exp_m1, ln, powf, sin, cos, sqrt, trunc, fract);
}
