// The extracted text and its entry points, included by `source` and by `platform`.

use core::f64::consts::{LN_2, PI, SQRT_2, TAU};
use stand_ins::log1pmx;

include!(concat!(env!("OUT_DIR"), "/items.rs"));

/// Not in scope: `lgam_stirling_corr` calls it below 13 only, and is called at 13 or more only.
fn lgam(x: f64) -> f64 {
    panic!("lgam({x:?}) is out of scope");
}

macro_rules! entries {
    ($(fn $name:ident($($argument:ident: $type:ty),*) -> $answer:ty;)*) => {
        /// The extracted functions and tables by their own names, open to other crates.
        pub mod entry {
            pub const LARGE_V: f64 = super::LARGE_V;
            pub const GAMMA_A: [f64; 5] = super::GAMMA_A;
            pub const U_POLY: [&[f64]; 11] = super::U_POLY;
            pub const V_POLY: [&[f64]; 11] = super::V_POLY;

            $(pub fn $name($($argument: $type),*) -> $answer {
                super::$name($($argument),*)
            })*
        }
    };
}

entries! {
    fn mul_exp(m: f64, e: f64) -> f64;
    fn gamma2(x: f64) -> f64;
    fn polevl(x: f64, coef: &[f64]) -> f64;
    fn lgam_stirling_corr(x: f64) -> f64;
    fn dvsa(x: f64, va: f64) -> f64;
    fn dvla(x: f64, va: f64) -> f64;
    fn vvla(x: f64, va: f64) -> f64;
    fn vvla_qe(x: f64, va: f64, qe: f64) -> f64;
    fn vvsa(x: f64, va: f64) -> f64;
    fn alloc_buf(v: f64) -> Option<(alloc::vec::Vec<f64>, usize)>;
    fn pbdv_impl(x: f64, v: f64, buf: &mut [f64], num: usize) -> (f64, f64);
    fn pbvv_impl(x: f64, v: f64, buf: &mut [f64], num: usize) -> (f64, f64);
    fn uv_poly(p: &[f64], s: usize, t: f64, bar: bool) -> f64;
    fn ln_gamma_ratio(z: f64) -> f64;
    fn pbdv_elementary(v: f64, x: f64) -> ([f64; 2], f64);
    fn pb_maclaurin(a: f64, x: f64, c0: f64, c1: f64, e: f64) -> (f64, f64);
}
