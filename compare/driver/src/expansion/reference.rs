//! The source's functions over the stand-ins, and the requests that the scope paper makes of them.

use source::entry;

use crate::tables::Answer;
pub use over_stand_ins::{d_pair, maclaurin_pair, pbdv_elementary, uv_poly, uv_sums};

/// Where the source's `lgam_stirling_corr` calls `lgam`, which is out of scope.
const LEAST: f64 = 13.0;

pub extern "C" fn log1pmx(w: f64) -> f64 {
    stand_ins::log1pmx(w)
}

/// Below `LEAST` by the formula from there on.
pub extern "C" fn lgam_stirling_corr(x: f64) -> f64 {
    if x < LEAST {
        return entry::polevl(1.0 / (x * x), &entry::GAMMA_A) / x;
    }
    entry::lgam_stirling_corr(x)
}

pub extern "C" fn ln_gamma_ratio(z: f64) -> f64 {
    if z + 0.5 < LEAST {
        return z * log1pmx(0.5 / z) + lgam_stirling_corr(z + 0.5);
    }
    entry::ln_gamma_ratio(z)
}

pub extern "C" fn mul_exp(m: f64, e: f64) -> f64 {
    entry::mul_exp(m, e)
}

pub fn d_expansion(input: [f64; 2]) -> Answer {
    let [v, x] = input;
    if input.iter().any(|number| number.is_nan()) {
        Answer::refused(1)
    } else if v <= -2147483648.0 || v > -20.0 {
        Answer::refused(4)
    } else if x.is_infinite() {
        Answer::refused(5)
    } else {
        d_pair(input)
    }
}

pub fn maclaurin(input: [f64; 5]) -> Answer {
    if input.iter().any(|number| number.is_nan()) {
        Answer::refused(1)
    } else if input.iter().any(|number| number.is_infinite()) {
        Answer::refused(5)
    } else {
        maclaurin_pair(input)
    }
}

/// The calls without refusals over one build of the source.
macro_rules! calls {
    ($module:ident, $build:ident) => {
        pub mod $module {
            use crate::expansion::calls::Polynomial;
            use crate::tables::Answer;
            use ::$build::entry::{self, U_POLY, V_POLY};

            pub fn uv_poly(input: Polynomial) -> f64 {
                let Polynomial { bar, t, .. } = input;
                entry::uv_poly(input.coefficients(), input.s(), t, bar != 0)
            }

            /// In the order of `pbdv_elementary`.
            pub fn uv_sums([t, w]: [f64; 2]) -> [f64; 2] {
                let (mut su, mut sv) = (0.0, 0.0);
                for k in (0..=10).rev() {
                    su = su * w + entry::uv_poly(U_POLY[k], k, t, true);
                    sv = sv * w + entry::uv_poly(V_POLY[k], k, t, true);
                }
                [su, sv]
            }

            /// For orders of −13 and below, and NaN: elsewhere the source calls `lgam`.
            pub fn pbdv_elementary([v, x]: [f64; 2]) -> [f64; 3] {
                let ([value, derivative], exponent) = entry::pbdv_elementary(v, x);
                [value, derivative, exponent]
            }

            /// The pair of an accepted request.
            pub fn d_pair([v, x]: [f64; 2]) -> Answer {
                let ([value, derivative], exponent) = entry::pbdv_elementary(v, x);
                let times = |mantissa| entry::mul_exp(mantissa, exponent);
                Answer::pair((times(value), times(derivative)))
            }

            /// The pair of an accepted request.
            pub fn maclaurin_pair([a, x, c0, c1, e]: [f64; 5]) -> Answer {
                Answer::pair(entry::pb_maclaurin(a, x, c0, c1, e))
            }
        }
    };
}

calls!(over_stand_ins, source);
calls!(over_platform, platform);
