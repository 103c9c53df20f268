//! The elementary functions of the scope paper, operation for operation: each step is one rounded
//! operation, left to right.
//!
//! This crate must not use std, nor may any crate that `source` depends on: std's methods of f64
//! would then be called in place of [`Elementary`]'s.

#![no_std]

#[cfg(test)]
mod tests;

const LN_2_HIGH: f64 = 0.6931471803691238;
const LN_2_LOW: f64 = 1.9082149292705877e-10;
const TWO_POWER_54: f64 = 18014398509481984.0;

// C's functions of the platform. IEEE 754 and C fix their answers.
mod c {
    unsafe extern "C" {
        pub safe fn sqrt(x: f64) -> f64;
        pub safe fn trunc(x: f64) -> f64;
    }
}

/// The methods that core's f64 lacks and the source calls.
pub trait Elementary {
    fn exp(self) -> f64;
    fn exp2(self) -> f64;
    fn exp_m1(self) -> f64;
    fn ln(self) -> f64;
    fn powf(self, p: f64) -> f64;
    fn sin(self) -> f64;
    fn cos(self) -> f64;
    fn sqrt(self) -> f64;
    fn trunc(self) -> f64;
    fn fract(self) -> f64;
}

impl Elementary for f64 {
    fn exp(self) -> f64 {
        exp(self)
    }

    fn exp2(self) -> f64 {
        exp2(self)
    }

    fn exp_m1(self) -> f64 {
        exp_m1(self)
    }

    fn ln(self) -> f64 {
        ln(self)
    }

    fn powf(self, p: f64) -> f64 {
        powf(self, p)
    }

    fn sin(self) -> f64 {
        sin(self)
    }

    fn cos(self) -> f64 {
        cos(self)
    }

    fn sqrt(self) -> f64 {
        c::sqrt(self)
    }

    fn trunc(self) -> f64 {
        c::trunc(self)
    }

    fn fract(self) -> f64 {
        self - c::trunc(self)
    }
}

pub fn exp(y: f64) -> f64 {
    if y.is_nan() {
        return y;
    }
    if y > 709.782712893384 {
        return f64::INFINITY;
    }
    if y < -745.2 {
        return 0.0;
    }
    #[allow(clippy::approx_constant)]
    let k = near(y * 1.4426950408889634);
    let r = (y - f64::from(k) * LN_2_HIGH) - f64::from(k) * LN_2_LOW;
    scaled(exp_sum(r, 1), k)
}

pub fn exp2(y: f64) -> f64 {
    if y.is_nan() {
        return y;
    }
    if y >= 1024.0 {
        return f64::INFINITY;
    }
    if y < -1080.0 {
        return 0.0;
    }
    let k = near(y);
    #[allow(clippy::approx_constant)]
    let r = (y - f64::from(k)) * 0.6931471805599453;
    scaled(exp_sum(r, 1), k)
}

pub fn exp_m1(y: f64) -> f64 {
    if y.abs() > 0.5 {
        return exp(y) - 1.0;
    }
    y * exp_sum(y, 2)
}

pub fn ln(b: f64) -> f64 {
    if b.is_nan() || b == f64::INFINITY {
        return b;
    }
    if b == 0.0 {
        return f64::NEG_INFINITY;
    }
    if b < 0.0 {
        return f64::NAN;
    }
    let (mut m, mut e) = mantissa_and_exponent(b);
    #[allow(clippy::approx_constant)]
    if m >= 1.4142135623730951 {
        m *= 0.5;
        e += 1;
    }
    let g = (m - 1.0) / (m + 1.0);
    let z = g * g;
    let mut a = 0.0;
    for j in (0..=12).rev() {
        a = 1.0 / f64::from(2 * j + 1) + z * a;
    }
    ((2.0 * g) * a + f64::from(e) * LN_2_LOW) + f64::from(e) * LN_2_HIGH
}

/// The scope paper gives it for b of 0 or more and for NaN. A negative b takes the same formula.
pub fn powf(b: f64, p: f64) -> f64 {
    if p == 0.0 {
        return 1.0;
    }
    exp(p * ln(b))
}

pub fn sin(y: f64) -> f64 {
    let Some((q, r)) = quadrant(y) else {
        return f64::NAN;
    };
    match q {
        0 => sin_sum(r),
        1 => cos_sum(r),
        2 => -sin_sum(r),
        _ => -cos_sum(r),
    }
}

pub fn cos(y: f64) -> f64 {
    let Some((q, r)) = quadrant(y) else {
        return f64::NAN;
    };
    match q {
        0 => cos_sum(r),
        1 => -sin_sum(r),
        2 => -cos_sum(r),
        _ => sin_sum(r),
    }
}

/// ln(1 + w) − w for |w| < 0.5; beyond that the same steps, whatever they give.
pub fn log1pmx(w: f64) -> f64 {
    let mut c = w;
    let mut sum = 0.0;
    for i in 2..=499 {
        c *= -w;
        let term = c / f64::from(i);
        sum += term;
        if term.abs() < 1.1102230246251565e-16 * f64::abs(sum) {
            break;
        }
    }
    sum
}

/// t + 0.5 or t − 0.5, cut towards zero.
fn near(t: f64) -> i32 {
    (if t >= 0.0 { t + 0.5 } else { t - 0.5 }) as i32
}

/// The sum of the exponential's series, from the inside out, with 16 to `last` as divisors.
fn exp_sum(r: f64, last: i32) -> f64 {
    let mut p = 1.0;
    for j in (last..=16).rev() {
        p = 1.0 + (r * p) / f64::from(j);
    }
    p
}

/// p·2^k, in two factors that are normal for every k that `exp` and `exp2` meet.
fn scaled(p: f64, k: i32) -> f64 {
    let h = k / 2;
    p * power_of_two(h) * power_of_two(k - h)
}

/// 2^k for −1022 ≤ k ≤ 1023.
fn power_of_two(k: i32) -> f64 {
    f64::from_bits(((1023 + k) as u64) << 52)
}

/// b = m·2^e with 1 ≤ m < 2, for finite b above 0.
fn mantissa_and_exponent(b: f64) -> (f64, i32) {
    if b < f64::MIN_POSITIVE {
        let (m, e) = mantissa_and_exponent(b * TWO_POWER_54);
        return (m, e - 54);
    }
    let e = (b.to_bits() >> 52) as i32 - 1023;
    let m = f64::from_bits((b.to_bits() & ((1 << 52) - 1)) | 1.0_f64.to_bits());
    (m, e)
}

/// The number of quarter turns modulo 4, and what remains of y; none where y is out of range.
fn quadrant(y: f64) -> Option<(i32, f64)> {
    if y.is_nan() || y.abs() >= 1073741824.0 {
        return None;
    }
    #[allow(clippy::approx_constant)]
    let q = near(y * 0.6366197723675814);
    let r = (y - f64::from(q) * 1.5707963267341256) - f64::from(q) * 6.077100506506192e-11;
    Some((q.rem_euclid(4), r))
}

fn sin_sum(r: f64) -> f64 {
    let z = r * r;
    let mut a = 1.0;
    for j in (1..=9).rev() {
        a = 1.0 - (z * a) / f64::from((2 * j) * (2 * j + 1));
    }
    r * a
}

fn cos_sum(r: f64) -> f64 {
    let z = r * r;
    let mut b = 1.0;
    for j in (1..=9).rev() {
        b = 1.0 - (z * b) / f64::from((2 * j - 1) * (2 * j));
    }
    b
}
