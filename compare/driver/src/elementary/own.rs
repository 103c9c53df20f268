//! The inputs of `elementary`'s functions beside those of all functions.

use std::f64::consts::{FRAC_1_SQRT_2, FRAC_PI_2, FRAC_PI_4, LN_2, PI, SQRT_2};

use crate::inputs::{Draw, Input, OwnInputs, close_to, halves, pairs, power_of_two};

/// 2^30, from which on `sin` and `cos` answer NaN.
const ANGLE_LIMIT: f64 = 1073741824.0;

/// Where `exp` gives infinity, 0 and subnormal numbers, `exp_m1` changes, and 1 + y gives 1.
const EXP_LIMITS: [f64; 11] = [
    709.782712893384,
    -745.2,
    -745.1332191019412,
    -745.13,
    -708.4,
    -708.3964185322641,
    0.5,
    -0.5,
    1.1102230246251565e-16,
    -1.1102230246251565e-16,
    0.0,
];

pub const EXP: OwnInputs = OwnInputs {
    limits: || close_to(EXP_LIMITS),
    edges: || close_to(halves(-2152, 2050).map(|half| half * LN_2)),
    ordinary: |draw| match draw.below(5) {
        0 => (draw.half_whole(1024.0, 0.01) * LN_2, 0.0),
        i => (draw.uniform([750.0, 40.0, 1.0, 1e-8][i - 1]), 0.0),
    },
    timed: |draw| (draw.uniform(700.0), 0.0),
    points: &[],
};

pub const EXP_M1: OwnInputs = OwnInputs {
    timed: |draw| (draw.uniform(2.0), 0.0),
    ..EXP
};

pub const EXP2: OwnInputs = OwnInputs {
    limits: || close_to([1024.0, -1080.0, -1075.0, -1074.0, -1022.0, 0.5, -0.5, 0.0]),
    edges: || close_to(halves(-2160, 2048)),
    ordinary: |draw| match draw.below(5) {
        0 => (draw.half_whole(1024.0, 0.01), 0.0),
        i => (draw.uniform([1100.0, 1100.0, 40.0, 1.0][i - 1]), 0.0),
    },
    timed: |draw| (draw.uniform(1000.0), 0.0),
    points: &[],
};

/// Of `sin` and `cos`.
pub const ANGLES: OwnInputs = OwnInputs {
    limits: || {
        let sizes = [ANGLE_LIMIT, FRAC_PI_4, FRAC_PI_2, PI];
        close_to(sizes.into_iter().flat_map(|size| [size, -size]))
    },
    // The quotient changes at the odd multiples. −(va + 0.5)·π is an even one for every whole va.
    edges: || close_to((-8200..=8200).map(|k| f64::from(k) * FRAC_PI_4)),
    ordinary: angle,
    timed: |draw| (draw.uniform(1000.0), 0.0),
    points: &[],
};

fn angle(draw: &mut Draw) -> Input {
    let y = match draw.below(8) {
        0..2 => draw.uniform(10.0),
        2..4 => draw.uniform(4000.0),
        4..6 => draw.uniform(1.1e9),
        6 => {
            let multiple = draw.uniform(1.4e9).trunc() * FRAC_PI_4;
            draw.close(multiple)
        }
        _ => draw.tiny(),
    };
    (y, 0.0)
}

/// Of `ln` and `square_root`.
pub const POSITIVE: OwnInputs = OwnInputs {
    limits: || {
        let ends = [f64::INFINITY, f64::MAX, f64::MIN_POSITIVE, 5e-324];
        let others = [1.0, SQRT_2, FRAC_1_SQRT_2, 0.5, 2.0, 2.25, 4.0];
        close_to(ends.into_iter().chain(others))
    },
    edges: || {
        let mut edges = close_to((-1074..=1023).map(power_of_two));
        edges.extend(close_to((-1074..=1023).map(|k| power_of_two(k) * SQRT_2)));
        edges.extend(close_to((3..=2000).map(square_of_halves)));
        edges.extend(close_to((-500..500).map(|i| with_root_between(8 * i + 1))));
        edges
    },
    ordinary: positive,
    timed: |draw| (draw.uniform(1000.0).abs(), 0.0),
    points: &[],
};

fn positive(draw: &mut Draw) -> Input {
    let x = match draw.below(8) {
        0..2 => f64::from_bits(draw.bits() >> 1),
        2 => draw.uniform(1000.0).abs(),
        3 => [FRAC_1_SQRT_2, SQRT_2][draw.below(2)] + draw.uniform(0.01),
        4 => 1.0 + draw.uniform(0.5) * power_of_two(-(draw.below(50) as i32)),
        5 => f64::from_bits(draw.bits() >> (12 + draw.below(52))),
        6 => {
            let square = square_of_halves(draw.bits() >> (10 + draw.below(52)));
            draw.close(square)
        }
        _ => {
            let rest = 1 + 8 * (draw.bits() >> 44) as i64 - (1 << 22);
            let exponent = 2 * draw.below(980) as i32 - 1070;
            with_root_between(rest) * power_of_two(exponent)
        }
    };
    (x, 0.0)
}

/// (n/2)², rounded, for n below 2^64: for odd n of 54 bits n/2 lies between two floats.
fn square_of_halves(n: u64) -> f64 {
    let n = u128::from(n);
    (n * n) as f64 / 4.0
}

/// The float m² − `rest` for some odd m of 54 bits: m lies halfway between two floats, and the root
/// is near m. `rest` − 1 is a multiple of 8.
pub fn with_root_between(rest: i64) -> f64 {
    let mut m = 1_u64;
    // m² ≡ rest modulo 2^bit
    for bit in 3..55 {
        if (m.wrapping_mul(m).wrapping_sub(rest as u64) >> bit) & 1 == 1 {
            m += 1 << (bit - 1);
        }
    }
    // 2^54 − m does as well, and one of the two has 54 bits.
    let m = m % (1 << 54);
    let m = i128::from(m.max((1 << 54) - m));
    (m * m - i128::from(rest)) as f64
}

pub const POW: OwnInputs = OwnInputs {
    limits: || {
        let (inf, nan) = (f64::INFINITY, f64::NAN);
        let bases = [1.0, -1.0, 2.0, 0.5, 10.0, 0.0, inf, nan];
        let powers = [0.0, -0.0, 1.0, -1.0, 0.5, -0.5, 2.5, inf, -inf, nan];
        pairs(&bases, &powers)
    },
    edges: pow_edges,
    ordinary: base_and_power,
    timed: |draw| (draw.uniform(100.0).abs(), draw.uniform(10.0)),
    points: &[],
};

/// Half-whole powers, and powers at which the answer is at the limits of `exp`.
fn pow_edges() -> Vec<Input> {
    let bases = [
        1e-10, 0.001, 0.1, 0.5, 0.9, 1.1, 2.0, 3.0, 5.8, 10.0, 20.0, 1000.0, 1e10,
    ];
    let powers: Vec<f64> = halves(-40, 40).collect();
    let mut edges = pairs(&bases, &powers);
    for base in bases {
        let powers = close_to(EXP_LIMITS.map(|limit| limit / stand_ins::ln(base)));
        edges.extend(powers.into_iter().map(|(power, _)| (base, power)));
    }
    edges
}

fn base_and_power(draw: &mut Draw) -> Input {
    match draw.below(8) {
        0..3 => (draw.uniform(100.0).abs(), draw.uniform(20.0)),
        3..5 => {
            let base = stand_ins::exp(draw.uniform(23.0));
            (base, draw.uniform(745.0) / stand_ins::ln(base))
        }
        5..7 => (draw.uniform(100.0).abs(), draw.half_whole(20.0, 0.0)),
        _ => (1.0 + draw.uniform(0.01), draw.uniform(1e4)),
    }
}
