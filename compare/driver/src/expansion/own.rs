//! The inputs of the layer's functions of one or two numbers beside those of all functions.

use crate::inputs::{
    Draw, Input, OwnInputs, around, both_signs, close_to, halves, pairs, power_of_two,
};
use crate::start_sums::SQUARE_INFINITE;

/// From this size on the exponent is added to the mantissa's logarithm.
pub const LARGEST: f64 = 1400.0;
/// `exp` is infinite above the first, subnormal below the second, 0 below the others.
pub const EXP_LIMITS: [f64; 4] = [
    709.782712893384,
    -708.3964185322641,
    -745.1332191019412,
    -745.2,
];
/// Up to this size 1/x² is infinite.
pub const INVERSE_SQUARE_INFINITE: f64 = 7.458340731200207e-155;

pub const LOG1PMX: OwnInputs = OwnInputs {
    limits: || {
        let sizes = [0.025, 0.04, 0.5, 1.0, 2.0, 1e-16, 1e-154, 1e-162, 5e-324];
        close_to([&[0.0], &both_signs(&sizes)[..]].concat())
    },
    edges: || close_to((-600..=600).map(|k| f64::from(k) / 400.0)),
    ordinary: |draw| {
        let w = match draw.below(8) {
            0..3 => draw.uniform(0.04),
            3..5 => draw.uniform(0.5),
            5 => draw.beyond(0.5, 1.0),
            6 => draw.uniform(3.0),
            _ => draw.tiny(),
        };
        (w, 0.0)
    },
    timed: |draw| (draw.uniform(0.025), 0.0),
    points: &[],
};

pub const LGAM_STIRLING_CORR: OwnInputs = OwnInputs {
    limits: || {
        let sizes = [
            1.0,
            13.0,
            20.0,
            1e8,
            INVERSE_SQUARE_INFINITE,
            SQUARE_INFINITE,
        ];
        close_to([&[0.0], &both_signs(&sizes)[..]].concat())
    },
    edges: || close_to(halves(-120, 400)),
    ordinary: |draw| (from_least(draw, 13.0), 0.0),
    timed: |draw| (draw.beyond(13.0, 100.0).abs(), 0.0),
    points: &[],
};

pub const LN_GAMMA_RATIO: OwnInputs = OwnInputs {
    limits: || {
        let sizes = [0.5, 1.0, 12.5, 19.5, 20.5, 2147483647.5, 1e15];
        close_to([&[0.0], &both_signs(&sizes)[..]].concat())
    },
    edges: || close_to(halves(-120, 400)),
    ordinary: |draw| (from_least(draw, 12.5), 0.0),
    timed: |draw| (draw.beyond(19.5, 100.0).abs(), 0.0),
    points: &[],
};

pub const MUL_EXP: OwnInputs = OwnInputs {
    limits: || {
        let mantissas = [0.0, -0.0, 1.0, -2.5, f64::INFINITY, f64::NAN];
        let exponents = both_signs(&around(LARGEST, 1));
        let mut limits = pairs(&mantissas, &exponents);
        let far = both_signs(&[1420.0, 1500.0, f64::INFINITY]);
        limits.extend(pairs(&[0.0, -3.0, f64::MAX, 5e-324, f64::NAN], &far));
        limits.extend(pairs(&[f64::MAX, 5e-324], &both_signs(&[708.0, 1390.0])));
        limits
    },
    edges: || {
        let exponents = [0.0, 1.0, 500.0, 1399.0, LARGEST, 1401.0, 1454.5, 1456.0];
        let exponents: Vec<f64> = both_signs(&exponents)
            .into_iter()
            .flat_map(|e| around(e, 2))
            .collect();
        let mut edges = pairs(&both_signs(&MANTISSAS), &exponents);
        edges.extend(at_limits_of_exp());
        edges
    },
    ordinary: mantissa_and_exponent,
    timed: |draw| (draw.uniform(10.0), draw.uniform(600.0)),
    points: &[],
};

/// Sizes of mantissas.
const MANTISSAS: [f64; 12] = [
    0.0,
    5e-324,
    1e-310,
    f64::MIN_POSITIVE,
    1e-300,
    1e-100,
    0.75,
    1.0,
    1e100,
    1e300,
    f64::MAX,
    f64::INFINITY,
];

/// Mantissas with the exponents at which the logarithm's sum is at a limit of `exp`.
fn at_limits_of_exp() -> Vec<Input> {
    let mut inputs = vec![];
    for limit in EXP_LIMITS {
        for m in both_signs(&MANTISSAS[1..11]) {
            let exponents = around(limit - stand_ins::ln(m.abs()), 4);
            inputs.extend(pairs(&[m], &exponents));
        }
    }
    inputs
}

/// Mostly `least` or more, of all sizes.
fn from_least(draw: &mut Draw, least: f64) -> f64 {
    match draw.below(8) {
        0..3 => draw.beyond(least, 40.0).abs(),
        3..5 => draw.beyond(least, 1000.0).abs(),
        5 => least / draw.tiny().abs(),
        6 => draw.uniform(least),
        _ => draw.beyond(least, 1000.0),
    }
}

fn mantissa_and_exponent(draw: &mut Draw) -> Input {
    match draw.below(8) {
        0..3 => (draw.uniform(10.0), draw.uniform(750.0)),
        3 => (draw.tiny(), draw.uniform(LARGEST)),
        4 => (f64::from_bits(draw.bits()), draw.uniform(LARGEST)),
        5 => (f64::from_bits(draw.bits()), draw.beyond(LARGEST, 1500.0)),
        6 => {
            let m = f64::from_bits(draw.bits());
            let limit = EXP_LIMITS[draw.below(EXP_LIMITS.len())];
            (m, draw.close(limit - stand_ins::ln(m.abs())))
        }
        _ => {
            // At the limit e^e is about 2^±2020.
            let (m, k) = (draw.uniform(1.0), 950 + draw.below(73) as i32);
            match draw.below(2) {
                0 => (m * power_of_two(k), draw.close(-LARGEST)),
                _ => (m * power_of_two(-50 - k), draw.close(LARGEST)),
            }
        }
    }
}
