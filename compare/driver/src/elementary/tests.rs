use std::collections::HashSet;
use std::f64::consts::{FRAC_2_PI, FRAC_PI_2, LN_2, LOG2_E, PI, SQRT_2};

use super::FUNCTIONS;
use super::own::with_root_between;
use crate::functions::Function;
use crate::inputs::Input;

/// Enough for all edge inputs and many drawn ones.
const COUNT: usize = 300_000;

fn function(name: &str) -> Function {
    let named = FUNCTIONS.into_iter().find(|function| function.name == name);
    named.expect("a function of that name")
}

fn inputs(name: &str) -> Vec<Input> {
    function(name).inputs(COUNT, 1).collect()
}

fn bits_of_x(name: &str) -> HashSet<u64> {
    inputs(name).iter().map(|(x, _)| x.to_bits()).collect()
}

#[test]
fn given_edges_are_among_the_inputs() {
    let rows: [(&str, &[f64]); 7] = [
        (
            "exp",
            &[0.0, 0.5, 709.782712893384, -745.2, -745.13, -708.4],
        ),
        ("exp_m1", &[-0.0, -0.5, 0.5, 709.782712893384, -745.2]),
        ("exp2", &[1024.0, -1080.0, -1074.5, -1022.5, 1023.5, 37.5]),
        ("ln", &[1.0, SQRT_2, 5e-324, -1.0, -0.0, f64::INFINITY]),
        (
            "sin",
            &[1073741824.0, -1073741824.0, PI, -4100.0 * FRAC_PI_2],
        ),
        (
            "cos",
            &[1073741824.0, 0.0, 4100.0 * FRAC_PI_2, f64::INFINITY],
        ),
        ("square_root", &[1.0, 998001.0, 999000.25, f64::MAX, -2.0]),
    ];
    for (name, edges) in rows {
        let bits = bits_of_x(name);
        for &edge in edges {
            for x in [edge, edge.next_up(), edge.next_down()] {
                assert!(bits.contains(&x.to_bits()), "{name} {x:?}");
            }
        }
        assert!(bits.contains(&f64::NAN.to_bits()), "{name} NaN");
    }
}

#[test]
fn sines_that_the_source_takes_are_among_the_inputs() {
    let bits = bits_of_x("sin");
    for va in -1002..=1002 {
        let y = -(f64::from(va) + 0.5) * PI;
        assert!(bits.contains(&y.to_bits()), "{va}");
    }
}

#[test]
fn every_power_of_two_is_among_the_inputs() {
    for name in ["ln", "square_root"] {
        let bits = bits_of_x(name);
        let subnormal = (0..52).map(|bit| 1_u64 << bit);
        let normal = (1..2047).map(|exponent| exponent << 52);
        for power in subnormal.chain(normal) {
            for x in [power - 1, power, power + 1] {
                assert!(bits.contains(&x), "{name} {x:#x}");
            }
        }
        for exponent in 1..2047 {
            let x = (SQRT_2.to_bits() & ((1 << 52) - 1)) | (exponent << 52);
            assert!([x - 1, x, x + 1].iter().all(|x| bits.contains(x)), "{x:#x}");
        }
    }
}

/// Both floats between which `near` of `factor`·x changes, for each (k + 0.5)·`step`.
fn changes(factor: f64, step: f64, sizes: std::ops::Range<i32>) -> Vec<[u64; 2]> {
    let near = |t: f64| (if t >= 0.0 { t + 0.5 } else { t - 0.5 }) as i32;
    let mut changes = vec![];
    for k in sizes {
        let edge = ((f64::from(k) + 0.5) * step).to_bits();
        let quotient = |bits: u64| near(f64::from_bits(bits) * factor);
        let last = (edge - 10..edge + 10).find(|&bits| quotient(bits) != quotient(bits + 1));
        let last = last.expect("it changes at the edge");
        changes.push([last, last + 1]);
        changes.push([last, last + 1].map(|bits| bits | (1 << 63)));
    }
    changes
}

#[test]
fn both_sides_of_every_change_of_the_quotient_are_among_the_inputs() {
    let rows = [
        ("exp", changes(LOG2_E, LN_2, 0..1024)),
        ("exp_m1", changes(LOG2_E, LN_2, 0..1024)),
        ("exp2", changes(1.0, 1.0, 0..1024)),
        ("sin", changes(FRAC_2_PI, FRAC_PI_2, 0..4100)),
        ("cos", changes(FRAC_2_PI, FRAC_PI_2, 0..4100)),
    ];
    for (name, changes) in rows {
        let bits = bits_of_x(name);
        for change in changes {
            assert!(
                change.iter().all(|x| bits.contains(x)),
                "{name} {change:x?}"
            );
        }
    }
}

#[test]
fn every_quadrant_occurs_with_quotients_of_both_signs() {
    for name in ["sin", "cos"] {
        let mut counts = [[0; 4]; 2];
        for (y, _) in inputs(name) {
            let quotient = (y * FRAC_2_PI).round();
            if y.abs() < 1073741824.0 && quotient != 0.0 {
                let quadrant = quotient.rem_euclid(4.0) as usize;
                counts[usize::from(quotient < 0.0)][quadrant] += 1;
            }
        }
        let least = counts.iter().flatten().min();
        assert!(least > Some(&(COUNT / 20)), "{name} {counts:?}");
    }
}

#[test]
fn a_third_are_different_inputs_with_answers_finite_and_not_zero() {
    for function in &FUNCTIONS {
        let mut different = HashSet::new();
        for (x, y) in function.inputs(COUNT, 1) {
            let answer = function.reference(x, y);
            if answer.is_finite() && answer != 0.0 {
                different.insert((x.to_bits(), y.to_bits()));
            }
        }
        assert!(different.len() > COUNT / 3, "{}", function.name);
    }
}

#[test]
fn answers_of_pow_are_of_all_sizes() {
    let pow = function("pow");
    let (mut sizes, mut subnormal) = ([0; 64], 0);
    for (b, p) in inputs("pow") {
        let answer = pow.reference(b, p);
        if answer.is_finite() && answer != 0.0 && answer != 1.0 {
            sizes[(answer.to_bits() >> 57) as usize] += 1;
            subnormal += usize::from(answer < f64::MIN_POSITIVE);
        }
    }
    assert!(sizes.iter().all(|&count| count > COUNT / 1000), "{sizes:?}");
    assert!(subnormal > COUNT / 1000);
}

#[test]
fn pow_has_its_pairs() {
    let inputs = inputs("pow");
    let pairs: HashSet<(u64, u64)> = inputs
        .iter()
        .map(|(b, p)| (b.to_bits(), p.to_bits()))
        .collect();
    let (inf, nan) = (f64::INFINITY, f64::NAN);
    for b in [nan, 0.0, -0.0, inf, -inf, -1.0, -2.5, 1.0, 10.0, 5e-324] {
        for p in [0.0, -0.0, inf, -inf, nan, 0.5, -0.5, 1.5, -2.5, 1.0, 2.0] {
            assert!(pairs.contains(&(b.to_bits(), p.to_bits())), "{b:?} {p:?}");
        }
    }
    let half_whole = |&&(b, p): &&Input| b > 0.0 && p.abs() < 20.0 && p.fract().abs() == 0.5;
    assert!(inputs.iter().filter(half_whole).count() > COUNT / 20);
}

#[test]
fn the_middle_of_two_floats_is_near_the_root() {
    for rest in [1, 9, -7, 17, 4001, -3999, 8 * 54321 + 1] {
        let x = with_root_between(rest);
        assert!((x.to_bits() >> 52) - 1023 >= 106);
        let root = x.sqrt() as i128;
        let middles = [root - 1, root + 1];
        let differences = middles.map(|middle| middle * middle - x as i128);
        assert!(differences.contains(&i128::from(rest)), "{rest}");
    }
}
