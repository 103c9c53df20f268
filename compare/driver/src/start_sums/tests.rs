use std::collections::{HashMap, HashSet};

use source::entry::{dvla, dvsa, gamma2, vvla, vvsa};

use super::FUNCTIONS;
use super::own::{
    DVLA_LENGTHS, DVSA_LENGTHS, GAMMA2_INFINITE, GAMMA2_ZERO, RECIPROCAL_INFINITE, SINE_LIMIT,
    SQUARE_INFINITE, SQUARE_ZERO, SQUARES, VVLA_LENGTHS, VVSA_LENGTHS,
};
use super::terms::{self, DVLA_SUM, SERIES, Sum, VVLA_SUM};
use crate::comparing::Comparable;
use crate::functions::Function;
use crate::inputs::{Input, around, pairs};

/// Enough for all edge inputs and many drawn ones.
const COUNT: usize = 300_000;
/// Where answers are needed, only one of so many inputs is taken: a series is slow.
const STEP: usize = 60;

fn inputs(function: &Function) -> impl Iterator<Item = Input> {
    function.inputs(COUNT, 1)
}

fn bits(function: &Function) -> HashSet<(u64, u64)> {
    let bits = |(x, y): Input| (x.to_bits(), y.to_bits());
    inputs(function).map(bits).collect()
}

fn is_whole(x: f64) -> bool {
    x == x.trunc()
}

#[test]
fn given_arguments_of_gamma2_are_among_the_inputs() {
    let bits = bits(&FUNCTIONS[0]);
    let sizes = [
        RECIPROCAL_INFINITE,
        SINE_LIMIT,
        2147483648.0,
        2147483648.5,
        4503599627370496.0,
        9007199254740992.0,
    ];
    let others = [GAMMA2_INFINITE, GAMMA2_ZERO, f64::INFINITY, -0.0, f64::MAX];
    let halves = (-400..=400).map(|k| f64::from(k) * 0.5);
    let limits = sizes.into_iter().chain(sizes.map(|x| -x)).chain(others);
    for x in halves.chain(limits).flat_map(|x| around(x, 1)) {
        assert!(bits.contains(&(x.to_bits(), 0)), "{x:?}");
    }
    for x in [f64::NEG_INFINITY, f64::NAN] {
        assert!(bits.contains(&(x.to_bits(), 0)), "{x:?}");
    }
}

#[test]
fn given_pairs_are_among_the_inputs() {
    let (inf, nan) = (f64::INFINITY, f64::NAN);
    let orders = [
        0.0,
        -0.0,
        0.5,
        -0.5,
        1001.0,
        SINE_LIMIT,
        f64::MAX,
        inf,
        -inf,
        nan,
    ];
    let i32_orders = [4294967297.0, 4294967299.0, -4294967298.0, -4294967300.0];
    let whole = (-12..=12).flat_map(|va| around(f64::from(va), 4));
    let orders: Vec<f64> = whole.chain(orders).chain(i32_orders).collect();
    let near = pairs(&[0.0, -0.0, 2.0, 5.8, -5.8, 7.5, -7.5], &orders);
    let arguments = [inf, -inf, nan, f64::MAX, 5e-324, 1e-150];
    let far = pairs(&arguments, &[0.0, 1.0, 2.0, -1.0, 2.5]);
    for function in &FUNCTIONS[1..] {
        let bits = bits(function);
        for (x, va) in near.iter().chain(&far) {
            let there = bits.contains(&(x.to_bits(), va.to_bits()));
            assert!(there, "{} {x:?} {va:?}", function.name);
        }
    }
}

#[test]
fn answers_change_at_the_limits() {
    assert!(gamma2(GAMMA2_INFINITE).is_infinite());
    assert!(gamma2(GAMMA2_INFINITE.next_down()).is_finite());
    assert!(gamma2(GAMMA2_ZERO) == 0.0 && gamma2(GAMMA2_ZERO.next_up()) != 0.0);
    assert!(gamma2(-SINE_LIMIT).is_nan() && gamma2(-SINE_LIMIT.next_down()) == 0.0);
    for x in [RECIPROCAL_INFINITE, -RECIPROCAL_INFINITE] {
        assert!(gamma2(x).is_infinite() && gamma2(x * (1.0 + 1e-14)).is_finite());
    }
    let square = |x: f64| x * x;
    assert!(square(SQUARE_INFINITE).is_infinite());
    assert!(square(SQUARE_INFINITE.next_down()).is_finite());
    assert!(square(SQUARE_ZERO) == 0.0 && square(SQUARE_ZERO.next_up()) > 0.0);
    let root = 2.0 * SQUARES[0].sqrt();
    assert!(vvla(root, 0.25).is_finite() && vvla(root.next_up(), 0.25).is_infinite());
    assert_eq!(
        (dvsa(0.0, 4294967297.0), dvsa(0.0, 4294967299.0)),
        (0.0, f64::INFINITY)
    );
    assert!(vvsa(0.0, -4294967298.0) == 0.0 && vvsa(0.0, -4294967300.0).is_nan());
}

#[test]
fn the_series_and_sums_give_the_answers() {
    for (x, va) in inputs(&FUNCTIONS[1]).step_by(STEP) {
        if va != 0.0 && x != 0.0 {
            assert!(terms::dvsa(x, va).1.alike(&dvsa(x, va)), "{x:?} {va:?}");
            assert!(terms::vvsa(x, va).1.alike(&vvsa(x, va)), "{x:?} {va:?}");
        }
        let x = x.abs();
        assert!(terms::dvla(x, va).1.alike(&dvla(x, va)), "{x:?} {va:?}");
        assert!(terms::vvla(x, va).1.alike(&vvla(x, va)), "{x:?} {va:?}");
    }
}

/// NaN counts as up to 1, as in the source.
fn gamma2_branch(x: f64, _: f64) -> &'static str {
    let infinite = gamma2(x.abs()).is_infinite();
    match (is_whole(x), x.abs() > 1.0, x > 0.0) {
        (true, _, false) => "pole",
        (true, _, true) if infinite => "whole, infinite",
        (true, _, true) => "whole",
        (false, false, _) if infinite => "up to 1, infinite",
        (false, false, _) => "up to 1",
        (false, true, true) if infinite => "above 1, infinite",
        (false, true, true) => "above 1",
        (false, true, false) if infinite => "below -1, infinite",
        (false, true, false) => "below -1",
    }
}

/// As far as i32 goes.
fn is_pole(argument: f64) -> bool {
    argument <= 0.0 && argument == f64::from(argument as i32)
}

fn dvsa_branch(x: f64, va: f64) -> &'static str {
    if va == 0.0 {
        "order 0"
    } else if x != 0.0 {
        length(terms::dvsa(x, va).0, SERIES)
    } else if is_pole(0.5 * (1.0 - va)) {
        "0 at a pole"
    } else {
        "0"
    }
}

/// Order 0 counts as a pole.
fn vvsa_branch(x: f64, va: f64) -> &'static str {
    if x != 0.0 {
        length(terms::vvsa(x, va).0, SERIES)
    } else if is_pole(1.0 + 0.5 * va) || va == 0.0 {
        "0 at a pole"
    } else {
        "0"
    }
}

fn length(terms: i32, limit: i32) -> &'static str {
    if terms < limit { "short" } else { "long" }
}

fn large_branch(x: f64, length: &'static str) -> &'static str {
    match (x < 0.0, length) {
        (true, "short") => "negative, short",
        (true, _) => "negative, long",
        (false, _) => length,
    }
}

fn dvla_branch(x: f64, va: f64) -> &'static str {
    large_branch(x, length(terms::dvla(x, va).0, DVLA_SUM))
}

fn vvla_branch(x: f64, va: f64) -> &'static str {
    large_branch(x, length(terms::vvla(x, va).0, VVLA_SUM))
}

const GAMMA2_BRANCHES: [&str; 9] = [
    "pole",
    "whole",
    "whole, infinite",
    "up to 1",
    "up to 1, infinite",
    "above 1",
    "above 1, infinite",
    "below -1",
    "below -1, infinite",
];
const DVSA_BRANCHES: [&str; 5] = ["order 0", "0", "0 at a pole", "short", "long"];
const VVSA_BRANCHES: [&str; 4] = ["0", "0 at a pole", "short", "long"];
const LARGE_BRANCHES: [&str; 4] = ["short", "long", "negative, short", "negative, long"];

#[test]
fn every_branch_is_met_often() {
    type Branch = fn(f64, f64) -> &'static str;
    let rows: [(Branch, &[&str]); 5] = [
        (gamma2_branch, &GAMMA2_BRANCHES),
        (dvsa_branch, &DVSA_BRANCHES),
        (dvla_branch, &LARGE_BRANCHES),
        (vvsa_branch, &VVSA_BRANCHES),
        (vvla_branch, &LARGE_BRANCHES),
    ];
    for (function, (branch, expected)) in FUNCTIONS.iter().zip(rows) {
        let mut counts = HashMap::new();
        for (x, va) in inputs(function).step_by(STEP) {
            *counts.entry(branch(x, va)).or_insert(0) += 1;
        }
        let often = |name| counts.get(name).is_some_and(|&n| n > COUNT / STEP / 250);
        assert!(expected.iter().all(often), "{} {counts:?}", function.name);
        assert_eq!(counts.len(), expected.len(), "{}", function.name);
    }
}

#[test]
fn both_sides_of_changes_of_the_number_of_terms_are_among_the_inputs() {
    let rows: [(Sum, &[Input]); 4] = [
        (terms::dvsa, &DVSA_LENGTHS),
        (terms::dvla, &DVLA_LENGTHS),
        (terms::vvsa, &VVSA_LENGTHS),
        (terms::vvla, &VVLA_LENGTHS),
    ];
    for (function, (sum, lengths)) in FUNCTIONS[1..].iter().zip(rows) {
        let bits = bits(function);
        let mut changes = 0;
        for &(x, va) in lengths {
            let next = x.next_up();
            let both = [x, next].map(|x| bits.contains(&(x.to_bits(), va.to_bits())));
            changes += usize::from(both == [true; 2] && sum(x, va).0 != sum(next, va).0);
        }
        assert!(changes > 300, "{} {changes}", function.name);
    }
}

#[test]
fn orders_at_poles_and_close_to_them_are_met_often() {
    for function in &FUNCTIONS[1..] {
        let (mut at, mut close) = (0, 0);
        for (x, va) in inputs(function) {
            let whole = va.round();
            if x != 0.0 && (1.0..=60.0).contains(&whole) {
                let distance = va.to_bits().abs_diff(whole.to_bits());
                at += usize::from(distance == 0);
                close += usize::from((1..=4).contains(&distance));
            }
        }
        let often = at > COUNT / 50 && close > COUNT / 50;
        assert!(often, "{} {at} {close}", function.name);
    }
}

#[test]
fn inputs_of_the_tables_are_met_often() {
    let sizes = [(0.0, 5.8), (5.8, 40.0), (0.0, 7.5), (7.5, 40.0)];
    for (function, (from, to)) in FUNCTIONS[1..].iter().zip(sizes) {
        let mut counts = [[0; 3]; 2];
        for (x, va) in inputs(function) {
            if x.abs() > from && x.abs() <= to && !is_whole(va) {
                let orders = [2.0, 60.0, 1002.0].map(|limit| va.abs() < limit);
                if let Some(i) = orders.iter().position(|&below| below) {
                    counts[usize::from(x < 0.0)][i] += 1;
                }
            }
        }
        let least = counts.iter().flatten().min();
        assert!(least > Some(&(COUNT / 50)), "{} {counts:?}", function.name);
    }
}

#[test]
fn a_third_are_different_inputs_with_answers_finite_and_not_zero() {
    for function in &FUNCTIONS {
        let mut different = HashSet::new();
        for (x, y) in inputs(function).step_by(STEP) {
            let answer = function.reference(x, y);
            if answer.is_finite() && answer != 0.0 {
                different.insert((x.to_bits(), y.to_bits()));
            }
        }
        assert!(different.len() > COUNT / STEP / 3, "{}", function.name);
    }
}
