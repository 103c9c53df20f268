//! The comparison with calls in place of the library's: right ones, and wrong ones.

use super::COUNT;
use super::written_out::{clamped, maclaurin, mantissas, series, sums};
use crate::comparing::Comparable;
use crate::expansion::calls::Polynomial;
use crate::expansion::edges::{FIRST_REFUSED, LAST_ORDER};
use crate::expansion::reference::{d_expansion, d_pair, mul_exp, uv_poly};
use crate::expansion::{
    Call, D_EXPANSION, FUNCTIONS, MACLAURIN, PBDV_ELEMENTARY, UV_POLY, UV_SUMS,
};
use crate::tables::Answer;

/// How many inputs of the call's comparison `library` answers otherwise than the reference.
fn differences<I: Copy + Comparable, A: Comparable>(
    call: Call<I, A>,
    library: fn(I) -> A,
) -> usize {
    let differs = |&input: &I| !library(input).alike(&(call.sides.reference)(input));
    call.inputs(COUNT, 1).filter(differs).count()
}

/// A minimum or maximum that is NaN where one of the two is.
fn passing_nan_on(one: fn(f64, f64) -> f64, a: f64, b: f64) -> f64 {
    if a.is_nan() || b.is_nan() {
        return f64::NAN;
    }
    one(a, b)
}

fn minimum_passing_nan_on(a: f64, b: f64) -> f64 {
    passing_nan_on(f64::min, a, b)
}

fn maximum_passing_nan_on(a: f64, b: f64) -> f64 {
    passing_nan_on(f64::max, a, b)
}

fn refusal_5_before_4(input: [f64; 2]) -> Answer {
    let [v, x] = input;
    if !v.is_nan() && x.is_infinite() {
        return Answer::refused(5);
    }
    d_expansion(input)
}

/// Refuses the last order, or accepts the first that is refused.
fn other_range(input: [f64; 2], order: f64) -> Answer {
    match (input[0] == order, d_expansion(input).refusal) {
        (true, 0 | 5) => Answer::refused(4),
        (true, 4) => d_pair(input),
        _ => d_expansion(input),
    }
}

#[test]
fn right_calls_do_not_differ() {
    let right = differences(UV_SUMS, |input| sums(input, 0, 0));
    assert_eq!(right, 0, "uv_sums");
    let right = differences(PBDV_ELEMENTARY, |input| mantissas(input, clamped));
    assert_eq!(right, 0, "pbdv_elementary");
    let right = differences(MACLAURIN, |input| maclaurin(input, 600, f64::min));
    assert_eq!(right, 0, "maclaurin");
}

#[test]
fn wrong_calls_differ() {
    let often = COUNT / 1000;
    let rows = [
        ("row start", differences(UV_SUMS, |input| sums(input, 4, 1))),
        (
            "no clamp",
            differences(PBDV_ELEMENTARY, |input| mantissas(input, |x| x)),
        ),
        (
            "no scaling",
            differences(MACLAURIN, |input| maclaurin(input, 0, f64::min)),
        ),
        (
            "order of refusals",
            differences(D_EXPANSION, refusal_5_before_4),
        ),
        (
            "last order",
            differences(D_EXPANSION, |input| other_range(input, LAST_ORDER)),
        ),
        (
            "first refused",
            differences(D_EXPANSION, |input| other_range(input, FIRST_REFUSED)),
        ),
    ];
    for (name, many) in rows {
        assert!(many > often, "{name} {many}");
    }
    let bar = |mut input: Polynomial| {
        input.bar %= 2;
        uv_poly(input)
    };
    assert!(differences(UV_POLY, bar) > often);
}

#[test]
fn a_minimum_that_passes_nan_on_differs_and_such_a_maximum_does_not() {
    let minimum = |input| maclaurin(input, 600, minimum_passing_nan_on);
    assert!(differences(MACLAURIN, minimum) > 10);
    // A term is NaN only where both sums become NaN, at which the series goes on in either case.
    for input in MACLAURIN.inputs(COUNT, 1) {
        let [f, g] = [f64::max, maximum_passing_nan_on].map(|max| series(input, f64::min, max));
        assert!(f.0 == g.0 && f.1.alike(&g.1), "{input:?}");
    }
}

#[test]
fn a_limit_that_is_counted_as_beyond_differs() {
    let beyond = |m: f64, e: f64| m.signum() * stand_ins::exp(stand_ins::ln(m.abs()) + e);
    let at_limit = FUNCTIONS[3]
        .inputs(COUNT, 1)
        .filter(|(_, e)| e.abs() == 1400.0);
    let differs = |&(m, e): &(f64, f64)| !beyond(m, e).alike(&mul_exp(m, e));
    let many = at_limit.filter(differs).count();
    assert!(many > COUNT / 1000, "{many}");
}

#[test]
fn inputs_and_answers_are_shown_with_their_bits() {
    let request = [-20.5, 0.25].show();
    assert_eq!(
        request,
        "-20.5 (0xc034800000000000), 0.25 (0x3fd0000000000000)"
    );
    let refused = Answer::refused(4).show();
    assert!(refused.starts_with("refusal 4, pair NaN (0x"), "{refused}");
}
