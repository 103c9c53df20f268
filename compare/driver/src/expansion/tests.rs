//! The inputs of the layer, and its references.

mod stored;
mod written_out;
mod wrong_calls;

use std::collections::{HashMap, HashSet};

use source::entry;

use super::calls::Polynomial;
use super::edges::{self, CLAMP, FIRST_REFUSED, LAST_OF_SOURCE, LAST_ORDER, LIMITS, SHORT};
use super::own::{INVERSE_SQUARE_INFINITE, LARGEST};
use super::{D_EXPANSION, FUNCTIONS, MACLAURIN, PBDV_ELEMENTARY, UV_POLY, reference};
use crate::inputs::{around, both_signs, pairs, with_next};
use crate::tables::Answer;

/// Enough for all edge inputs and many drawn ones.
const COUNT: usize = 100_000;
/// Where answers are counted, only one of so many inputs is taken.
const STEP: usize = 10;

#[test]
fn given_inputs_of_the_functions_are_among_theirs() {
    let rows: [(usize, &[f64]); 3] = [
        (0, &[0.0, 0.5, -0.5, 1.0, -1.0]),
        (1, &[13.0, INVERSE_SQUARE_INFINITE, 0.0]),
        (2, &[12.5, 19.5, 20.5, -0.5]),
    ];
    for (i, numbers) in rows {
        let inputs = FUNCTIONS[i].inputs(COUNT, 1);
        let bits: HashSet<u64> = inputs.map(|(x, _)| x.to_bits()).collect();
        let ends = [f64::NAN, f64::INFINITY, f64::NEG_INFINITY, -0.0];
        for x in with_next(numbers, &ends) {
            assert!(bits.contains(&x.to_bits()), "{} {x:?}", FUNCTIONS[i].name);
        }
    }
    let inputs = FUNCTIONS[3].inputs(COUNT, 1);
    let bits: HashSet<_> = inputs.map(|(m, e)| (m.to_bits(), e.to_bits())).collect();
    let mantissas = [0.0, -0.0, f64::NAN, f64::INFINITY, -2.5, 5e-324];
    let exponents = with_next(&both_signs(&[LARGEST]), &[f64::NAN, f64::INFINITY]);
    for (m, e) in pairs(&mantissas, &exponents) {
        assert!(bits.contains(&(m.to_bits(), e.to_bits())), "{m:?} {e:?}");
    }
}

#[test]
fn every_row_is_asked_for_with_both_bars() {
    let mut asked = HashSet::new();
    for Polynomial { row, bar, t } in UV_POLY.inputs(COUNT, 1) {
        asked.insert((row, bar != 0, t.is_finite() && t.abs() > 1e-3));
    }
    assert_eq!(asked.len(), 4 * 22);
    let (bar, t) = (0, 0.0);
    let lengths = (0..22).map(|row| Polynomial { row, bar, t }.coefficients().len());
    assert_eq!(lengths.sum::<usize>(), 172);
}

#[test]
fn given_requests_are_among_the_inputs() {
    let limits = [LAST_ORDER, FIRST_REFUSED, LAST_OF_SOURCE, -21.0];
    let others = [-20.5, -100.25, -1e300, f64::NEG_INFINITY, f64::NAN, 20.0];
    let clamp = around(CLAMP, 1);
    let sizes = [&clamp[..], &[0.0, 5e-324, 3.0, 40.0, f64::INFINITY]].concat();
    let arguments = [&both_signs(&sizes), &[f64::NAN][..]].concat();
    let all = pairs(&with_next(&limits, &others), &arguments);
    let bits = |input: [f64; 2]| input.map(f64::to_bits);
    let requests: HashSet<_> = D_EXPANSION.inputs(COUNT, 1).map(bits).collect();
    let inputs: HashSet<_> = PBDV_ELEMENTARY.inputs(COUNT, 1).map(bits).collect();
    for (v, x) in all {
        assert!(requests.contains(&bits([v, x])), "{v:?} {x:?}");
        let is_called = v.is_nan() || v <= LAST_OF_SOURCE;
        assert_eq!(inputs.contains(&bits([v, x])), is_called, "{v:?} {x:?}");
    }
}

#[test]
fn the_source_is_called_where_it_can_be() {
    for [v, x] in PBDV_ELEMENTARY.inputs(COUNT, 1) {
        assert!(v.is_nan() || v <= LAST_OF_SOURCE, "{v:?} {x:?}");
    }
    // −v − 0.5 + 0.5 is 13.
    assert!(reference::pbdv_elementary([LAST_OF_SOURCE, 1.0])[0].is_finite());
}

#[test]
fn both_sides_of_the_limits_are_among_the_requests() {
    let bits = |input: [f64; 2]| input.map(f64::to_bits);
    let requests: HashSet<_> = D_EXPANSION.inputs(COUNT, 1).map(bits).collect();
    let mut met = [0; LIMITS];
    for v in edges::ORDERS_AT_LIMITS {
        for (i, met) in met.iter_mut().enumerate() {
            if let Some(x) = edges::at_limit(v, i) {
                *met += 1;
                for x in [x, x.next_down()] {
                    assert!(requests.contains(&bits([v, x])), "{v:?} {x:?}");
                }
            }
        }
    }
    assert!(met.iter().all(|&many| many > 10), "{met:?}");
}

#[test]
fn answers_change_at_the_limits() {
    let inverse = |x: f64| 1.0 / (x * x);
    assert!(inverse(INVERSE_SQUARE_INFINITE).is_infinite());
    assert!(inverse(INVERSE_SQUARE_INFINITE.next_up()).is_finite());
    let [low, high] = [13.0_f64.next_down(), 13.0].map(|x| reference::lgam_stirling_corr(x));
    assert!((low - high).abs() < 1e-17, "{low:?} {high:?}");
    let refusals = |inputs: [[f64; 2]; 3]| inputs.map(|i| reference::d_expansion(i).refusal);
    let (inf, nan) = (f64::INFINITY, f64::NAN);
    let above = LAST_ORDER.next_up();
    assert_eq!(
        refusals([[above, nan], [above, inf], [above, 0.0]]),
        [1, 4, 4]
    );
    let last = LAST_ORDER;
    assert_eq!(
        refusals([[last, nan], [last, -inf], [last, 0.0]]),
        [1, 5, 0]
    );
    let first = FIRST_REFUSED;
    let next = first.next_up();
    assert_eq!(
        refusals([[first, inf], [next, inf], [next, 1.0]]),
        [4, 5, 0]
    );
    let maclaurin = |x, e| reference::maclaurin([-20.5, x, 1.0, 0.5, e]).refusal;
    assert_eq!(
        [
            maclaurin(inf, nan),
            maclaurin(0.1, inf),
            maclaurin(0.1, 0.0)
        ],
        [1, 5, 0]
    );
}

/// What a number of an answer is like.
fn kind(name: &str, number: f64) -> String {
    let kind = match number {
        _ if number.is_nan() => "NaN",
        _ if number.is_infinite() => "infinite",
        0.0 => "0",
        _ if number.is_subnormal() => "subnormal",
        _ => "normal",
    };
    format!("{name} {kind}")
}

fn answer_kinds(answer: &Answer) -> Vec<String> {
    match answer.refusal {
        0 => vec![
            kind("value", answer.value),
            kind("derivative", answer.derivative),
        ],
        refusal => vec![format!("refusal {refusal}")],
    }
}

fn request_kinds(input: [f64; 2]) -> Vec<String> {
    let answer = reference::d_expansion(input);
    let mut kinds = answer_kinds(&answer);
    if answer.refusal == 0 {
        let [v, x] = input;
        let exponent = entry::pbdv_elementary(v, x).1;
        let more = [
            ("exponent beyond 1400", exponent > LARGEST),
            ("exponent beyond -1400", exponent < -LARGEST),
            ("clamped", x.abs() > CLAMP),
            ("below 0", x < 0.0),
            ("above 0", x > 0.0),
            ("0", x == 0.0),
        ];
        kinds.extend(more.iter().filter(|row| row.1).map(|row| row.0.to_string()));
    }
    kinds
}

fn series_kinds(input: [f64; 5]) -> Vec<String> {
    let answer = reference::maclaurin(input);
    let mut kinds = answer_kinds(&answer);
    let [_, x, c0, c1, e] = input;
    if answer.refusal == 0 {
        let is_short = x.abs() < SHORT;
        let steps = written_out::series(input, f64::min, f64::max).0;
        let more = [
            ("short form", is_short),
            ("60 steps", !is_short && steps == 60),
            ("fewer steps", !is_short && steps < 60),
            ("c0 is 0", c0 == 0.0),
            ("c1 is 0", c1 == 0.0),
            ("exponent beyond", e.abs() > LARGEST),
        ];
        kinds.extend(more.iter().filter(|row| row.1).map(|row| row.0.to_string()));
    }
    kinds
}

#[track_caller]
fn all_often<I>(inputs: impl Iterator<Item = I>, kinds: fn(I) -> Vec<String>, expected: &[&str]) {
    let mut counts = HashMap::new();
    for kind in inputs.step_by(STEP).flat_map(kinds) {
        *counts.entry(kind).or_insert(0) += 1;
    }
    let often = |&name: &&str| {
        counts
            .get(name)
            .is_some_and(|&many| many > COUNT / STEP / 400)
    };
    assert!(expected.iter().all(often), "{counts:?}");
    assert_eq!(counts.len(), expected.len(), "{counts:?}");
}

#[test]
fn every_kind_of_request_is_met_often() {
    let expected = [
        "refusal 1",
        "refusal 4",
        "refusal 5",
        "value infinite",
        "value normal",
        "value subnormal",
        "value 0",
        "derivative infinite",
        "derivative normal",
        "derivative subnormal",
        "derivative 0",
        "exponent beyond 1400",
        "exponent beyond -1400",
        "clamped",
        "below 0",
        "above 0",
        "0",
    ];
    all_often(D_EXPANSION.inputs(COUNT, 1), request_kinds, &expected);
}

#[test]
fn every_kind_of_series_is_met_often() {
    let expected = [
        "refusal 1",
        "refusal 5",
        "value NaN",
        "value infinite",
        "value normal",
        "value subnormal",
        "value 0",
        "derivative NaN",
        "derivative infinite",
        "derivative normal",
        "derivative subnormal",
        "derivative 0",
        "short form",
        "60 steps",
        "fewer steps",
        "c0 is 0",
        "c1 is 0",
        "exponent beyond",
    ];
    all_often(MACLAURIN.inputs(COUNT, 1), series_kinds, &expected);
}

#[test]
fn the_seed_fixes_the_inputs_and_the_count_is_kept() {
    let bits = |seed| -> Vec<_> {
        let inputs = MACLAURIN.inputs(COUNT, seed);
        inputs.map(|input| input.map(f64::to_bits)).collect()
    };
    let first = bits(1);
    assert_eq!(first.len(), COUNT);
    assert!(first == bits(1) && first != bits(2));
    assert_eq!(D_EXPANSION.inputs(7, 1).count(), 7);
}
