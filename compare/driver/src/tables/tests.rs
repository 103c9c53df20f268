//! The split of orders, the reference's tables and the requests.

pub mod branches;
mod stored;
mod wrong_calls;

use std::collections::{HashMap, HashSet};

use source::entry::alloc_buf;

use super::edges::{self, square_at_order};
use super::outcome::Expected;
use super::requests::{Junk, Request, drawn, requests};
use super::split::{Split, needed};
use super::{CALLS, Call};
use crate::comparing::Comparable;
use crate::inputs::{around, halves};

/// Enough for all edge requests and many drawn ones.
const COUNT: usize = 100_000;
/// Where answers are needed, only one of so many requests is taken: a series is slow.
const STEP: usize = 20;

const D: &Call = &CALLS[0];
const V: &Call = &CALLS[1];

fn all_requests(call: &Call) -> impl Iterator<Item = Request> {
    requests(COUNT, call.seed(1))
}

fn drawn_requests(call: &Call) -> impl Iterator<Item = Request> {
    drawn(call.seed(1)).take(COUNT)
}

/// The requests that are accepted, one of `STEP`, with split and expected outcome.
fn accepted(call: &Call) -> impl Iterator<Item = (Request, Split, Expected)> {
    all_requests(call).step_by(STEP).filter_map(|request| {
        let expected = call.expected(request.v, request.x, request.length);
        let is_accepted = expected.answer.refusal == 0;
        is_accepted.then(|| (request, Split::of(request.v), expected))
    })
}

#[track_caller]
fn is_pair(call: &Call, v: f64, x: f64, pair: (f64, f64)) {
    let answer = call.expected(v, x, needed(v)).answer;
    let alike = (answer.value, answer.derivative).alike(&pair);
    assert!(answer.refusal == 0 && alike, "{answer:?}");
}

#[test]
fn examples_of_the_scope_paper() {
    let refusal = |call: &Call, v, x, length| call.expected(v, x, length).answer.refusal;
    // P5 to P8
    is_pair(D, 0.0, 0.0, (1.0, 0.0));
    assert_eq!([6, 5].map(|length| refusal(D, 0.0, 0.0, length)), [0, 3]);
    is_pair(D, 1.0, 0.0, (0.0, 1.0));
    is_pair(D, 2.0, 0.0, (-1.0, 0.0));
    let slots = D.expected(2.0, 0.0, 10).slots;
    for (slot, value) in slots.iter().zip([1.0, 0.0, -1.0, -0.0]) {
        assert!(slot.expect("it is written").alike(&value), "{slots:?}");
    }
    is_pair(V, -1.0, 0.0, (0.7978845608028654, 0.0));
    for call in &CALLS {
        // P9 and P10
        assert_eq!(refusal(call, 1000.0, 0.0, 5000), 2);
        let lengths = [2003, 2004, 2005];
        assert_eq!(
            lengths.map(|length| refusal(call, 999.5, 0.0, length)),
            [3, 0, 0]
        );
    }
    // P12
    let split = Split::of(1.0 - 2.0_f64.powi(-53));
    assert_eq!((split.u, split.n, split.num), (2.0, 2, 3));
}

#[test]
fn known_splits() {
    let split = |u, f, n, num| Split { u, f, n, num };
    assert_eq!(Split::of(-0.0), split(1.0, 0.0, 1, 3));
    assert_eq!(Split::of(-2.0_f64.powi(-60)), split(-1.0, 0.0, 1, 3));
    assert_eq!(Split::of(-0.5), split(-1.5, -0.5, 1, 3));
    assert_eq!(Split::of(2.75), split(3.75, 0.75, 3, 5));
    assert_eq!(Split::of(4.0_f64.next_down()), split(5.0, 0.0, 5, 6));
    let below = 1000.0_f64.next_down();
    let f = 1.0_f64 - 2.0_f64.powi(-43);
    assert_eq!(Split::of(below), split(below + 1.0, f, 1000, 1002));
}

#[test]
fn refusals_go_by_rising_number() {
    let (inf, nan) = (f64::INFINITY, f64::NAN);
    let rows = [
        (nan, 0.0, 0, 1),
        (1000.0, nan, 0, 1),
        (inf, -nan, 5000, 1),
        (0.0, nan, 5, 1),
        (1000.0, inf, 0, 2),
        (-1000.0, 0.0, 5000, 2),
        (-inf, 0.0, 5000, 2),
        (1000.0_f64.next_down(), 0.0, 2003, 3),
        (1000.0_f64.next_down(), inf, 2004, 0),
    ];
    for (v, x, length, refusal) in rows {
        for call in &CALLS {
            let Expected { answer, slots } = call.expected(v, x, length);
            assert_eq!(answer.refusal, refusal, "{v:?} {x:?} {length}");
            let is_refused = answer.value.is_nan() && answer.derivative.is_nan();
            assert!(refusal == 0 || (is_refused && slots.is_empty()));
        }
    }
}

/// The source's table if all slots hold `number` before.
fn filled(call: &Call, v: f64, x: f64, number: f64) -> Vec<f64> {
    let (mut table, num) = alloc_buf(v).expect("the order is accepted");
    table.fill(number);
    (call.reference)(x, v, &mut table, num);
    table
}

#[test]
fn the_source_writes_the_slots_that_the_scope_paper_names() {
    let marker = f64::from_bits(0xfff4_5678_9abc_def0);
    for call in &CALLS {
        let mut tables = 0;
        for (Request { v, x, .. }, split, _) in accepted(call) {
            let zeroed = filled(call, v, x, 0.0);
            let marked = filled(call, v, x, marker);
            assert_eq!(zeroed.len(), 2 * split.num);
            for (k, (zeroed, marked)) in zeroed.iter().zip(&marked).enumerate() {
                let named = split.writes(call.kind, k);
                let is_written = marked.to_bits() != marker.to_bits();
                assert_eq!(is_written, named, "{} {v:?} {x:?} {k}", call.name);
                let right = if named {
                    zeroed.alike(marked)
                } else {
                    zeroed.to_bits() == 0
                };
                assert!(right, "{} {v:?} {x:?} {k}", call.name);
            }
            tables += 1;
        }
        assert!(tables > COUNT / STEP / 2, "{} {tables}", call.name);
    }
}

#[test]
fn the_answer_is_the_last_rung_but_one() {
    for call in &CALLS {
        for (Request { v, x, .. }, Split { n, num, .. }, expected) in accepted(call) {
            let slot = |k: usize| expected.slots[k].expect("it is written");
            let Expected { answer, .. } = expected;
            let pair = (slot(n - 1), slot(num + n - 1));
            let alike = (answer.value, answer.derivative).alike(&pair);
            assert!(alike, "{} {v:?} {x:?}", call.name);
        }
    }
}

#[test]
fn the_timed_reference_fills_the_expected_table() {
    let [_, stand_ins, _] = Call::SIDES;
    for call in &CALLS {
        for (v, x) in [(100.3, 2.0), (40.0, 7.0), (-100.3, 3.0), (-50.5, 1.0)] {
            let mut table = vec![0.0; needed(v)];
            let answer = stand_ins(call, v, x, &mut table);
            let expected = call.expected(v, x, table.len());
            let pairs = [answer, expected.answer].map(|pair| (pair.value, pair.derivative));
            assert!(pairs[0].alike(&pairs[1]), "{} {v:?} {x:?}", call.name);
            for (slot, expected) in table.iter().zip(expected.slots) {
                let alike = slot.alike(&expected.unwrap_or(0.0));
                assert!(alike, "{} {v:?} {x:?}", call.name);
            }
        }
    }
}

#[test]
fn every_branch_is_met_often() {
    for call in &CALLS {
        let mut counts = HashMap::new();
        for Request { v, x, length, .. } in drawn_requests(call) {
            let branch = branches::with_refusals(call.kind, v, x, length);
            *counts.entry(branch).or_insert(0) += 1;
        }
        let expected = branches::all(call.kind);
        for name in &expected {
            let is_rare = branches::ABOVE_ORDER_27.contains(name);
            let least = if is_rare { COUNT / 300 } else { COUNT / 100 };
            let often = counts.get(name).is_some_and(|&count| count > least);
            assert!(often, "{} {name} {counts:?}", call.name);
        }
        assert_eq!(counts.len(), expected.len(), "{} {counts:?}", call.name);
    }
}

#[test]
fn orders_of_all_sizes_are_met_often() {
    let limits = [1.0, 3.0, 12.0, 60.0, 500.0, 1000.0];
    for call in &CALLS {
        let mut counts = [[0; 6]; 2];
        for Request { v, length, .. } in drawn_requests(call) {
            let size = limits.iter().position(|&limit| v.abs() < limit);
            if let Some(size) = size.filter(|_| length >= needed(v)) {
                counts[usize::from(v < 0.0)][size] += 1;
            }
        }
        let least = counts.iter().flatten().min();
        assert!(least > Some(&(COUNT / 120)), "{} {counts:?}", call.name);
    }
}

#[test]
fn a_third_are_different_requests_with_pairs_finite_and_not_zero() {
    let is_ordinary = |number: f64| number.is_finite() && number != 0.0;
    for call in &CALLS {
        let mut different = HashSet::new();
        for (Request { v, x, .. }, _, Expected { answer, .. }) in accepted(call) {
            if is_ordinary(answer.value) && is_ordinary(answer.derivative) {
                different.insert((v.to_bits(), x.to_bits()));
            }
        }
        assert!(different.len() > COUNT / STEP / 3, "{}", call.name);
    }
}

/// The orders and arguments of all edge requests.
fn edge_pairs() -> HashSet<(u64, u64)> {
    let bits = |request: Request| (request.v.to_bits(), request.x.to_bits());
    edges::requests().into_iter().map(bits).collect()
}

#[test]
fn given_pairs_are_among_the_requests() {
    let pairs = edge_pairs();
    let (inf, nan) = (f64::INFINITY, f64::NAN);
    let below = 2.0_f64.powi(-60);
    let sizes = [0.0, below, 5e-324, 999.5, 1000.0_f64.next_down(), 1000.0];
    let both = sizes.iter().flat_map(|&size| [size, -size]);
    let whole = halves(-24, 24).flat_map(|v| around(v, 1));
    let orders: Vec<f64> = both.chain(whole).chain([inf, -inf, nan]).collect();
    let limits = [2.0, 5.8, 7.5, 10.0].map(|x| around(x, 1)).concat();
    let limits = limits.iter().flat_map(|&x| [x, -x]);
    let others = [0.0, -0.0, 5e-324, -5e-324, f64::MAX, inf, -inf, nan];
    for x in limits.chain(others) {
        for v in &orders {
            let there = pairs.contains(&(v.to_bits(), x.to_bits()));
            assert!(there, "{v:?} {x:?}");
        }
    }
}

#[test]
fn every_edge_order_has_tables_of_all_lengths() {
    let mut lengths: HashMap<u64, HashSet<usize>> = HashMap::new();
    for Request { v, length, .. } in edges::requests() {
        lengths.entry(v.to_bits()).or_default().insert(length);
    }
    for v in edges::orders() {
        let (needed, lengths) = (needed(v), &lengths[&v.to_bits()]);
        let (num, n) = (needed / 2, needed / 2 - 2);
        for length in [0, 1, n, num, needed - 1, needed, needed + 1, needed + 300] {
            assert!(lengths.contains(&length), "{v:?} {length}");
        }
    }
}

#[test]
fn empty_tables_are_lent_by_null_pointers_too() {
    let edges = edges::requests();
    for v in edges::orders() {
        for is_null in [false, true] {
            let is_such = |request: &Request| {
                let is_empty = request.length == 0 && request.is_null == is_null;
                request.v.to_bits() == v.to_bits() && is_empty
            };
            assert!(edges.iter().any(is_such), "{v:?} {is_null}");
        }
    }
    for call in &CALLS {
        let empty = drawn_requests(call).filter(|request| request.length == 0);
        let (null, other): (Vec<_>, Vec<_>) = empty.partition(|request| request.is_null);
        assert!(null.len() > COUNT / 1000 && other.len() > COUNT / 1000);
        assert!(all_requests(call).all(|request| !request.is_null || request.length == 0));
    }
}

#[test]
fn both_sides_of_half_the_square_are_among_the_requests() {
    let pairs = edge_pairs();
    // Up to x = 10.
    for v in halves(0, 98) {
        let is_above = |x: f64| v + 1.0 <= 0.5 * x * x;
        let mut x = square_at_order(v) * (1.0 - 1e-14);
        while !is_above(x) {
            x = x.next_up();
        }
        assert!(is_above(x) && !is_above(x.next_down()));
        for x in [x, x.next_down(), -x, -x.next_down()] {
            assert!(pairs.contains(&(v.to_bits(), x.to_bits())), "{v:?} {x:?}");
        }
    }
}

#[test]
fn orders_at_which_the_value_column_is_full_are_among_the_requests() {
    let orders = edges::orders();
    for k in 0..10 {
        let v = 2.0_f64.powi(k).next_down();
        for v in [v, -v] {
            let Split { n, num, f, .. } = Split::of(v);
            assert!(n + 1 == num && f == 0.0, "{v:?}");
            assert!(orders.iter().any(|order| order.to_bits() == v.to_bits()));
        }
    }
}

#[test]
fn junk_is_of_every_kind() {
    let kinds: [fn(f64) -> bool; 8] = [
        |slot| slot.is_nan() && slot.to_bits() & (1 << 51) == 0,
        |slot| slot.is_nan() && slot.is_sign_negative(),
        |slot| slot.to_bits() == 0,
        |slot| slot.to_bits() == 1 << 63,
        |slot| slot == f64::INFINITY,
        |slot| slot == f64::NEG_INFINITY,
        |slot| slot.is_subnormal(),
        |slot| slot.is_normal() && slot.abs() < 1024.0,
    ];
    let mixed: Vec<f64> = (0..200).map(|k| Junk(1).slot(k)).collect();
    for (i, is_of_kind) in kinds.iter().enumerate() {
        assert!(mixed.iter().any(|&slot| is_of_kind(slot)), "{i}");
    }
    let same: [fn(f64) -> bool; 4] = [
        f64::is_nan,
        f64::is_infinite,
        |x| x == 0.0,
        |x| x.abs() < 1024.0,
    ];
    for (junk, is_of_kind) in [0, 4, 6, 12].into_iter().zip(same) {
        assert!((0..200).all(|k| is_of_kind(Junk(junk).slot(k))), "{junk}");
    }
    let even = all_requests(D).filter(|request| request.junk.0.is_multiple_of(2));
    assert!((COUNT / 3..2 * COUNT / 3).contains(&even.count()));
}

#[test]
fn the_seed_fixes_the_requests_and_the_count_is_kept() {
    let bits = |seed| -> Vec<_> {
        let requests = requests(COUNT, seed);
        requests
            .map(|r| (r.v.to_bits(), r.x.to_bits(), r.length, r.junk.0))
            .collect()
    };
    let first = bits(1);
    assert_eq!(first.len(), COUNT);
    assert!(first == bits(1) && first != bits(2));
    assert_eq!(requests(7, 1).count(), 7);
    assert_ne!(D.seed(1), V.seed(1));
    assert!(edges::requests().len() < COUNT / 2);
}
