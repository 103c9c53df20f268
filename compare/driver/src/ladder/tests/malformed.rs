//! The states handed in that no request hands back, and the tables that are null pointers.

use std::collections::HashMap;

use super::{SEED, STATES, all_lists, drawn_lists, judged};
use crate::ladder::State;
use crate::ladder::lists::{List, from_elsewhere};
use crate::ladder::machine::{Case, Machine};

/// A property of a state by name.
type Property = (&'static str, fn(&State) -> bool);

const PROPERTIES: [Property; 26] = [
    ("function 0", |state| state.function == 0),
    ("function 3", |state| state.function == 3),
    ("function 2^31", |state| state.function == 1 << 31),
    ("function u32::MAX", |state| state.function == u32::MAX),
    ("below_zero 2", |state| state.below_zero == 2),
    ("below_zero u32::MAX", |state| state.below_zero == u32::MAX),
    ("reserved", |state| state.reserved.iter().all(|&r| r > 0)),
    ("reserved 0", |state| state.reserved == [0; 3]),
    ("n 0", |state| state.n == 0),
    ("n 1", |state| state.n == 1),
    ("n 1000", |state| state.n == 1000),
    ("n 1001", |state| state.n == 1001),
    ("n 65536 more", |state| {
        state.n > 1 << 16 && state.n < 1 << 17
    }),
    ("n u32::MAX", |state| state.n == u32::MAX),
    ("x quiet NaN", |state| is_nan(state.x, true)),
    ("x signalling NaN", |state| is_nan(state.x, false)),
    ("x -0.0", |state| state.x.to_bits() == 1 << 63),
    ("f quiet NaN", |state| is_nan(state.f, true)),
    ("f signalling NaN", |state| is_nan(state.f, false)),
    ("f -0.0", |state| state.f.to_bits() == 1 << 63),
    ("f infinite", |state| state.f == f64::INFINITY),
    ("f -infinite", |state| state.f == f64::NEG_INFINITY),
    ("f 1", |state| state.f.abs() == 1.0),
    ("f above 1", |state| state.f > 1.0),
    ("f below -1", |state| state.f < -1.0),
    ("a value NaN", |state| state.value_below.is_nan()),
];

fn is_nan(number: f64, is_quiet: bool) -> bool {
    number.is_nan() && (number.to_bits() & (1 << 51) != 0) == is_quiet
}

/// How many lists that begin with such a state have a first request that is refused, and accepted.
fn first_requests(lists: &[List]) -> HashMap<&'static str, [usize; 2]> {
    let mut counts = HashMap::new();
    for list in lists {
        let (_, _, case) = judged(list)[0];
        let is_accepted = !matches!(case, Case::Refused(_));
        for (name, has) in PROPERTIES {
            let count = counts.entry(name).or_insert([0, 0]);
            count[usize::from(is_accepted)] += usize::from(has(&list.state));
        }
    }
    counts
}

#[test]
fn malformed_states_of_each_kind_are_met_often() {
    let edges = from_elsewhere(STATES, SEED).collect::<Vec<_>>();
    let [_, (_, drawn)] = drawn_lists();
    for lists in [edges, drawn] {
        for (name, [refused, accepted]) in first_requests(&lists) {
            assert!(refused > 15 && accepted > 60, "{name} {refused} {accepted}");
        }
    }
}

/// The case of the first request from states with this property.
fn cases(lists: &[List], has: fn(&State) -> bool) -> [usize; Case::NAMES.len()] {
    let mut counts = [0; Case::NAMES.len()];
    for list in lists.iter().filter(|list| has(&list.state)) {
        let (_, _, case) = judged(list)[0];
        counts[case.number()] += 1;
    }
    counts
}

#[test]
fn requests_of_every_case_meet_other_sides_and_reserved_fields() {
    let lists: Vec<List> = from_elsewhere(STATES, SEED).collect();
    let above_one = cases(&lists, |state| state.below_zero > 1);
    let reserved = cases(&lists, |state| state.reserved != [0; 3]);
    for counts in [above_one, reserved] {
        assert!(counts.iter().all(|&many| many > 20), "{counts:?}");
    }
    let functions = cases(&lists, |state| ![1, 2].contains(&state.function));
    assert!(
        functions[0] > 1000 && functions[1..3] == [0, 0],
        "{functions:?}"
    );
}

#[test]
fn some_states_count_as_empty() {
    let lists: Vec<List> = from_elsewhere(STATES, SEED).collect();
    let is_empty = |list: &&List| Machine::of(&list.state).held.is_none();
    let empty = lists.iter().filter(is_empty).count();
    assert!((STATES / 4..STATES * 3 / 5).contains(&empty), "{empty}");
}

#[test]
fn null_pointers_are_met_for_each_table_with_each_refusal() {
    for (name, lists) in all_lists() {
        let mut counts = HashMap::new();
        for (request, _, case) in lists.iter().flat_map(judged) {
            for i in [0, 1] {
                assert!(!request.nulls[i] || request.lengths[i] == 0, "{request:?}");
            }
            if request.nulls != [false; 2] {
                *counts.entry((request.nulls, case.number())).or_insert(0) += 1;
            }
        }
        for refusal in 1..=3 {
            let number = Case::Refused(refusal).number();
            for nulls in [[true, false], [false, true], [true, true]] {
                let many = counts.get(&(nulls, number)).copied().unwrap_or(0);
                assert!(many > 20, "{name} {refusal} {nulls:?} {many}");
            }
        }
        assert!(counts.keys().all(|&(_, number)| number > 2), "{name}");
    }
}
