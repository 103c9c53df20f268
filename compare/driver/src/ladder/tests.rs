//! The lists, and what they meet.

mod machine;
mod malformed;
pub mod right_ladder;
mod rungs;
mod wrong_ladders;

use std::collections::{HashMap, HashSet};

use super::lists::{Lending, List, Request, from_elsewhere, from_empty};
use super::machine::{Case, Machine, Record};
use super::{Point, State, drawn, edges, handed_in};
use crate::inputs::Draw;
use crate::tables::{Junk, Kind, Split};

/// Enough for all edge lists and many drawn ones.
const COUNT: usize = 150_000;
const STATES: usize = 60_000;
const SEED: u64 = 1;

fn point(kind: Kind, v: f64, x: f64) -> Point {
    Point { kind, v, x }
}

/// A request for each point, with tables just long enough, other ones for each.
fn list(state: State, points: &[Point]) -> List {
    let request = |(i, &point): (usize, &Point)| Request {
        point,
        lengths: point.needed(),
        nulls: [false; 2],
        lending: Lending::Other,
        junk: Junk(2 * i as u64 + 1),
    };
    List {
        state,
        requests: points.iter().enumerate().map(request).collect(),
    }
}

fn all_lists() -> [(&'static str, Vec<List>); 2] {
    [
        ("empty", from_empty(COUNT, SEED).collect()),
        ("elsewhere", from_elsewhere(STATES, SEED).collect()),
    ]
}

fn drawn_lists() -> [(&'static str, Vec<List>); 2] {
    [
        ("empty", drawn::lists(SEED).take(2000).collect()),
        ("elsewhere", handed_in::drawn(SEED).take(30_000).collect()),
    ]
}

/// Each request of a list with the machine before it, and its case.
fn judged(list: &List) -> Vec<(Request, Machine, Case)> {
    let mut machine = Machine::of(&list.state);
    let judge = |request: &Request| {
        let before = machine;
        let case = machine.feed(&request.point, request.lengths);
        (*request, before, case)
    };
    list.requests.iter().map(judge).collect()
}

/// How many requests have each property that `of` tells.
fn counted<T>(
    lists: &[List],
    of: impl Fn(&Request, &Machine, Case) -> Option<T>,
) -> HashMap<T, usize>
where
    T: Eq + std::hash::Hash,
{
    let mut counts = HashMap::new();
    for (request, before, case) in lists.iter().flat_map(judged) {
        if let Some(key) = of(&request, &before, case) {
            *counts.entry(key).or_insert(0) += 1;
        }
    }
    counts
}

#[test]
fn every_case_is_met_often() {
    for (name, lists) in all_lists().iter().chain(&drawn_lists()) {
        let counts = counted(lists, |_, _, case| Some(case.number()));
        let all: usize = counts.values().sum();
        for (number, case) in Case::NAMES.iter().enumerate() {
            let many = counts.get(&number).copied().unwrap_or(0);
            assert!(many > all / 150, "{name} {case} {many} of {all}");
        }
    }
}

/// The branch of a record, as far as forward branches go.
fn branch(record: &Record) -> (u32, bool, i32) {
    let x = f64::from_bits(record.x);
    let sign = if x == 0.0 { 0 } else { x.signum() as i32 };
    (record.kind as u32, record.below_zero, sign)
}

#[test]
fn climbs_and_repeats_are_met_on_every_branch() {
    for (name, lists) in &drawn_lists() {
        let repeats = counted(lists, |_, before, case| {
            (case == Case::Repeat).then(|| before.held.map(|held| branch(&held)))
        });
        assert_eq!(repeats.len(), 12, "{name} {repeats:?}");
        let climbs = counted(lists, |_, before, case| {
            matches!(case, Case::Climb(_)).then(|| before.held.map(|held| branch(&held)))
        });
        // D from 0, D below 0 at x <= 0, V below 0, V from 0 at x < 0
        assert_eq!(climbs.len(), 3 + 2 + 3 + 1, "{name} {climbs:?}");
        for (branch, many) in repeats.iter().chain(&climbs) {
            assert!(*many > 40, "{name} {branch:?} {many}");
        }
    }
}

#[test]
fn climbs_of_all_lengths_are_met() {
    let limits = [1, 2, 10, 100, 400, 1000];
    for (name, lists) in all_lists() {
        let counts = counted(&lists, |request, _, case| match case {
            Case::Climb(held) => {
                let by = Split::of(request.point.v).n - held;
                limits.iter().position(|&limit| by <= limit)
            }
            _ => None,
        });
        for (i, limit) in limits.iter().enumerate() {
            let many = counts.get(&i).copied().unwrap_or(0);
            assert!(many >= 8, "{name} {limit} {many}");
        }
    }
}

/// The record that a request leaves, if it is accepted.
fn record(request: &Request) -> Option<Record> {
    let mut machine = Machine { held: None };
    machine.feed(&request.point, request.lengths);
    machine.held
}

#[test]
fn requests_start_over_where_only_the_higher_n_is_forward() {
    let counts = counted(&edges::lists(), |request, before, case| {
        let (held, new) = (before.held?, record(request)?);
        let same_but_n = Record { n: held.n, ..new } == held;
        let is_across = new.n > held.n && new.is_forward() && !held.is_forward();
        (same_but_n && is_across).then_some(case.number())
    });
    assert_eq!(counts.len(), 1, "{counts:?}");
    assert!(counts[&Case::StartOver.number()] > 300, "{counts:?}");
}

#[test]
fn given_points_follow_each_other() {
    let (d, v) = (Kind::D, Kind::V);
    let below = 1.0 - 2.0_f64.powi(-53);
    let pairs = [
        (point(d, 1.0, 1.0), point(d, -1.0, 1.0)),
        (point(v, -1.0, 1.0), point(v, 1.0, 1.0)),
        (point(d, 2.0, 0.0), point(d, 2.0, -0.0)),
        (point(v, -2.0, -0.0), point(v, -2.0, 0.0)),
        (point(d, 1.0, 1.0), point(d, below, 1.0)),
        (point(d, below, 1.0), point(d, 1.0, 1.0)),
        (point(v, -(2.0_f64.powi(-60)), 1.0), point(v, -1.0, 1.0)),
        (point(d, -2.5, -3.0), point(d, -9.5, -3.0)),
        (point(d, -2.5, 2.5), point(d, -9.5, 2.5)),
        (
            point(v, 2.0, f64::NEG_INFINITY),
            point(v, 3.0, f64::NEG_INFINITY),
        ),
        (point(d, 2.0, 1.0), point(v, 2.0, 1.0)),
    ];
    let key = |point: &Point| (point.kind as u32, point.v.to_bits(), point.x.to_bits());
    let mut followed = HashSet::new();
    for list in &edges::lists() {
        let accepted = list
            .requests
            .iter()
            .filter(|request| record(request).is_some());
        let keys: Vec<_> = accepted.map(|request| key(&request.point)).collect();
        followed.extend(keys.windows(2).map(|pair| (pair[0], pair[1])));
    }
    for (first, second) in pairs {
        let there = followed.contains(&(key(&first), key(&second)));
        assert!(there, "{first:?} {second:?}");
    }
}

#[test]
fn every_lending_is_met_often_in_every_case() {
    for (name, lists) in drawn_lists() {
        let counts = counted(&lists, |request, _, case| {
            Some((request.lending as usize, case.number()))
        });
        assert_eq!(counts.len(), 4 * Case::NAMES.len(), "{name}");
        let least = counts.values().min();
        assert!(least > Some(&20), "{name} {counts:?}");
    }
}

#[test]
fn the_seed_fixes_the_lists_and_the_count_is_kept() {
    let text = |seed| {
        let lists = from_empty(COUNT, seed).chain(from_elsewhere(STATES, seed));
        let shown = |list: &List| -> Vec<_> {
            list.requests
                .iter()
                .map(|request| request.show(&list.state))
                .collect()
        };
        lists.flat_map(|list| shown(&list)).collect::<Vec<_>>()
    };
    let first = text(1);
    assert!(first == text(1) && first != text(2));
    let requests = |lists: &[List]| -> usize { lists.iter().map(|l| l.requests.len()).sum() };
    for count in [7, COUNT] {
        let lists: Vec<List> = from_empty(count, SEED).collect();
        assert_eq!(requests(&lists), count);
    }
    assert!(requests(&edges::lists()) < COUNT * 2 / 3);
    for states in [7, STATES] {
        assert_eq!(from_elsewhere(states, SEED).count(), states);
    }
    assert!(handed_in::edges().len() < STATES * 4 / 5);
}

#[test]
fn a_branch_gives_orders_that_are_on_it() {
    let mut draw = Draw::new(1);
    for _ in 0..2000 {
        let f = (draw.bits() >> 21) as f64 / 2.0_f64.powi(43);
        for (below_zero, f) in [(false, f), (true, -f), (false, 0.0), (true, 0.0)] {
            let (kind, x, n) = (Kind::V, 1.0, 1 + draw.below(1000));
            let branch = super::rungs::Branch {
                kind,
                below_zero,
                x,
                f,
            };
            let point = branch.point(n);
            let split = Split::of(point.v);
            assert!(point.v.abs() < 1000.0 && (point.v < 0.0) == below_zero);
            assert_eq!((split.n, split.f.to_bits()), (n, f.to_bits()), "{n} {f:?}");
        }
    }
}

#[test]
fn a_request_is_shown_with_its_bits() {
    let list = list(State::EMPTY, &[point(Kind::V, -0.5, 2.0)]);
    let expected = "V, v -0.5 (0xbfe0000000000000), x 2.0 (0x4000000000000000), \
                    tables Other, lengths 2 and 1, held: function 0, below zero 0, n 0, \
                    reserved 0x0 0x0 0x0, \
                    x 0.0 (0x0000000000000000), f 0.0 (0x0000000000000000), \
                    values 0.0 (0x0000000000000000) and 0.0 (0x0000000000000000)";
    assert_eq!(list.requests[0].show(&list.state), expected);
}
