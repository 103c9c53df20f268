//! The recurrences and derivative formulas, and the rungs after a list.

use super::{COUNT, SEED, list, point, record};
use crate::comparing::Comparable;
use crate::ladder::lists::{Lending, List, from_empty};
use crate::ladder::machine::Record;
use crate::ladder::rungs::{Branch, Rungs};
use crate::ladder::running::Run;
use crate::ladder::tests::right_ladder::ladder;
use crate::ladder::{Point, State};
use crate::tables::Kind::{D, V};
use crate::tables::{MARGIN, Split};

/// Accepted points of many lists, with the machine's record.
fn points() -> impl Iterator<Item = (Point, Record)> {
    let lists = from_empty(COUNT, SEED).step_by(23);
    let requests = lists.flat_map(|list| list.requests);
    requests.filter_map(|request| Some((request.point, record(&request)?)))
}

#[test]
fn the_recurrences_give_the_source_s_rungs() {
    let mut counts = [0; 4];
    for (point, record) in points().filter(|(_, record)| record.is_forward()) {
        let (rungs, branch) = (Rungs::of_source(&point), Branch::of(&point));
        for k in 3..=record.n {
            let value = branch.value(k, rungs.value(k - 2), rungs.value(k - 1));
            assert!(value.alike(&rungs.value(k)), "{point:?} {k}");
        }
        let number = 2 * (record.kind as usize - 1) + usize::from(record.below_zero);
        counts[number] += record.n.saturating_sub(2);
    }
    assert!(counts.iter().all(|&count| count > 3000), "{counts:?}");
}

#[test]
fn the_derivative_formulas_give_the_source_s_derivatives() {
    let mut counts = [0; 4];
    for (point, record) in points() {
        let (rungs, branch) = (Rungs::of_source(&point), Branch::of(&point));
        for k in 0..record.n {
            let derivative = branch.derivative(k, rungs.value(k), rungs.value(k + 1));
            assert!(derivative.alike(&rungs.derivative(k)), "{point:?} {k}");
        }
        counts[2 * (record.kind as usize - 1) + usize::from(record.below_zero)] += record.n;
    }
    assert!(counts.iter().all(|&count| count > 10_000), "{counts:?}");
}

#[test]
fn rungs_are_carried_on_from_two_values() {
    let rungs = Rungs::carried_on(&point(D, 4.0, 2.0), 3, [5.0, 7.0]);
    // 2 * 7 - 3 * 5, 2 * (-1) - 4 * 7
    let values = [2, 3, 4, 5].map(|k| rungs.value(k));
    assert_eq!(values, [5.0, 7.0, -1.0, -30.0]);
    let derivatives = [2, 3, 4].map(|k| rungs.derivative(k));
    assert_eq!(derivatives, [5.0 - 7.0, 7.0 + 1.0, -1.0 + 30.0]);
    let repeated = Rungs::carried_on(&point(V, -2.0, 2.0), 3, [5.0, 7.0]);
    assert_eq!((repeated.value(2), repeated.value(3)), (5.0, 7.0));
    assert_eq!(repeated.derivative(2), -5.0 + 7.0);
}

#[test]
fn rung_2_of_v_at_a_whole_order_below_0_is_no_recurrence_step() {
    let point = point(V, -1.0, -0.0);
    let (rungs, branch) = (Rungs::of_source(&point), Branch::of(&point));
    assert!(rungs.value(2).alike(&-0.0));
    let step = branch.value(2, rungs.value(0), rungs.value(1));
    assert!(step.alike(&0.0), "{step:?}");
}

/// After the orders 2, 4 and 5 of D on tables of 8 slots.
fn ran(change: impl Fn(&mut List)) -> Run {
    let mut list = list(State::EMPTY, &[2.0, 4.0, 5.0].map(|v| point(D, v, 1.0)));
    for request in &mut list.requests {
        (request.lengths, request.lending) = ([8, 8], Lending::Kept);
    }
    change(&mut list);
    let mut run = Run::new(&list.state);
    for request in &list.requests {
        let (_, difference) = run.request(request, |held, point, tables| {
            ladder(None, held, point, tables)
        });
        assert_eq!(difference, None);
    }
    run
}

#[test]
fn the_rungs_after_a_list_are_compared() {
    for (table, k) in [(0, 0), (0, 3), (0, 6), (1, 0), (1, 5)] {
        let mut run = ran(|_| {});
        assert_eq!(run.rungs_difference(), None);
        run.tables[table].slots[MARGIN + k] = 1.25;
        let name = ["value", "derivative"][table];
        let expected = format!("after the list {name} slot {k}: library 1.25");
        let difference = run.rungs_difference().expect("a difference");
        assert!(difference.starts_with(&expected), "{difference}");
    }
    let mut run = ran(|_| {});
    for (table, k) in [(0, 7), (1, 6)] {
        run.tables[table].slots[MARGIN + k] = 1.25;
    }
    assert_eq!(run.rungs_difference(), None);
}

#[test]
fn the_rungs_are_compared_where_the_tables_came_as_they_were_left() {
    let is_compared = |change: fn(&mut List)| ran(change).rungs_of.is_some();
    assert!(is_compared(|_| {}));
    assert!(is_compared(|list| list.requests[2].lengths = [9, 300]));
    assert!(is_compared(|list| list.requests[0].lending = Lending::Other));
    assert!(!is_compared(
        |list| list.requests[1].lending = Lending::Other
    ));
    assert!(!is_compared(
        |list| list.requests[2].lending = Lending::Exchanged
    ));
    assert!(!is_compared(
        |list| list.requests[2].lending = Lending::Overwritten
    ));
    assert!(!is_compared(|list| list.requests[2].lengths = [7, 8]));
    assert!(!is_compared(|list| list.requests[1].lengths = [8, 7]));
    // a refused request counts, one before the start-over does not
    assert!(!is_compared(|list| {
        list.requests[2].point.v = f64::NAN;
        list.requests[2].lengths = [0, 8];
    }));
    assert!(is_compared(|list| list.requests[2].point.v = f64::NAN));
    assert!(is_compared(|list| {
        list.requests[1].lengths = [7, 7];
        list.requests[2].point.x = 2.0;
    }));
    let only_refused =
        |list: &mut List| list.requests.iter_mut().for_each(|r| r.point.v = f64::NAN);
    assert!(!is_compared(only_refused));
    assert_eq!(Split::of(5.0).n, 6);
}
