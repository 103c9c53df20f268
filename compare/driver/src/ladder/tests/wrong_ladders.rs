//! The comparison with ladders in place of the library's: a right one, and wrong ones.

use super::right_ladder::Fault::{self, *};
use super::right_ladder::ladder;
use super::{COUNT, SEED, STATES, list, point};
use crate::ladder::lists::{List, drawn_from_elsewhere, from_elsewhere, from_empty};
use crate::ladder::running::run;
use crate::ladder::{Comparison, Point, State};
use crate::tables::Kind::{self, D, V};
use crate::tables::Lent;

/// One of so many lists is taken: a series is slow.
const STEP: usize = 97;

/// A signalling NaN.
const SIGNALLING: u64 = 0x7ff0_0000_0000_0001;

/// Of D at x = 1, with n = 3 and f = 0.
const HELD: State = State {
    function: D as u32,
    below_zero: 0,
    n: 3,
    reserved: [0, 7, u32::MAX],
    x: 1.0,
    f: 0.0,
    value_below: 1.5,
    value_top: f64::from_bits(SIGNALLING),
};

/// A fault, the state that the list begins with, the list as function, order and argument, and how
/// the difference at its last request begins. The requests before it show none.
type Row = (Fault, State, &'static [(Kind, f64, f64)], &'static str);

#[rustfmt::skip]
const ROWS: [Row; 41] = [
    (StartsOverEachTime, State::EMPTY, &[(D, 2.0, 1.0), (D, 3.0, 1.0)], "written: library 5, Rust 1"),
    (StartsOverEachTime, State::EMPTY, &[(D, 2.0, 1.0), (D, 2.0, 1.0)], "written: library 4, Rust 0"),
    (StartsOverInSecret, State { value_top: 2.5, ..HELD }, &[(D, 5.0, 1.0)], "value: library"),
    (RewritesOnAClimb, State::EMPTY, &[(D, 2.0, 1.0), (D, 4.0, 1.0)], "value slot 0: library"),
    (CountsOneForAll, State::EMPTY, &[(D, 2.0, 1.0)], "written: library 1, Rust 4"),
    (ReadsTheValueTable, State::EMPTY, &[(D, 2.0, 1.0), (D, 3.0, 1.0)], "value: library"),
    (ReadsTheDerivativeTable, State::EMPTY, &[(D, 2.0, 1.0), (D, 2.0, 1.0)], "derivative: library"),
    (CountsZeroFromEmpty, State::EMPTY, &[(D, 2.0, 1.0)], "written: library 0, Rust 4"),
    (ClimbsFromRungOne, State::EMPTY, &[(V, -1e-20, 1.0), (V, -1.0, 1.0)], "written: library 1, Rust 3"),
    (ClimbsDownwardBranches, State::EMPTY, &[(D, -3.0, 1.0), (D, -4.0, 1.0)], "written: library 1, Rust 6"),
    (ComparesXByValue, State::EMPTY, &[(D, 2.0, 0.0), (D, 2.0, -0.0)], "written: library 0, Rust 4"),
    (ComparesFByValue, State { f: -0.0, ..HELD }, &[(D, 2.0, 1.0)], "written: library 0, Rust 4"),
    (ComparesShiftedOrders, State { n: 2, f: 1.0, ..HELD }, &[(D, 2.0, 1.0)], "written: library 0, Rust 4"),
    (TakesTheForwardTestAtTheNewN, State::EMPTY, &[(V, 3.0, -3.0), (V, 4.0, -3.0)], "written: library 1, Rust 6"),
    (LeavesTheEqualSquareForward, State::EMPTY, &[(V, 7.0, -4.0), (V, 8.0, -4.0)], "written: library 1, Rust 10"),
    (LeavesTheSideOut, State::EMPTY, &[(D, 1.0, 1.0), (D, -1.0, 1.0)], "written: library 0, Rust 3"),
    (LeavesTheFunctionOut, State::EMPTY, &[(D, 2.0, 1.0), (V, 2.0, 1.0)], "written: library 0, Rust 4"),
    (RewritesOnARepeat, State::EMPTY, &[(D, 2.0, 1.0), (D, 2.0, 1.0)], "value slot 2: library"),
    (WritesSlotTwo, State::EMPTY, &[(V, -1e-20, 1.0)], "value slot 2: library"),
    (ChangesTheStateOnARefusal, State::EMPTY, &[(D, 2.0, 1.0), (D, 1000.0, 2.0)], "state: library"),
    (QuietsANanOnARefusal, HELD, &[(D, f64::NAN, 1.0)], "state: library"),
    (CountsARefusal, State::EMPTY, &[(D, 1000.0, 1.0)], "written: library 1, Rust 0"),
    (AnswersARefusal, State::EMPTY, &[(D, 1000.0, 1.0)], "derivative: library 0.0"),
    (HoldsAMalformedState, State { n: 0, ..HELD }, &[(D, 2.0, 1.0)], "written: library 3, Rust 4"),
    (CutsNToSixteenBits, State { n: 3 + (1 << 16), ..HELD }, &[(D, 2.0, 1.0)], "written: library 0, Rust 4"),
    (CutsNToSixteenBits, State { n: 1 << 16, ..HELD }, &[(D, 1000.0, 1.0)], "state: library"),
    (KeepsReserved, HELD, &[(D, 2.0, 1.0)], "state's reserved[1]: library 7, Rust 0"),
    (KeepsReserved, HELD, &[(V, 2.0, 1.0)], "state's reserved[1]: library 7, Rust 0"),
    (ClearsReservedOnARefusal, HELD, &[(D, 1000.0, 1.0)], "state: library"),
    (TakesReservedForEmpty, HELD, &[(D, 2.0, 1.0)], "written: library 4, Rust 0"),
    (TakesOtherFunctionsAsV, State { function: 7, ..HELD }, &[(V, 2.0, 1.0)], "written: library 0, Rust 4"),
    (TakesOtherFunctionsAsV, State { function: 0, ..HELD }, &[(V, 2.0, 1.0)], "written: library 0, Rust 4"),
    (ClearsOtherFunctionsOnARefusal, State { function: 7, ..HELD }, &[(D, 1000.0, 1.0)], "state: library"),
    (TakesBelowZeroTwoAsNoSide, State { below_zero: 2, ..HELD }, &[(D, -2.0, 1.0)], "written: library 4, Rust 0"),
    (TakesBelowZeroTwoAsNoSide, State { below_zero: 2, ..HELD }, &[(D, 2.0, 1.0)], "written: library 0, Rust 4"),
    (KeepsBelowZero, State { below_zero: 5, ..HELD }, &[(D, -2.0, 1.0)], "state's below_zero: library 5, Rust 1"),
    (CutsBelowZeroOnARefusal, State { below_zero: 5, ..HELD }, &[(D, 1000.0, 1.0)], "state: library"),
    (KeepsTheOldTop, State::EMPTY, &[(D, 2.0, 2.0), (D, 3.0, 2.0)], "state's value_top: library"),
    (WritesBeyondTheDerivatives, State::EMPTY, &[(D, 2.0, 1.0)], "derivative slot 3: library 0.0"),
    (TakesNSlotsForValues, State::EMPTY, &[(D, 2.0, 1.0)], "refusal: library 0, Rust 3"),
    (LeavesLengthsOutOnARepeat, State::EMPTY, &[(D, 2.0, 1.0), (D, 2.0, 1.0)], "refusal: library 0, Rust 3"),
];

/// Faults that show where the last value table is a slot too short.
const OF_LENGTHS: [Fault; 2] = [TakesNSlotsForValues, LeavesLengthsOutOnARepeat];

/// The differences of a list's requests.
fn differences(fault: Option<Fault>, list: &List) -> Vec<Option<String>> {
    let ladder = |held, point: &Point, tables: [&mut Lent; 2]| ladder(fault, held, point, tables);
    let mut differences = vec![];
    run(list, ladder, |_, _, difference| {
        differences.push(difference.map(|(_, sides)| sides));
    });
    differences
}

#[test]
fn wrong_ladders_differ_where_they_are_wrong() {
    for (fault, state, points, beginning) in ROWS {
        let points = points.iter().map(|&(kind, v, x)| point(kind, v, x));
        let mut list = list(state, &points.collect::<Vec<_>>());
        if OF_LENGTHS.contains(&fault) {
            let last = list.requests.last_mut().expect("there are requests");
            last.lengths[0] -= 1;
        }
        let found = differences(Some(fault), &list);
        let (last, before) = found.split_last().expect("there are requests");
        assert!(before.iter().all(Option::is_none), "{fault:?} {before:?}");
        let begins = |difference: &String| difference.starts_with(beginning);
        assert!(last.as_ref().is_some_and(begins), "{fault:?} {last:?}");
        let right = differences(None, &list);
        assert!(right.iter().all(Option::is_none), "{fault:?} {right:?}");
    }
}

#[test]
fn a_comparison_counts_requests_states_and_differences() {
    let counted = |fault| {
        let lists = || drawn_from_elsewhere(SEED).take(2000);
        let requests = lists().map(|list| list.requests.len()).sum::<usize>();
        let mut comparison = Comparison::from_elsewhere();
        comparison.run(lists(), |held, point, tables| {
            ladder(fault, held, point, tables)
        });
        assert_eq!(comparison.line.inputs, requests);
        assert!(comparison.states().starts_with("2000 states handed in, "));
        comparison.line.differences
    };
    assert_eq!(counted(None), 0);
    for fault in [
        KeepsReserved,
        TakesOtherFunctionsAsV,
        CutsBelowZeroOnARefusal,
    ] {
        assert!(counted(Some(fault)) > 0, "{fault:?}");
    }
}

/// How many requests differ among the lists of a comparison.
fn many(fault: Option<Fault>, lists: &[List]) -> usize {
    let differences = lists.iter().flat_map(|list| differences(fault, list));
    differences.flatten().count()
}

#[test]
fn the_lists_show_wrong_ladders_and_no_right_one() {
    let lists = from_empty(COUNT, SEED).chain(from_elsewhere(STATES, SEED));
    let lists: Vec<List> = lists.step_by(STEP).collect();
    assert_eq!(many(None, &lists), 0);
    let mut faults = ROWS.map(|(fault, ..)| fault).to_vec();
    faults.dedup();
    for fault in faults {
        assert!(many(Some(fault), &lists) > 1, "{fault:?}");
    }
}
