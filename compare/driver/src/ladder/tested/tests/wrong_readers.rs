//! The comparison with wrong readers in place of the library's.

use super::reader::Fault::{self, *};
use super::reader::reader;
use super::{Reading, many, reading, state};
use crate::ladder::State;
use crate::ladder::tested::damage::carried_on;
use crate::tables::Lent;

const INF: f64 = f64::INFINITY;
const NAN: f64 = f64::NAN;

/// A fault, a state and what is changed in a reading of right rungs, the column named, and how the
/// difference begins.
type Row = (Fault, State, u32, fn(&mut Reading), &'static str);

const D: State = state(1, 0, 3, 1.0, 0.0);
const V: State = state(2, 1, 3, 1.0, 0.0);
/// Of V from 0 on.
const ABOVE: State = state(2, 0, 4, -3.0, 0.75);
const RESERVED: State = State {
    reserved: [0, 7, 0],
    ..D
};
const LENT: &str = "refusal: library 0, Rust 7";
const REFUSED: &str = "refusal: library 7, Rust 0";
const LENT_FOR_3: &str = "refusal: library 0, Rust 3";
const LENT_FOR_6: &str = "refusal: library 0, Rust 6";

#[rustfmt::skip]
const ROWS: [Row; 48] = [
    (StopsBelowTheTop, D, 1, |r| value(r, 3), LENT),
    (StopsBelowTheTop, state(2, 1, 1, 1.0, 0.0), 1, |r| value(r, 1), LENT),
    (StopsBelowTheLastDerivative, D, 2, |r| *r.slot(1, 2) = 9.5, LENT),
    (LeavesDerivativesOutForValues, D, 1, |r| *r.slot(1, 0) = 9.5, LENT),
    (LeavesValuesOutForDerivatives, D, 2, |r| value(r, 3), LENT),
    (TakesTheStartFromTheTable, D, 1, |r| value(r, 0), LENT),
    (TakesTheStartFromTheTable, D, 1, |r| start(r, [9.5, 8.5]), LENT),
    (TakesTheStartFromTheTable, D, 1, |r| start(r, [0.0, 0.0]), LENT),
    (TakesSlotOneFromTheTable, D, 1, |r| value(r, 1), LENT),
    (TakesRungTwoFromTheTable, V, 1, |r| value(r, 2), LENT),
    (StepsToRungTwo, state(2, 1, 2, -0.0, 0.0), 1, as_it_is, REFUSED),
    (TestsRungTwoAtOne, state(2, 1, 1, 1.0, 0.0), 1, as_it_is, REFUSED),
    (ComparesTheBitsOfF, state(1, 0, 3, 1.0, -0.0), 1, as_it_is, REFUSED),
    (ComparesByValue, state(1, 0, 3, INF, 0.0), 1, as_it_is, REFUSED),
    (ComparesByValue, state(1, 0, 3, 0.0, 0.0), 1, |r| *r.slot(1, 0) = -0.0, LENT),
    (ComparesByValue, state(1, 0, 3, 0.0, 0.0), 1, |r| *r.slot(0, 3) = 0.0, LENT),
    (ComparesBits, state(1, 0, 3, INF, 0.0), 1, |r| *r.slot(1, 2) = other_nan(r), REFUSED),
    (TestsLengthsFirst, State::EMPTY, 1, |r| r.tables[0].length = 0, "refusal: library 3, Rust 6"),
    (TestsLengthsFirst, state(1, 1, 3, 1.0, 0.5), 1, |r| r.tables[1].length = 2, "refusal: library 3, Rust 6"),
    (TestsRungsBeforeLengths, D, 1, short_and_damaged, "refusal: library 7, Rust 3"),
    (LeavesLengthsOut, D, 1, |r| r.tables[0].length = 0, LENT_FOR_3),
    (TakesNSlotsForValues, D, 1, |r| r.tables[0].length = 3, LENT_FOR_3),
    (TakesOneDerivativeLess, D, 1, |r| r.tables[1].length = 2, LENT_FOR_3),
    (NeedsOneDerivativeMore, D, 1, as_it_is, "refusal: library 3, Rust 0"),
    (TestsSlotsBeyond, D, 1, |r| r.tables[0].length = 5, REFUSED),
    (TakesTheTopFromTheState, D, 1, as_it_is, REFUSED),
    (TakesTheTopFromTheState, D, 1, |r| value_as_the_state_s(r, 3), LENT),
    (TestsTheTopOfTheState, D, 1, as_it_is, REFUSED),
    (LeavesTheForwardTestOut, state(1, 1, 3, 1.0, -0.5), 1, as_it_is, LENT_FOR_6),
    (LeavesTheSquareOut, State { n: 3, ..ABOVE }, 1, as_it_is, LENT_FOR_6),
    (LeavesTheEqualSquareForward, state(2, 0, 8, -4.0, 0.0), 1, as_it_is, LENT_FOR_6),
    (LeavesFOutOfU, ABOVE, 1, as_it_is, "refusal: library 6, Rust 0"),
    (TakesZeroForForward, state(2, 0, 3, -0.0, 0.5), 1, as_it_is, LENT_FOR_6),
    (HoldsNZero, State { n: 0, ..D }, 1, as_it_is, "refusal: library 7, Rust 6"),
    (HoldsNAboveTheLargest, State { n: 1001, ..D }, 1, as_it_is, "refusal: library 3, Rust 6"),
    (HoldsANanArgument, State { x: NAN, ..D }, 1, as_it_is, "refusal: library 7, Rust 6"),
    (HoldsANanF, State { f: NAN, ..D }, 1, as_it_is, "refusal: library 7, Rust 6"),
    (HoldsFOfOne, State { f: 1.0, ..D }, 1, as_it_is, "refusal: library 7, Rust 6"),
    (CutsNToSixteenBits, State { n: 3 + (1 << 16), ..D }, 1, as_it_is, LENT_FOR_6),
    (TakesOtherFunctionsAsV, State { function: 3, ..V }, 1, as_it_is, LENT_FOR_6),
    (TakesBelowZeroTwoAsNoSide, State { below_zero: 2, ..V }, 1, as_it_is, "refusal: library 6, Rust 0"),
    (TakesReservedForEmpty, RESERVED, 1, as_it_is, "refusal: library 6, Rust 0"),
    (RefusesOtherColumns, D, 0, as_it_is, "refusal: library 3, Rust 0"),
    (LendsDerivativesForOtherColumns, D, 3, as_it_is, "length: library 3, #102 0"),
    (CutsTheColumnToEightBits, D, 257, as_it_is, "length: library 4, #102 0"),
    (LendsNValues, D, 1, as_it_is, "length: library 3, #102 4"),
    (LendsAllSlots, D, 1, |r| r.tables[0].length = 5, "length: library 5, #102 4"),
    (LendsBesideARefusal, D, 2, |r| value(r, 0), "length: library 3, #102 0"),
];

/// The next float for a value, and all rungs that follow from it.
fn value(reading: &mut Reading, k: usize) {
    let mut values = reading.rungs()[0].to_vec();
    values[k] = values[k].next_up();
    carried_on(reading, &values, (k + 1).max(2));
}

/// Other values 0 and 1, and all rungs that follow from them.
fn start(reading: &mut Reading, values: [f64; 2]) {
    carried_on(reading, &values, 2);
}

/// The state's upper value is the wrong one too.
fn value_as_the_state_s(reading: &mut Reading, k: usize) {
    value(reading, k);
    reading.state.value_top = reading.rungs()[0][k];
}

fn as_it_is(_: &mut Reading) {}

fn short_and_damaged(reading: &mut Reading) {
    reading.tables[0].length = 3;
    *reading.slot(0, 0) = 9.5;
}

fn other_nan(reading: &Reading) -> f64 {
    f64::from_bits(reading.rungs()[1][2].to_bits() ^ 1)
}

/// The difference of a reading of right rungs, changed.
fn difference(
    fault: Option<Fault>,
    state: State,
    which: u32,
    change: fn(&mut Reading),
) -> Option<String> {
    let (mut reading, wanted) = reading(state, which);
    change(&mut reading);
    let wrong = |held, tables: [&mut Lent; 2], which| reader(fault, held, tables, which);
    reading.compare(&wanted, wrong).1
}

#[test]
fn wrong_readers_differ_where_they_are_wrong() {
    for (fault, state, which, change, beginning) in ROWS {
        let found = difference(Some(fault), state, which, change);
        let begins = |difference: &String| difference.starts_with(beginning);
        assert!(found.as_ref().is_some_and(begins), "{fault:?} {found:?}");
        assert_eq!(difference(None, state, which, change), None, "{fault:?}");
    }
}

#[test]
fn a_reader_that_writes_differs() {
    let found = difference(Some(WritesASlot), D, 1, |r| *r.slot(0, 2) = 9.5);
    let beginning = "value slot 0: library 0.25 (0x3fd0000000000000), before the call ";
    assert!(found.is_some_and(|found| found.starts_with(beginning)));
}

#[test]
fn the_readings_show_wrong_readers() {
    let mut faults = ROWS.map(|(fault, ..)| fault).to_vec();
    faults.dedup();
    faults.push(WritesASlot);
    for fault in faults {
        let many = many(fault);
        assert!(many > 10, "{fault:?} {many}");
    }
}
