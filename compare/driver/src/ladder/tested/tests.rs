//! The reference of the tested reader, and what the readings meet.

mod reader;
mod reference;
mod wrong_readers;

use super::damage::{OF_LENGTHS, OF_RUNGS};
use super::reading::Reading;
use super::subject::Subject;
use super::wanted::Wanted;
use super::{Comparison, LEAST, Part, lists_from_elsewhere, lists_from_empty};
use crate::inputs::Draw;
use crate::ladder::lists::List;
use crate::ladder::tests::right_ladder;
use crate::ladder::{Point, Reply, State};
use crate::tables::Lent;
use reader::Fault;

const SEED: u64 = 1;

/// A right ladder.
fn ladder(held: State, point: &Point, tables: [&mut Lent; 2]) -> Reply {
    right_ladder::ladder(None, held, point, tables)
}

/// With all other fields 0.
const fn state(function: u32, below_zero: u32, n: u32, x: f64, f: f64) -> State {
    State {
        function,
        below_zero,
        n,
        x,
        f,
        ..State::EMPTY
    }
}

/// A reading of right rungs, in tables just long enough, with what it must be answered.
fn reading(state: State, which: u32) -> (Reading, Wanted) {
    let list = List {
        state,
        requests: vec![],
    };
    let subject = Subject::after(&list, 0, ladder);
    let mut reading = Reading::of_its_rungs(&subject, &mut Draw::new(SEED));
    reading.which = which;
    for (table, rungs) in reading.tables.iter_mut().zip(&subject.rungs) {
        table.length = rungs.len();
    }
    (reading, subject.wanted)
}

/// Both comparisons, with `count` readings each.
fn compared(count: usize, reader: impl Fn(State, [&mut Lent; 2], u32) -> Part) -> [Comparison; 2] {
    let mut from_empty = Comparison::from_empty(SEED);
    from_empty.run(lists_from_empty(SEED), count, ladder, &reader);
    let mut from_elsewhere = Comparison::from_elsewhere(SEED);
    from_elsewhere.run(lists_from_elsewhere(SEED), count, ladder, &reader);
    [from_empty, from_elsewhere]
}

fn right(held: State, tables: [&mut Lent; 2], which: u32) -> Part {
    reader::reader(None, held, tables, which)
}

/// A kind of readings, the answers that are right for many of them, and those that are for none. 6
/// is right only for kinds that states without forward branch have too.
const MET: [(&str, &[u32], &[u32]); 27] = [
    ("tables as left", &[0, 3, 6, 7], &[]),
    ("right rungs", &[0, 6], &[3, 7]),
    ("values shorter by one", &[3, 6], &[0, 7]),
    ("derivatives shorter by one", &[3, 6], &[0, 7]),
    ("no values", &[3, 6], &[0, 7]),
    ("no derivatives", &[3, 6], &[0, 7]),
    ("no slots", &[3, 6], &[0, 7]),
    ("any lengths", &[0, 3, 6, 7], &[]),
    ("a bit of a value", &[0, 7], &[3, 6]),
    ("a bit of a derivative", &[0, 7], &[3, 6]),
    ("a bit of value 0", &[7], &[3, 6]),
    ("a bit of value 2", &[0, 7], &[3, 6]),
    ("a bit of value n", &[0, 7], &[3, 6]),
    ("a bit of derivative 0", &[0, 7], &[3, 6]),
    ("a bit of derivative 2", &[0, 7], &[3, 6]),
    ("a bit of derivative n - 1", &[0, 7], &[3, 6]),
    ("another NaN", &[0], &[3, 6, 7]),
    ("all NaNs others", &[0], &[3, 6, 7]),
    ("a zero of the other sign", &[7], &[0, 3, 6]),
    ("two slots exchanged", &[0, 7], &[3, 6]),
    ("slots past the rungs", &[0], &[3, 6, 7]),
    ("the state's values and reserved", &[0], &[3, 6, 7]),
    ("a value, carried on", &[7], &[3, 6]),
    ("value 0, carried on", &[7], &[3, 6]),
    ("value 1, carried on", &[7], &[3, 6]),
    ("values 0 and 1, carried on", &[7], &[3, 6]),
    ("value n, carried on", &[7], &[3, 6]),
];

#[test]
fn every_kind_meets_its_answers_often() {
    let changes = OF_LENGTHS.len() + OF_RUNGS.len();
    assert_eq!(MET.len(), 2 + changes);
    for comparison in compared(4 * LEAST, right) {
        assert_eq!(comparison.line.differences, 0);
        for ((name, counts), (kind, often, never)) in comparison.met.iter().zip(MET) {
            assert_eq!(*name, kind);
            let many = |number: &u32| {
                let place = [0, 3, 6, 7].iter().position(|other| other == number);
                counts[place.expect("it is an answer")]
            };
            let is_met = often.iter().all(|number| many(number) > 40);
            let is_left_out = never.iter().all(|number| many(number) == 0);
            assert!(is_met && is_left_out, "{name} {counts:?}");
        }
    }
}

#[test]
fn every_answer_is_met_often() {
    for comparison in compared(LEAST, right) {
        for (name, many) in comparison.answers() {
            assert!(many > LEAST / 20, "{name} {many}");
        }
    }
}

#[test]
fn what_is_never_met_counts_as_a_difference() {
    let differences = |count| {
        let mut comparisons = compared(count, right);
        comparisons.each_mut().map(|comparison| {
            comparison.count_what_was_not_met();
            comparison.line.differences
        })
    };
    assert_eq!(differences(LEAST), [0, 0]);
    // four answers and all kinds
    assert_eq!(differences(0), [31, 31]);
    assert!(differences(10).iter().all(|many| (1..31).contains(many)));
}

#[test]
fn the_seed_fixes_the_readings_and_the_count_is_kept() {
    let shown = |seed| {
        let shown = std::cell::RefCell::new(vec![]);
        let mut comparison = Comparison::from_elsewhere(seed);
        let lists = lists_from_elsewhere(seed);
        comparison.run(lists, 777, ladder, |held, tables, which| {
            let slots = tables.each_ref().map(|table| table.slots.clone());
            let bits = slots.map(|slots| slots.into_iter().map(f64::to_bits).collect::<Vec<_>>());
            shown.borrow_mut().push((held.show(), bits, which));
            right(held, tables, which)
        });
        assert_eq!(comparison.line.inputs, 777);
        shown.into_inner()
    };
    let first = shown(1);
    assert!(first == shown(1) && first != shown(2));
    for count in [0, 1, 26, 28, 1000] {
        for comparison in compared(count, right) {
            assert_eq!(comparison.line.inputs, count);
        }
    }
}

#[test]
fn a_reading_is_shown_with_its_state() {
    let (mut reading, _) = reading(state(1, 0, 3, 1.0, 0.0), 2);
    reading.tables[1].length = 0;
    reading.tables[1].is_null = true;
    let shown = reading.show();
    let expected = "which 2, lengths 4 and 0 (null pointer), held: function 1, below zero 0, n 3, ";
    assert!(shown.starts_with(expected), "{shown}");
}

/// How many readings differ with a wrong reader.
fn many(fault: Fault) -> usize {
    let comparisons = compared(LEAST, |held, tables, which| {
        reader::reader(Some(fault), held, tables, which)
    });
    comparisons.iter().map(|one| one.line.differences).sum()
}
