//! The number and the length by 02, #102, at states and tables written out, and by both ways of
//! working them out.

use super::{LEAST, compared, reading, state};
use crate::comparing::Comparable;
use crate::ladder::State;
use crate::ladder::lists::from_empty;
use crate::ladder::machine::Machine;
use crate::ladder::rungs::Branch;
use crate::ladder::tested::Part;
use crate::ladder::tested::steps::Steps;
use crate::ladder::tested::wanted::{Wanted, of_the_table};
use crate::tables::{MARGIN, Split};

const INF: f64 = f64::INFINITY;
const NAN: f64 = f64::NAN;

/// The number for tables of 1001 and 1000 zeros, and for the rungs of the state, or of one like it.
const NUMBERS: [(State, [u32; 2]); 45] = [
    (State::EMPTY, [6, 6]),
    (state(0, 0, 3, 1.0, 0.5), [6, 6]),
    (state(3, 0, 3, 1.0, 0.5), [6, 6]),
    (state(3, 1, 3, 1.0, 0.5), [6, 6]),
    (state(1 << 31, 1, 3, 1.0, 0.5), [6, 6]),
    (state(u32::MAX, 1, 3, 1.0, 0.5), [6, 6]),
    (state(1, 0, 0, 1.0, 0.5), [6, 6]),
    (state(1, 0, 1, 1.0, 0.5), [7, 0]),
    (state(1, 0, 1000, 1.0, 0.5), [7, 0]),
    (state(1, 0, 1001, 1.0, 0.5), [6, 6]),
    (state(1, 0, 3 + (1 << 16), 1.0, 0.5), [6, 6]),
    (state(1, 0, u32::MAX, 1.0, 0.5), [6, 6]),
    (state(1, 0, 3, NAN, 0.5), [6, 6]),
    (state(1, 0, 3, 1.0, NAN), [6, 6]),
    (state(1, 0, 3, 1.0, 1.0), [6, 6]),
    (state(1, 0, 3, 1.0, -1.0), [6, 6]),
    (state(1, 0, 3, 1.0, INF), [6, 6]),
    (state(1, 0, 3, 1.0, -INF), [6, 6]),
    // D from 0 on
    (state(1, 0, 3, 1.0, -0.5), [7, 0]),
    (state(1, 0, 3, 1.0, -0.0), [7, 0]),
    (state(1, 0, 3, INF, 0.0), [7, 0]),
    (state(1, 0, 3, -INF, 0.5), [7, 0]),
    // D below 0
    (state(1, 1, 3, 0.0, -0.5), [7, 0]),
    (state(1, 1, 3, -0.0, -0.5), [7, 0]),
    (state(1, 1, 3, 5e-324, -0.5), [6, 6]),
    (state(1, 1, 3, INF, -0.5), [6, 6]),
    (state(1, 1, 3, -INF, -0.5), [7, 0]),
    (state(1, 2, 3, -7.0, -0.5), [7, 0]),
    (state(1, u32::MAX, 3, 7.0, -0.5), [6, 6]),
    // V below 0
    (state(2, 1, 3, 7.0, -0.5), [7, 0]),
    (state(2, 1, 3, INF, 0.0), [7, 0]),
    (state(2, 2, 1, -12.0, -0.0), [7, 0]),
    // V from 0 on: half of 3 * 3 is 4.5, half of 4 * 4 is 8, half of 10 * 10 is 50
    (state(2, 0, 3, 0.0, 0.5), [6, 6]),
    (state(2, 0, 3, -0.0, 0.5), [6, 6]),
    (state(2, 0, 900, 7.5, 0.5), [6, 6]),
    (state(2, 0, 900, 12.0, 0.5), [6, 6]),
    (state(2, 0, 4, -3.0, 0.25), [6, 6]),
    (state(2, 0, 4, -3.0, 0.5), [6, 6]),
    (state(2, 0, 4, -3.0, 0.75), [7, 0]),
    (state(2, 0, 5, -3.0, -0.5), [6, 6]),
    (state(2, 0, 8, -4.0, 0.0), [6, 6]),
    (state(2, 0, 50, -10.0, 0.0), [6, 6]),
    (state(2, 0, 50, -10.0, 1e-14), [7, 0]),
    (state(2, 0, 2, -10.000000000000002, 0.5), [7, 0]),
    (state(2, 0, 2, -INF, 0.5), [7, 0]),
];

#[test]
fn numbers_of_states() {
    let zeros = vec![0.0; 1001];
    for (state, numbers) in NUMBERS {
        let (reading, wanted) = reading(state, 1);
        let rungs = reading.rungs();
        for (tables, number) in [[&zeros[..], &zeros[1..]], rungs].into_iter().zip(numbers) {
            for which in [1, 2, 0, 3, u32::MAX] {
                let part = wanted.part(tables, which);
                assert_eq!(part.refusal, number, "{state:?}");
                assert!(number == 0 || part.length == 0, "{state:?} {part:?}");
            }
            // No length goes before 6.
            let part = wanted.part([&tables[0][..0], &tables[1][..0]], 1);
            let number = if number == 6 { 6 } else { 3 };
            assert_eq!(part, Part::refused(number), "{state:?}");
        }
    }
}

/// What the reading of a state must be answered on these tables.
fn part(state: State, tables: [&[f64]; 2], which: u32) -> Part {
    Wanted::of_fields(&state).part(tables, which)
}

#[test]
fn the_column_named_is_lent() {
    // D at x = 0: 1, 0, −1, −0
    let (d, rungs) = (
        state(1, 0, 3, 0.0, 0.0),
        [&[1.0, 0.0, -1.0, -0.0, 9.5][..], &[0.0, 1.0, 0.0, 9.5]],
    );
    for (which, length) in [(1, 4), (2, 3), (0, 0), (3, 0), (257, 0), (u32::MAX, 0)] {
        let lent = Part { refusal: 0, length };
        assert_eq!(part(d, rungs, which), lent);
        let exact = [&rungs[0][..4], &rungs[1][..3]];
        assert_eq!(part(d, exact, which), lent);
        for short in [
            [&rungs[0][..3], rungs[1]],
            [rungs[0], &rungs[1][..2]],
            [rungs[0], &[]],
        ] {
            assert_eq!(part(d, short, which), Part::refused(3));
        }
        for (table, k) in [(0, 0), (0, 1), (0, 2), (0, 3), (1, 0), (1, 1), (1, 2)] {
            let mut damaged = rungs.map(<[f64]>::to_vec);
            damaged[table][k] = -damaged[table][k];
            let damaged = damaged.each_ref().map(|slots| &slots[..]);
            assert_eq!(part(d, damaged, which), Part::refused(7), "{table} {k}");
        }
    }
}

#[test]
fn rung_2_of_v_is_x_times_rung_1_where_f_is_0() {
    let root = 0.7978845608028654;
    let at_zero = |x: f64, f, rung_2| {
        let values = [0.0, root, rung_2];
        part(state(2, 1, 2, x, f), [&values, &[root, x + 0.0]], 1).refusal
    };
    for f in [0.0, -0.0] {
        assert_eq!(at_zero(0.0, f, 0.0), 0);
        assert_eq!(at_zero(-0.0, f, -0.0), 0);
        assert_eq!(at_zero(0.0, f, -0.0), 7);
        assert_eq!(at_zero(-0.0, f, 0.0), 7);
    }
    // At n = 1 there is no rung 2.
    for slot_2 in [9.5, NAN] {
        let tables = [&[0.0, root, slot_2][..], &[root]];
        assert_eq!(part(state(2, 1, 1, 0.0, 0.0), tables, 1).length, 2);
    }
}

#[test]
fn nan_is_alike_with_nan_only() {
    let (mut reading, wanted) = reading(state(1, 0, 3, INF, 0.0), 1);
    let number = |reading: &super::Reading| wanted.part(reading.rungs(), 1).refusal;
    // exp(−∞) is 0, and ∞ times it NaN.
    assert_eq!(reading.rungs()[0][0], 0.0);
    assert!(reading.rungs()[0][1..].iter().all(|rung| rung.is_nan()));
    for bits in [0x7ff8_0000_0000_0000, 0xfff0_0000_0000_0001, u64::MAX] {
        *reading.slot(0, 2) = f64::from_bits(bits);
        assert_eq!(number(&reading), 0);
    }
    for other in [0.0, INF] {
        *reading.slot(0, 2) = other;
        assert_eq!(number(&reading), 7);
    }
}

#[test]
fn the_state_s_values_and_reserved_play_no_part() {
    let (reading, _) = reading(state(2, 1, 5, 3.0, -0.25), 2);
    for (value_below, value_top) in [(0.0, 0.0), (NAN, -INF), (1.5, 2.5)] {
        let state = State {
            value_below,
            value_top,
            reserved: [1, u32::MAX, 7],
            ..reading.state
        };
        let lent = Part {
            refusal: 0,
            length: 5,
        };
        assert_eq!(part(state, reading.rungs(), 2), lent);
    }
}

#[test]
fn steps_give_the_source_s_rungs() {
    let mut counts = [0; 4];
    let lists = from_empty(150_000, 1).step_by(7);
    for request in lists.flat_map(|list| list.requests) {
        let mut machine = Machine::default();
        machine.feed(&request.point, request.lengths);
        let Some(record) = machine.held.filter(|record| record.is_forward()) else {
            continue;
        };
        let steps = Steps::of(Branch::of(&request.point));
        let rungs = of_the_table(&request.point, record.n);
        let worked_out = steps.rungs(record.n);
        for (rung, other) in rungs.iter().flatten().zip(worked_out.iter().flatten()) {
            assert!(rung.alike(other), "{request:?}");
        }
        assert!(steps.hold([&rungs[0], &rungs[1]]));
        assert_eq!(Split::of(request.point.v).n, record.n);
        counts[2 * (record.kind as usize - 1) + usize::from(record.below_zero)] += 1;
    }
    assert!(counts.iter().all(|&count| count > 300), "{counts:?}");
}

/// The reader that works by the state's fields and steps answers for every state that ladder calls
/// handed out what the machine and the table call ask for.
#[test]
fn both_references_agree() {
    let comparisons = compared(2 * LEAST, |held, tables, which| {
        let lent = tables.each_ref();
        part(held, lent.map(|t| &t.slots[MARGIN..][..t.length]), which)
    });
    for comparison in comparisons {
        assert_eq!(comparison.line.differences, 0);
    }
}
