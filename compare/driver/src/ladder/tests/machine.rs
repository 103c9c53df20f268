//! The machine by each of its rules.

use super::{judged, list, point};
use crate::ladder::State;
use crate::ladder::lists::List;
use crate::ladder::machine::Case::{self, Climb, Refused, Repeat, StartOver};
use crate::ladder::machine::Machine;
use crate::ladder::outcome::Held;
use crate::tables::Kind::{self, D, V};
use crate::tables::Split;

const INF: f64 = f64::INFINITY;

/// Of V, from the order −3.5 at x = 1.
const HELD: State = State {
    function: V as u32,
    below_zero: 1,
    n: 4,
    reserved: [7, u32::MAX, 1],
    x: 1.0,
    f: -0.5,
    value_below: f64::NAN,
    value_top: f64::NAN,
};

fn cases(list: &List) -> Vec<Case> {
    judged(list).into_iter().map(|(_, _, case)| case).collect()
}

#[test]
fn p11() {
    let points = [2.0, 4.0, 4.0, 2.0].map(|v| point(D, v, 0.0));
    let list = list(State::EMPTY, &points);
    assert_eq!(cases(&list), [StartOver, Climb(3), Repeat, StartOver]);
    let mut held = Held::of(&State::EMPTY);
    let replies = list
        .requests
        .iter()
        .map(|request| held.feed(request, State::EMPTY).reply);
    let replies: Vec<_> = replies.collect();
    assert_eq!(
        replies
            .iter()
            .map(|reply| reply.written)
            .collect::<Vec<_>>(),
        [4, 2, 0, 4]
    );
    for reply in &replies[1..3] {
        assert_eq!(
            (reply.refusal, reply.value, reply.derivative),
            (0, 3.0, 0.0)
        );
    }
}

/// What is asked first and what then, as function, order and argument, and the second's case.
type Row = ((Kind, f64, f64), (Kind, f64, f64), Case);

#[rustfmt::skip]
const ROWS: [Row; 42] = [
    // the same
    ((D, 2.0, 1.0), (D, 2.0, 1.0), Repeat),
    ((V, 2.0, 1.0), (V, 2.0, 1.0), Repeat),
    ((D, -2.5, 3.0), (D, -2.5, 3.0), Repeat),
    ((D, 0.0, 1.0), (D, -0.0, 1.0), Repeat),
    ((D, 1.0, 1.0), (D, 0.9999999999999999, 1.0), Repeat),
    // function, side, x or f is another
    ((D, 2.0, 1.0), (V, 2.0, 1.0), StartOver),
    ((V, -2.0, 1.0), (D, -2.0, 1.0), StartOver),
    ((D, 1.0, 1.0), (D, -1.0, 1.0), StartOver),
    ((V, -1.0, 1.0), (V, 2.0, 1.0), StartOver),
    ((D, 2.0, 0.0), (D, 2.0, -0.0), StartOver),
    ((D, 2.0, -0.0), (D, 3.0, 0.0), StartOver),
    ((D, 2.0, 1.0), (D, 2.5, 1.0), StartOver),
    ((D, 2.5, 1.0), (D, 4.0, 1.0), StartOver),
    // the same but a lower n
    ((D, 3.0, 1.0), (D, 2.0, 1.0), StartOver),
    ((V, -900.5, 1.0), (V, -0.5, 1.0), StartOver),
    // from n = 1
    ((D, 0.0, 1.0), (D, 1.0, 1.0), StartOver),
    ((D, 0.5, 1.0), (D, 900.5, 1.0), StartOver),
    ((V, -1e-20, 1.0), (V, -1.0, 1.0), StartOver),
    // D from 0, whatever the argument
    ((D, 1.0, 1.0), (D, 2.0, 1.0), Climb(2)),
    ((D, 2.5, -INF), (D, 998.5, -INF), Climb(3)),
    ((D, 2.5, 40.0), (D, 998.5, 40.0), Climb(3)),
    // D below 0
    ((D, -3.0, 0.0), (D, -4.0, 0.0), Climb(4)),
    ((D, -3.0, -0.0), (D, -4.0, -0.0), Climb(4)),
    ((D, -3.0, -INF), (D, -4.0, -INF), Climb(4)),
    ((D, -3.0, 5e-324), (D, -4.0, 5e-324), StartOver),
    ((D, -3.0, INF), (D, -4.0, INF), StartOver),
    // V below 0, whatever the argument
    ((V, -1.0, 1.0), (V, -2.0, 1.0), Climb(2)),
    ((V, -1.5, -1.0), (V, -999.5, -1.0), Climb(2)),
    ((V, -3.0, INF), (V, -4.0, INF), Climb(4)),
    // V from 0 at x >= 0
    ((V, 3.0, 0.0), (V, 4.0, 0.0), StartOver),
    ((V, 3.0, -0.0), (V, 4.0, -0.0), StartOver),
    ((V, 3.0, 12.0), (V, 4.0, 12.0), StartOver),
    // V from 0 at x < 0: half of 3 * 3 is 4.5, half of 4 * 4 is 8, half of 10 * 10 is 50
    ((V, 3.0, -3.0), (V, 4.0, -3.0), StartOver),
    ((V, 3.0, -3.0), (V, 900.0, -3.0), StartOver),
    ((V, 4.0, -3.0), (V, 5.0, -3.0), Climb(5)),
    ((V, 3.5, -3.0), (V, 4.5, -3.0), StartOver),
    ((V, 7.0, -4.0), (V, 8.0, -4.0), StartOver),
    ((V, 49.0, -10.0), (V, 50.0, -10.0), StartOver),
    ((V, 50.0, -10.0), (V, 51.0, -10.0), Climb(51)),
    ((V, 2.0, -10.000000000000002), (V, 3.0, -10.000000000000002), Climb(3)),
    ((V, 2.0, -INF), (V, 3.0, -INF), Climb(3)),
    ((V, 1.0, -5e-324), (V, 2.0, -5e-324), Climb(2)),
];

#[test]
fn rules() {
    for (first, second, case) in ROWS {
        let points = [first, second].map(|(kind, v, x)| point(kind, v, x));
        let found = cases(&list(State::EMPTY, &points));
        assert_eq!(found, [StartOver, case], "{first:?} {second:?}");
    }
}

#[test]
fn refusals_go_by_rising_number_and_change_nothing() {
    let nan = f64::NAN;
    let rows = [
        ((nan, 1.0), [0, 0], 1),
        ((1000.0, nan), [0, 0], 1),
        ((1000.0, 1.0), [0, 0], 2),
        ((-1000.0, 1.0), [2000, 2000], 2),
        ((-INF, 1.0), [2000, 2000], 2),
        ((2.0, 1.0), [3, 3], 3),
        ((2.0, 1.0), [4, 2], 3),
        ((1000.0_f64.next_down(), 1.0), [1000, 2000], 3),
        ((1000.0_f64.next_down(), 1.0), [2000, 999], 3),
    ];
    let mut machine = Machine { held: None };
    for before in [StartOver, Repeat] {
        for ((v, x), lengths, refusal) in rows {
            let found = machine;
            assert_eq!(
                machine.feed(&point(D, v, x), lengths),
                Refused(refusal),
                "{v} {x}"
            );
            assert_eq!(machine, found);
        }
        assert_eq!(machine.feed(&point(D, 2.0, 1.0), [4, 3]), before);
    }
}

#[test]
fn the_lengths_needed_are_enough() {
    for (v, lengths) in [(2.0, [4, 3]), (-1e-20, [2, 1]), (999.5, [1001, 1000])] {
        let point = point(V, v, 1.0);
        assert_eq!(point.needed(), lengths);
        assert_eq!(Machine { held: None }.feed(&point, lengths), StartOver);
    }
}

#[test]
fn states_that_count_as_empty() {
    let is_empty = |state: State| Machine::of(&state).held.is_none();
    for n in [1, 2, 1000] {
        assert!(!is_empty(State { n, ..HELD }));
    }
    for n in [0, 1001, 65540, u32::MAX] {
        assert!(is_empty(State { n, ..HELD }));
    }
    for f in [0.0, -0.0, 1.0_f64.next_down(), -(1.0_f64.next_down())] {
        assert!(!is_empty(State { f, ..HELD }));
    }
    for f in [1.0, -1.0, 2.5, INF, -INF, f64::NAN] {
        assert!(is_empty(State { f, ..HELD }));
    }
    assert!(is_empty(State {
        x: f64::NAN,
        ..HELD
    }));
    for function in [0, 3, 7, 1 << 31, u32::MAX] {
        assert!(is_empty(State { function, ..HELD }));
    }
    for below_zero in [0, 2, u32::MAX] {
        assert!(!is_empty(State { below_zero, ..HELD }));
    }
    assert!(is_empty(State::EMPTY));
}

#[test]
fn a_handed_in_state_begins_the_machine() {
    let case = |state: State, v| Machine::of(&state).feed(&point(V, v, 1.0), [10, 10]);
    assert_eq!(
        [-3.5, -5.5, -2.5].map(|v| case(HELD, v)),
        [Repeat, Climb(4), StartOver]
    );
    let others = [
        State {
            function: D as u32,
            ..HELD
        },
        State {
            function: 7,
            ..HELD
        },
        State {
            below_zero: 0,
            ..HELD
        },
        State {
            x: 1.0_f64.next_up(),
            ..HELD
        },
        State { f: 0.5, ..HELD },
        State { n: 0, ..HELD },
        State {
            n: 4 + (1 << 16),
            ..HELD
        },
    ];
    for state in others {
        assert_eq!(
            [-3.5, -5.5].map(|v| case(state, v)),
            [StartOver; 2],
            "{state:?}"
        );
    }
    for below_zero in [2, u32::MAX] {
        let state = State { below_zero, ..HELD };
        assert_eq!([-3.5, -5.5].map(|v| case(state, v)), [Repeat, Climb(4)]);
    }
    let whole = State { f: -0.0, ..HELD };
    assert_eq!(case(whole, -3.0), StartOver);
}

#[test]
fn what_each_case_writes() {
    let n = Split::of(6.0).n;
    let rows = [
        (StartOver, 8, (0..8, 0..7)),
        (Climb(3), 4, (4..8, 3..7)),
        (Climb(6), 1, (7..8, 6..7)),
        (Repeat, 0, (0..0, 0..0)),
        (Refused(3), 0, (0..0, 0..0)),
    ];
    for (case, written, slots) in rows {
        assert_eq!(case.written(n), written);
        assert_eq!((case.values(n), case.derivatives(n)), slots);
    }
}
