//! The times of refused requests. Of the Rust in scope only `alloc_buf` refuses, with number 2.

use super::ladder::tables;
use super::report::{Report, SIDES, Times};
use super::tested::filled;
use super::timing::{Time, times};
use crate::expansion::{D_EXPANSION, MACLAURIN};
use crate::ladder::tested::read;
use crate::ladder::{Point, State, ask};
use crate::tables::{Call, Kind, Lent, MARGIN, call, needed};

/// Requests that are refused: the number, order and argument. That with number 3 has a table too
/// short by a slot.
const ROWS: [(u32, f64, f64); 3] = [(1, 100.25, f64::NAN), (2, 1000.0, 2.0), (3, 100.25, 2.0)];

/// Readings of a ladder at order 100.25 that are refused: the number, whether the branch is
/// forward, and whether the value table is too short by a slot. Its last derivative is wrong.
const OF_READINGS: [(u32, bool, bool); 3] = [(6, false, false), (3, true, true), (7, true, false)];

const OF_EXPANSION: [(u32, [f64; 2]); 3] = [
    (1, [f64::NAN, 3.0]),
    (4, [-19.5, 3.0]),
    (5, [-25.0, f64::INFINITY]),
];

const OF_MACLAURIN: [(u32, [f64; 5]); 2] = [
    (1, [-20.5, 0.1, 1.0, 0.5, f64::NAN]),
    (5, [-20.5, 0.1, 1.0, 0.5, f64::INFINITY]),
];

pub fn run(report: &mut Report) {
    report.table("Refusals", "request, refusal", SIDES);
    for kind in Kind::BOTH {
        for (refusal, v, x) in ROWS {
            let name = format!("{}, {refusal}", call(kind).name);
            let [_, stand_ins, platform] = allocations(refusal, v);
            report.row(&name, [Some(table_time(kind, v, x)), stand_ins, platform]);
        }
    }
    for kind in Kind::BOTH {
        for (refusal, v, x) in ROWS {
            let time = ladder_time(Point { kind, v, x });
            report.row(&format!("ladder {kind:?}, {refusal}"), alone(time));
        }
    }
    for (refusal, is_forward, is_short) in OF_READINGS {
        let time = reading_time(is_forward, is_short);
        report.row(&format!("tested_column, {refusal}"), alone(time));
    }
    for (refusal, input) in OF_EXPANSION {
        let time = time(input, D_EXPANSION.sides.library);
        report.row(&format!("{}, {refusal}", D_EXPANSION.name), alone(time));
    }
    for (refusal, input) in OF_MACLAURIN {
        let time = time(input, MACLAURIN.sides.library);
        report.row(&format!("{}, {refusal}", MACLAURIN.name), alone(time));
    }
}

fn alone(library: Time) -> Times {
    [Some(library), None, None]
}

fn time<I: Copy, A>(input: I, mut call: impl FnMut(I) -> A) -> Time {
    let [time] = times(&[input], [Some(())], |(), input| call(input));
    time.expect("it was timed")
}

fn table_time(kind: Kind, v: f64, x: f64) -> Time {
    let mut table = vec![0.0; needed(v) - 1];
    let [library, ..] = Call::SIDES;
    time((v, x), |(v, x)| library(call(kind), v, x, &mut table))
}

/// Of the Rust's `alloc_buf` where it refuses.
fn allocations(refusal: u32, v: f64) -> Times {
    type Allocate = fn(f64) -> Option<(Vec<f64>, usize)>;
    let sides: [Allocate; 2] = [source::entry::alloc_buf, platform::entry::alloc_buf];
    let [stand_ins, platform] = sides.map(|side| (refusal == 2).then_some(side));
    times(&[v], [None, stand_ins, platform], |side, v| side(v))
}

/// On tables too short by a slot of the value table.
fn ladder_time(point: Point) -> Time {
    let mut lent = tables(&point);
    lent[0].length -= 1;
    time(point, |point| ask(State::EMPTY, &point, lent.each_mut()))
}

/// Of the value column.
fn reading_time(is_forward: bool, is_short: bool) -> Time {
    let (state, mut lent) = reading(is_forward, is_short);
    time(state, |state| read(state, lent.each_mut(), 1))
}

/// A state of D, forward or not, with its tables.
fn reading(is_forward: bool, is_short: bool) -> (State, [Lent; 2]) {
    let v = if is_forward { 100.25 } else { -100.25 };
    let kind = Kind::D;
    let (state, mut lent) = filled(&Point { kind, v, x: 2.0 });
    let last = MARGIN + lent[1].length - 1;
    lent[1].slots[last] = 0.0;
    lent[0].length -= usize::from(is_short);
    (state, lent)
}

#[cfg(test)]
mod tests {
    use super::{OF_EXPANSION, OF_MACLAURIN, OF_READINGS, ROWS, reading};
    use crate::expansion::{D_EXPANSION, MACLAURIN};
    use crate::ladder::tested::read;
    use crate::tables::{Kind, call, needed};

    #[test]
    fn the_readings_are_refused_with_their_numbers() {
        for (refusal, is_forward, is_short) in OF_READINGS {
            let (state, mut lent) = reading(is_forward, is_short);
            assert_eq!(read(state, lent.each_mut(), 1).refusal, refusal);
        }
    }

    #[test]
    fn the_requests_are_refused_with_their_numbers() {
        for (refusal, v, x) in ROWS {
            for kind in Kind::BOTH {
                let answer = call(kind).expected(v, x, needed(v) - 1).answer;
                assert_eq!(answer.refusal, refusal, "{v} {x}");
            }
        }
        for (refusal, input) in OF_EXPANSION {
            let answer = (D_EXPANSION.sides.reference)(input);
            assert_eq!(answer.refusal, refusal, "{input:?}");
        }
        for (refusal, input) in OF_MACLAURIN {
            let answer = (MACLAURIN.sides.reference)(input);
            assert_eq!(answer.refusal, refusal, "{input:?}");
        }
    }
}
