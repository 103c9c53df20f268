//! The times of the ladder: single requests beside the Rust's table call, and a rising sweep beside
//! table calls.

use super::report::{Report, SIDES, Times};
use super::timing::{Time, times};
use crate::ladder::{Point, State, ask};
use crate::tables::{Call, Junk, Kind, Lent, call, needed};

/// A ladder, or table calls of one of the sides.
#[derive(Clone, Copy)]
enum Way {
    Ladder,
    Table(usize),
}

/// A request by name, with the size of the order held before it and of its own.
type Row = (&'static str, Option<f64>, f64);

const ROWS: [Row; 5] = [
    ("repeat", Some(100.25), 100.25),
    ("climb by 1", Some(100.25), 101.25),
    ("climb by 10", Some(100.25), 110.25),
    ("climb by 100", Some(100.25), 200.25),
    ("start-over", None, 100.25),
];

/// A forward branch by its function, the sign of its orders and the argument.
type Branch = (Kind, f64, f64);

/// One of each sequence that climbs.
const BRANCHES: [Branch; 4] = [
    SWEPT_BRANCH,
    (Kind::D, -1.0, -2.0),
    (Kind::V, -1.0, 3.0),
    (Kind::V, 1.0, -12.0),
];
const SWEPT_BRANCH: Branch = (Kind::D, 1.0, 2.0);

/// The first order and the argument of the sweep of D.
const SWEEP: (f64, f64) = (2.25, 2.0);
const SWEPT: usize = 997;

pub fn run(report: &mut Report) {
    let title = "Ladder requests, beside the Rust's table call for the same order";
    report.table(title, "request, with (v, x)", SIDES);
    for branch in BRANCHES {
        for (name, held, size) in ROWS {
            let point = point(branch, size);
            let kind = point.kind;
            let held = held.map_or(State::EMPTY, |size| state(&self::point(branch, size)));
            let name = format!("{kind:?} {name} ({:?}, {:?})", point.v, point.x);
            report.row(&name, request_times(held, point));
        }
    }
    let title = "A rising sweep on one ladder, beside table calls; time for each order";
    let ways = [
        "ladder",
        "library's tables",
        "stand-ins' tables",
        "platform's tables",
    ];
    report.table(title, "orders of D", ways);
    let ((first, x), last) = (SWEEP, last_swept());
    let name = format!("{first}, {}, … to {last} at x = {x:?}", first + 1.0);
    report.row(&name, sweep_times());
}

/// Of this size of the order.
fn point((kind, sign, x): Branch, size: f64) -> Point {
    let v = sign * size;
    Point { kind, v, x }
}

/// The state after a start-over.
pub fn state(point: &Point) -> State {
    ask(State::EMPTY, point, tables(point).each_mut()).state
}

/// Tables just long enough.
pub fn tables(point: &Point) -> [Lent; 2] {
    point.needed().map(|needed| {
        let mut table = Lent::default();
        table.lend(needed, needed, Junk(0));
        table
    })
}

/// Of the request, and of the Rust's table calls for the same order.
fn request_times(held: State, point: Point) -> Times {
    let kind = point.kind;
    let (mut lent, mut table) = (tables(&point), vec![0.0; needed(point.v)]);
    let ways = [Way::Ladder, Way::Table(1), Way::Table(2)].map(Some);
    times(&[(point.v, point.x)], ways, |way, (v, x)| match way {
        Way::Ladder => ask(held, &Point { kind, v, x }, lent.each_mut()).value,
        Way::Table(side) => Call::SIDES[side](call(kind), v, x, &mut table).value,
    })
}

/// Of each order in the sweep, and in table calls of the same orders.
fn sweep_times() -> [Option<Time>; 4] {
    let mut lent = tables(&point(SWEPT_BRANCH, last_swept()));
    let mut table = vec![0.0; needed(last_swept())];
    let ways = [Way::Ladder, Way::Table(0), Way::Table(1), Way::Table(2)].map(Some);
    let times = times(&[SWEEP], ways, |way, (v, x)| match way {
        Way::Ladder => sweep(v, x, &mut lent).value_below,
        Way::Table(side) => orders(v).fold(0.0, |_, v| {
            let table = &mut table[..needed(v)];
            Call::SIDES[side](call(Kind::D), v, x, table).value
        }),
    });
    times.map(|time| time.map(|time| time.of_each(SWEPT)))
}

fn orders(first: f64) -> impl Iterator<Item = f64> {
    (0..SWEPT).map(move |k| first + k as f64)
}

fn last_swept() -> f64 {
    SWEEP.0 + SWEPT as f64 - 1.0
}

/// The state after the orders one after another.
fn sweep(first: f64, x: f64, lent: &mut [Lent; 2]) -> State {
    orders(first).fold(State::EMPTY, |held, v| {
        let kind = Kind::D;
        ask(held, &Point { kind, v, x }, lent.each_mut()).state
    })
}

#[cfg(test)]
mod tests {
    use super::{BRANCHES, ROWS, SWEEP, SWEPT_BRANCH, last_swept, point, state, sweep, tables};
    use crate::ladder::{State, ask};

    #[test]
    fn the_rows_are_what_they_are_called() {
        for branch in BRANCHES {
            let written = ROWS.map(|(_, held, size)| {
                let held = held.map_or(State::EMPTY, |size| state(&point(branch, size)));
                let point = point(branch, size);
                let reply = ask(held, &point, tables(&point).each_mut());
                let is_ordinary = reply.value.is_finite() && reply.value != 0.0;
                assert!(is_ordinary, "{:?} {:?}", point.kind, point.v);
                reply.written
            });
            assert_eq!(written, [0, 1, 10, 100, 102], "{branch:?}");
        }
    }

    #[test]
    fn the_sweep_ends_at_the_last_order() {
        let last = point(SWEPT_BRANCH, 998.25);
        assert_eq!(last.v, last_swept());
        let mut lent = tables(&last);
        let held = sweep(SWEEP.0, SWEEP.1, &mut lent);
        let reply = ask(held, &last, lent.each_mut());
        assert_eq!((reply.refusal, reply.written), (0, 0));
    }
}
