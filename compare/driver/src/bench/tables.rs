//! The times of the table calls on every branch.

use super::report::{Report, SIDES, Times};
use super::timing::times;
use crate::tables::{Call, Kind, call, needed};

/// A branch: function, direction, name, and an order and an argument at which it answers.
type Row = (Kind, &'static str, &'static str, f64, f64);

#[rustfmt::skip]
const ROWS: [Row; 23] = [
    (Kind::D, FORWARD, "v >= 0, f = 0", 100.0, 2.0),
    (Kind::D, FORWARD, "v >= 0, small x", 100.3, 2.0),
    (Kind::D, FORWARD, "v >= 0, large x", 100.3, 7.0),
    (Kind::D, FORWARD, "v >= 0, large x", 100.3, -7.0),
    (Kind::D, FORWARD, "v < 0, small x <= 0", -50.5, -1.0),
    (Kind::D, FORWARD, "v < 0, large x <= 0", -50.5, -7.0),
    (Kind::D, DOWNWARD, "v < 0, 0 < x <= 2", -50.5, 1.0),
    (Kind::D, SCALED, "v < 0, small x > 2", -100.3, 3.0),
    (Kind::D, SCALED, "v < 0, large x > 2", -100.3, 7.0),
    (Kind::V, FORWARD, "v < 0, f = 0, n = 1", -1e-20, 1.0),
    (Kind::V, FORWARD, "v < 0, f = 0, small x", -50.0, 3.0),
    (Kind::V, FORWARD, "v < 0, f = 0, large x", -50.0, 9.0),
    (Kind::V, FORWARD, "v < 0, small x", -50.3, 3.0),
    (Kind::V, FORWARD, "v < 0, large x", -50.3, 9.0),
    (Kind::V, FORWARD, "v < 0, large x", -50.3, -9.0),
    (Kind::V, FORWARD, "v >= 0, small x < 0, u > x*x/2", 50.3, -5.0),
    (Kind::V, FORWARD, "v >= 0, large x < 0, u > x*x/2", 50.3, -9.0),
    (Kind::V, FORWARD, "v >= 0, x < -10", 50.3, -12.0),
    (Kind::V, DOWNWARD, "v >= 0, 0 <= x <= 7.5", 50.3, 5.0),
    (Kind::V, DOWNWARD, "v >= 0, x < 0, u <= x*x/2", 20.3, -7.0),
    (Kind::V, DOWNWARD, "v >= 0, x > 7.5, u <= x*x/2", 20.3, 9.0),
    (Kind::V, SCALED, "v >= 0, x > 7.5, u > x*x/2", 50.3, 9.0),
    (Kind::V, SCALED, "v >= 0, x > 10", 50.3, 20.0),
];

const FORWARD: &str = "forward";
const DOWNWARD: &str = "downward";
const SCALED: &str = "scaled";

pub fn run(report: &mut Report) {
    report.table("Table calls, by branch", "branch, with (v, x)", SIDES);
    for (kind, direction, branch, v, x) in ROWS {
        let name = format!("{kind:?} {direction}: {branch} ({v:?}, {x:?})");
        report.row(&name, table_times(kind, v, x));
    }
}

/// The sides fill the same table, which is there before the time is taken.
pub fn table_times(kind: Kind, v: f64, x: f64) -> Times {
    let mut table = vec![0.0; needed(v)];
    times(&[(v, x)], Call::SIDES.map(Some), |side, (v, x)| {
        side(call(kind), v, x, &mut table)
    })
}

#[cfg(test)]
mod tests {
    use std::collections::HashSet;

    use super::{FORWARD, ROWS, Row};
    use crate::bench::ladder::{state, tables};
    use crate::ladder::{Point, ask};
    use crate::tables::{Kind, branches, call, needed};

    #[test]
    fn the_rows_are_on_their_branches_and_all_branches_are_there() {
        for kind in Kind::BOTH {
            let of_kind = |row: &&Row| row.0 == kind;
            let rows = ROWS.iter().filter(of_kind);
            let mut missing: HashSet<_> = branches::all(kind).into_iter().collect();
            for &(_, _, branch, v, x) in rows {
                let found = branches::with_refusals(kind, v, x, needed(v));
                assert_eq!(found, branch, "{kind:?} {v} {x}");
                missing.remove(branch);
            }
            assert_eq!(missing.len(), branches::REFUSALS.len(), "{missing:?}");
        }
    }

    #[test]
    fn the_answers_are_finite_and_not_zero() {
        for (kind, _, _, v, x) in ROWS {
            let answer = call(kind).expected(v, x, needed(v)).answer;
            let is_ordinary = |number: f64| number.is_finite() && number != 0.0;
            let is_tiny_order = v.abs() < 1.0;
            let both = is_ordinary(answer.value) && is_ordinary(answer.derivative);
            assert!(both || is_tiny_order, "{kind:?} {v} {x} {answer:?}");
        }
    }

    #[test]
    fn the_forward_branches_are_climbed_and_no_others() {
        for (kind, direction, _, v, x) in ROWS {
            // A ladder climbs from n = 2 on.
            let v = if v.abs() < 1.0 { -1.0 } else { v };
            let held = state(&Point { kind, v, x });
            let next = Point {
                kind,
                v: v + 1.0_f64.copysign(v),
                x,
            };
            let reply = ask(held, &next, tables(&next).each_mut());
            assert_eq!(reply.written == 1, direction == FORWARD, "{kind:?} {v} {x}");
        }
    }
}
