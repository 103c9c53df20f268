//! The times of the tested reader, each beside the start-over that filled its tables.

use super::ladder::tables;
use super::report::Report;
use super::timing::{Time, times};
use crate::ladder::tested::read;
use crate::ladder::{Point, State, ask};
use crate::tables::{Kind, Lent};

/// A forward branch: function, name, whether its orders are below 0, fraction and argument.
type Row = (Kind, &'static str, bool, f64, f64);

const ROWS: [Row; 11] = [
    (Kind::D, "v >= 0, f = 0", false, 0.0, 2.0),
    (Kind::D, "v >= 0, small x", false, 0.25, 2.0),
    (Kind::D, "v >= 0, large x", false, 0.25, 7.0),
    (Kind::D, "v < 0, small x <= 0", true, -0.25, -1.0),
    (Kind::D, "v < 0, large x <= 0", true, -0.25, -7.0),
    (Kind::V, "v < 0, f = 0, small x", true, 0.0, 3.0),
    (Kind::V, "v < 0, f = 0, large x", true, 0.0, 9.0),
    (Kind::V, "v < 0, small x", true, -0.25, 3.0),
    (Kind::V, "v < 0, large x", true, -0.25, 9.0),
    (Kind::V, "v >= 0, small x < 0, u > x*x/2", false, 0.25, -3.0),
    (Kind::V, "v >= 0, x < -10", false, 0.25, -12.0),
];
const RUNGS: [u32; 4] = [10, 100, 300, 999];

/// The number of the value column.
const VALUES: u32 = 1;

/// What is timed.
#[derive(Clone, Copy)]
enum Way {
    Read,
    StartOver,
}

pub fn run(report: &mut Report) {
    let title = "Tested reader, beside the start-over that filled the tables";
    report.table(
        title,
        "branch, n, with (v, x)",
        ["tested reader", "start-over"],
    );
    for row in ROWS {
        for n in RUNGS {
            let point = point(&row, n);
            let (kind, branch, ..) = row;
            let name = format!("{kind:?} {branch}, n = {n} ({:?}, {:?})", point.v, point.x);
            report.row(&name, reading_times(&point));
        }
    }
}

/// With this n.
fn point(&(kind, _, below_zero, f, x): &Row, n: u32) -> Point {
    let steps = f64::from(n) - 1.0;
    let v = if below_zero { f - steps } else { f + steps };
    Point { kind, v, x }
}

/// The state and the tables after a start-over.
pub fn filled(point: &Point) -> (State, [Lent; 2]) {
    let mut lent = tables(point);
    let state = ask(State::EMPTY, point, lent.each_mut()).state;
    (state, lent)
}

/// Both go over the same tables, which the start-over fills as they were.
fn reading_times(point: &Point) -> [Option<Time>; 2] {
    let (state, mut lent) = filled(point);
    let ways = [Way::Read, Way::StartOver].map(Some);
    times(&[*point], ways, |way, point| match way {
        Way::Read => read(state, lent.each_mut(), VALUES).length,
        Way::StartOver => ask(State::EMPTY, &point, lent.each_mut()).written as usize,
    })
}

#[cfg(test)]
mod tests {
    use std::collections::HashSet;

    use super::{ROWS, RUNGS, filled, point};
    use crate::ladder::tested::{Part, read};
    use crate::tables::{Kind, Split, branches, needed};

    #[test]
    fn the_rows_have_their_n_and_stay_on_one_branch() {
        let mut all = HashSet::new();
        for row in ROWS {
            let branch = |n| {
                let point = point(&row, n);
                let Split { n: found, f, .. } = Split::of(point.v);
                assert_eq!((found, f), (n as usize, row.3));
                assert_eq!(point.v < 0.0, row.2);
                branches::with_refusals(point.kind, point.v, point.x, needed(point.v))
            };
            let found = RUNGS.map(branch);
            assert!(found.iter().all(|name| *name == found[0]), "{found:?}");
            assert_eq!(found[0], row.1);
            all.insert((row.0 as u32, found[0]));
        }
        assert_eq!(all.len(), ROWS.len());
        let of_v = ROWS.iter().filter(|row| row.0 == Kind::V).count();
        assert!(of_v >= 4 && ROWS.len() - of_v >= 4);
    }

    #[test]
    fn what_a_start_over_filled_is_lent() {
        for row in ROWS {
            for n in RUNGS {
                let (state, mut lent) = filled(&point(&row, n));
                for (which, length) in [(1, n as usize + 1), (2, n as usize)] {
                    let part = read(state, lent.each_mut(), which);
                    let refusal = 0;
                    assert_eq!(part, Part { refusal, length }, "{row:?} {n}");
                }
            }
        }
    }
}
