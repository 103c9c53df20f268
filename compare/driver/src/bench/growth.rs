//! The times of the table calls as n grows.

use super::report::{Report, SIDES};
use super::tables::table_times;
use crate::tables::Kind;

/// A branch: function, direction, whether its orders are below 0, and the argument.
type Row = (Kind, &'static str, bool, f64);

const ROWS: [Row; 4] = [
    (Kind::D, "forward", false, 2.0),
    (Kind::V, "forward", true, 3.0),
    (Kind::D, "downward", true, 1.0),
    (Kind::V, "scaled", false, 12.0),
];

const RUNGS: [u32; 5] = [10, 30, 100, 300, 999];

pub fn run(report: &mut Report) {
    report.table("Growth with n", "branch, n, with (v, x)", SIDES);
    for (kind, direction, below_zero, x) in ROWS {
        for n in RUNGS {
            let v = order(n, below_zero);
            let name = format!("{kind:?} {direction}, n = {n} ({v:?}, {x:?})");
            report.row(&name, table_times(kind, v, x));
        }
    }
}

/// An order with this n and f = 0.25 or −0.25.
fn order(n: u32, below_zero: bool) -> f64 {
    let size = f64::from(n) - 0.75;
    if below_zero { -size } else { size }
}

#[cfg(test)]
mod tests {
    use super::{ROWS, RUNGS, order};
    use crate::tables::{Split, branches, call, needed};

    #[test]
    fn the_orders_have_their_n_and_stay_on_one_branch() {
        let expected = [
            "v >= 0, small x",
            "v < 0, small x",
            "v < 0, 0 < x <= 2",
            "v >= 0, x > 10",
        ];
        for ((kind, _, below_zero, x), branch) in ROWS.into_iter().zip(expected) {
            for n in RUNGS {
                let v = order(n, below_zero);
                assert_eq!(Split::of(v).n, n as usize);
                let found = branches::with_refusals(kind, v, x, needed(v));
                assert_eq!(found, branch, "{kind:?} {v}");
            }
        }
    }

    #[test]
    fn where_the_pairs_are_finite() {
        let is_finite = ROWS.map(|(kind, _, below_zero, x)| {
            RUNGS.map(|n| {
                let v = order(n, below_zero);
                let answer = call(kind).expected(v, x, needed(v)).answer;
                answer.value.is_finite() && answer.derivative.is_finite()
            })
        });
        let up_to_100 = [true, true, true, false, false];
        let up_to_300 = [true, true, true, true, false];
        assert_eq!(is_finite, [up_to_300, up_to_100, up_to_100, up_to_100]);
    }
}
