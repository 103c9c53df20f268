//! The times of the expansion's calls, beside those of the Rust without tests for refusals.

use super::report::{Report, SIDES};
use super::timing::times;
use crate::expansion::{Call, D_EXPANSION, MACLAURIN, PBDV_ELEMENTARY, UV_SUMS};

pub fn run(report: &mut Report) {
    report.table("Off the ladder's path", "call", SIDES);
    print_points(report, &D_EXPANSION);
    print_points(report, &MACLAURIN);
    print_points(report, &PBDV_ELEMENTARY);
    print_points(report, &UV_SUMS);
}

fn print_points<const N: usize, A>(report: &mut Report, call: &Call<[f64; N], A>) {
    let [stand_ins, platform] = call.timed;
    let sides = [call.sides.library, stand_ins, platform].map(Some);
    for (name, point) in call.points {
        let numbers = point.map(|number| format!("{number:?}")).join(", ");
        let name = format!("{}{name} ({numbers})", call.name);
        report.row(&name, times(&[*point], sides, |side, input| side(input)));
    }
}

#[cfg(test)]
mod tests {
    use crate::expansion::{D_EXPANSION, MACLAURIN, SHORT};
    use crate::tables::Answer;

    #[test]
    fn answers_at_the_points_are_finite_and_not_zero() {
        let d = D_EXPANSION.points.iter();
        let d = d.flat_map(|(_, input)| D_EXPANSION.timed.map(|call| call(*input)));
        let m = MACLAURIN.points.iter();
        let m = m.flat_map(|(_, input)| MACLAURIN.timed.map(|call| call(*input)));
        for answer in d.chain(m) {
            let Answer {
                value, derivative, ..
            } = answer;
            let ordinary = |number: f64| number.is_finite() && number != 0.0;
            assert!(ordinary(value) && ordinary(derivative), "{answer:?}");
        }
    }

    #[test]
    fn both_forms_of_the_series_are_timed() {
        for (name, [_, x, ..]) in MACLAURIN.points {
            assert_eq!(x.abs() < SHORT, *name == " short form", "{x}");
        }
        let short = MACLAURIN
            .points
            .iter()
            .filter(|(name, _)| *name == " short form");
        assert!(short.count() > 0);
    }
}
