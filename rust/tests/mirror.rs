//! Both halves of D through compiled code: the tables at x and at −x, for every whole order, and the
//! command that prints them.

mod common;
mod run;

use common::TABLE_SLOTS;
use gozhnerim::{Column, Pair, Refusal, d_table, is_mirrored, slots_needed, unmirrored};
use run::run_text;

const INFINITY: f64 = f64::INFINITY;
const NAN: f64 = f64::NAN;

/// From rungs that stay finite to rungs that overflow, and arguments at which exp(−x²/4) is 0.
const ARGUMENTS: [f64; 17] = [
    0.0,
    5e-324,
    1e-160,
    0.5,
    1.0,
    -2.75,
    7.5,
    -12.0,
    20.5,
    37.0,
    40.25,
    -54.0,
    62.0,
    1e155,
    -1e300,
    f64::MAX,
    INFINITY,
];

/// Whether b is (−1)^exponent times a. Zeros of either sign are equal, and NaN has to be exactly
/// where the other is NaN.
fn is_times_sign(exponent: usize, a: f64, b: f64) -> bool {
    let sign = if exponent % 2 == 1 { -1.0 } else { 1.0 };
    if a.is_nan() || b.is_nan() {
        return a.is_nan() && b.is_nan();
    }
    b == sign * a
}

/// The tables at x and at −x and the pairs answered. Before the calls the slots hold numbers that
/// are no mirror of each other.
fn halves(m: usize, x: f64) -> [(Pair, Vec<f64>); 2] {
    halves_at(m, x, -x)
}

fn halves_at(m: usize, x: f64, y: f64) -> [(Pair, Vec<f64>); 2] {
    let needed = slots_needed(m as f64).unwrap();
    [(x, 1.5, needed), (y, 2.5, needed + m % 3)].map(|(x, before, length)| {
        let mut table = vec![before; length];
        let pair = d_table(m as f64, x, &mut table).unwrap();
        (pair, table)
    })
}

/// What was met, so that overflow is seen to have come.
#[derive(Debug, Default)]
struct Met {
    infinite: usize,
    nan: usize,
}

impl Met {
    fn note(&mut self, number: f64) {
        self.infinite += usize::from(number.is_infinite());
        self.nan += usize::from(number.is_nan());
    }
}

#[test]
fn every_rung_and_pair_of_every_whole_order_is_mirrored() {
    let mut met = Met::default();
    for m in 0..1000 {
        let (n, num) = (m + 1, m + 3);
        for x in ARGUMENTS {
            let [(pair, table), (other_pair, other)] = halves(m, x);
            for k in 0..=n {
                assert!(is_times_sign(k, table[k], other[k]), "{m} {x:?} value {k}");
                met.note(table[k]);
            }
            for (k, (&a, &b)) in table[num..num + n].iter().zip(&other[num..]).enumerate() {
                assert!(is_times_sign(k + 1, a, b), "{m} {x:?} derivative {k}");
                met.note(a);
            }
            assert!(is_times_sign(m, pair.value, other_pair.value));
            assert!(is_times_sign(m + 1, pair.derivative, other_pair.derivative));
            assert_eq!(
                unmirrored(m as u32, &table, &other),
                Ok(vec![]),
                "{m} {x:?}"
            );
        }
    }
    assert!(met.infinite > 1000 && met.nan > 1000, "{met:?}");
}

/// At 0 either zero is the opposite of either: odd values and even derivatives are 0 or NaN there.
#[test]
fn the_centre_is_mirrored_with_itself() {
    for m in 0..1000 {
        for zero in [0.0, -0.0] {
            let [(_, table), (_, other)] = halves_at(m, zero, zero);
            assert_eq!(
                unmirrored(m as u32, &table, &other),
                Ok(vec![]),
                "{m} {zero:?}"
            );
        }
    }
}

#[test]
fn mirrored_numbers_and_others() {
    let mirrored_as_equal = [
        (0.5, 0.5),
        (-0.5, -0.5),
        (0.0, -0.0),
        (-0.0, -0.0),
        (INFINITY, INFINITY),
        (-INFINITY, -INFINITY),
        (5e-324, 5e-324),
        (NAN, -NAN),
    ];
    let not_equal = [
        (0.5, -0.5),
        (0.5, 0.5_f64.next_up()),
        (0.0, 5e-324),
        (-5e-324, -0.0),
        (INFINITY, -INFINITY),
        (INFINITY, f64::MAX),
        (NAN, 0.0),
        (1.0, NAN),
        (INFINITY, NAN),
    ];
    let pairs = mirrored_as_equal.map(|pair| (pair, true)).into_iter();
    for ((a, b), equal) in pairs.chain(not_equal.map(|pair| (pair, false))) {
        for k in [0, 2, 998, 1000] {
            assert_eq!(is_mirrored(Column::Values, k, a, b), equal, "{a:?} {b:?}");
            assert_eq!(is_mirrored(Column::Derivatives, k, a, -b), equal, "{a:?}");
            assert_eq!(is_mirrored(Column::Values, k + 1, a, -b), equal, "{a:?}");
            assert_eq!(
                is_mirrored(Column::Derivatives, k + 1, a, b),
                equal,
                "{a:?}"
            );
        }
    }
}

#[test]
fn each_damaged_slot_is_found_with_its_column_and_rung() {
    for m in [0, 1, 2, 9] {
        let [(_, table), (_, other)] = halves(m, 0.75);
        let (n, num) = (m + 1, m + 3);
        for slot in 0..2 * num {
            let expected = match slot {
                _ if slot <= n => vec![(Column::Values, slot)],
                _ if (num..num + n).contains(&slot) => vec![(Column::Derivatives, slot - num)],
                _ => vec![],
            };
            for side in 0..2 {
                let mut tables = [table.clone(), other.clone()];
                tables[side][slot] += 1.0;
                let found = unmirrored(m as u32, &tables[0], &tables[1]);
                assert_eq!(found.as_ref(), Ok(&expected), "{m} {slot}");
            }
        }
    }
}

#[test]
fn rungs_come_by_rising_number_and_values_before_derivatives() {
    let [(_, table), (_, mut other)] = halves(2, 0.75);
    other.iter_mut().for_each(|slot| *slot += 1.0);
    let both = |k| [(Column::Values, k), (Column::Derivatives, k)];
    let mut expected = [both(0), both(1), both(2)].concat();
    expected.push((Column::Values, 3));
    assert_eq!(unmirrored(2, &table, &other), Ok(expected));
}

#[test]
fn orders_and_lengths_that_are_refused() {
    let long = vec![0.0; TABLE_SLOTS + 1];
    for order in [1000, 1001, u32::MAX] {
        assert_eq!(unmirrored(order, &long, &long), Err(Refusal::OrderTooLarge));
        assert_eq!(unmirrored(order, &[], &[]), Err(Refusal::OrderTooLarge));
    }
    for order in [0, 1, 500, 999] {
        let needed = slots_needed(f64::from(order)).unwrap();
        let (short, enough) = (&long[..needed - 1], &long[..needed]);
        for (at_x, at_minus_x) in [(short, enough), (enough, short), (short, &long), (&[], &[])] {
            let refused = unmirrored(order, at_x, at_minus_x);
            assert_eq!(refused, Err(Refusal::TableTooShort), "{order}");
        }
        assert_eq!(unmirrored(order, enough, &long), Ok(vec![]), "{order}");
    }
}

/// The lines of `mirror` are those of `table` at x and at −x, side by side, and one that says that
/// every rung is mirrored.
fn both_halves(order: usize, x: f64) {
    let ran = run_text(&format!("mirror {order} {x:?}"));
    assert!(
        ran.status == Some(0) && ran.err.is_empty(),
        "{order} {x:?}: {}",
        ran.err
    );
    let [at_x, at_minus_x] = [x, -x].map(|x| run_text(&format!("table D {order} {x:?}")).out);
    let line = |(a, b): (&str, &str)| {
        let [a, b] = [a, b].map(|line| line.split(' ').collect::<Vec<_>>());
        format!("{} {} {} {} {} mirrored", a[0], a[2], b[2], a[3], b[3])
    };
    let rungs = at_x.lines().zip(at_minus_x.lines()).map(line);
    let (values, derivatives) = (order + 2, order + 1);
    let all = match derivatives {
        1 => "2 values, 1 derivative".to_string(),
        _ => format!("{values} values, {derivatives} derivatives"),
    };
    let nan = |place: usize| {
        let is_nan = |line: &&str| line.split(' ').nth(place) == Some("NaN");
        at_x.lines().filter(is_nan).count()
    };
    let nan = match (nan(2), nan(3)) {
        (0, 0) => String::new(),
        (values, derivatives) => format!(", of them {values} and {derivatives} NaN at x and at -x"),
    };
    let last = format!("every rung is mirrored: {all}{nan}");
    assert_eq!(ran.lines(), rungs.chain([last]).collect::<Vec<_>>());
}

#[test]
fn both_halves_have_a_line_for_each_rung() {
    for (order, x) in [(0, 1.5), (3, 0.5), (3, -0.5), (4, 0.0), (7, f64::INFINITY)] {
        both_halves(order, x);
    }
    // Rungs that overflow, and rungs that are 0.
    both_halves(999, -12.0);
    assert!(
        run_text("mirror 999 -12")
            .out
            .ends_with(" NaN at x and at -x\n")
    );
    both_halves(999, 60.0);
    for order in ["-0.0", "0x0000000000000000", "0e9"] {
        let ran = run_text(&format!("mirror {order} 1.5"));
        assert_eq!(ran.out, run_text("mirror 0 1.5").out, "{order}");
    }
}

#[test]
fn with_bits_both_halves_have_them_last() {
    let plain = run_text("mirror 2 0.5");
    let ran = run_text("mirror 2 0.5 --bits");
    assert!(ran.status == Some(0) && ran.err.is_empty());
    assert_eq!(ran.lines()[4], plain.lines()[4]);
    for (line, plain) in ran.lines().iter().zip(&plain.lines()[..4]) {
        let bits = |word: &str| match word.parse::<f64>() {
            Ok(number) => format!("{:#018x}", number.to_bits()),
            Err(_) => word.to_string(),
        };
        let bits: Vec<String> = plain.split(' ').skip(1).take(4).map(bits).collect();
        assert_eq!(*line, format!("{plain} {}", bits.join(" ")));
    }
}

#[test]
fn orders_without_a_mirror_are_answered_in_words() {
    for order in ["2.5", "-1", "1000", "-5e-324", "1e300", "inf", "NaN"] {
        let ran = run_text(&format!("mirror {order} 1"));
        assert_eq!((ran.status, ran.out.as_str()), (Some(2), ""), "{order}");
        let message = format!("not a whole number from 0 to 999: {order:?}; write one such as 3, ");
        assert!(ran.err.contains(&message), "{}", ran.err);
    }
    for function in ["D", "V"] {
        let ran = run_text(&format!("mirror {function} 2 1"));
        assert_eq!((ran.status, ran.out.as_str()), (Some(2), ""), "{function}");
        assert!(ran.err.contains("; it is about D alone: write an order "));
    }
}
