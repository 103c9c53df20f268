//! The comparison of both halves of D with the source's tables, damaged tables and wrong calls.

use std::collections::HashSet;

use super::{
    Comparison, DRAWN, Half, Request, TableCall, arguments, difference, number_difference, requests,
};
use crate::comparing::Line;
use crate::inputs::mixed;
use crate::tables::{Answer, Kind, call, needed};

/// The source on the lent table.
fn right(v: f64, x: f64, table: &mut [f64]) -> Answer {
    let num = needed(v) / 2;
    let table = &mut table[..2 * num];
    Answer::pair((call(Kind::D).reference)(x, v, table, num))
}

/// The difference where a half of a right pair of them is changed.
fn changed(v: f64, x: f64, side: usize, change: fn(&mut Half)) -> Option<String> {
    let request = Request::new(v, x, mixed(v.to_bits() ^ x.to_bits()));
    let mut halves = Comparison::new().halves(&request, right);
    assert_eq!(difference(v, &halves), None);
    change(&mut halves[side]);
    difference(v, &halves)
}

/// An order and an argument, what is changed in one of the halves, and what differs then.
type Row = (f64, f64, fn(&mut Half), &'static str);

/// At 999 and 0.5 value 302 is infinite and value 1000 NaN; at 4 and 0 value 1 is 0.
const WRONG: [Row; 14] = [
    (3.0, 0.5, |half| half.table[1] *= -1.0, "value 1: "),
    (
        3.0,
        0.5,
        |half| half.table[4] = half.table[4].next_up(),
        "value 4: ",
    ),
    (3.0, 0.5, |half| half.table[0] = f64::NAN, "value 0: "),
    (3.0, 0.5, |half| half.table[2] = 1.5, "value 2: "),
    (3.0, 0.5, |half| half.table[6] *= -1.0, "derivative 0: "),
    (
        3.0,
        0.5,
        |half| half.table[9] = half.table[9].next_down(),
        "derivative 3: ",
    ),
    (3.0, 0.5, |half| half.answer.refusal = 3, "refusals: "),
    (
        3.0,
        0.5,
        |half| half.answer.value *= -1.0,
        "answered value: ",
    ),
    (
        3.0,
        0.5,
        |half| half.answer.derivative = 0.0,
        "answered derivative: ",
    ),
    (999.0, 0.5, |half| half.table[302] *= -1.0, "value 302: "),
    (999.0, 0.5, |half| half.table[302] = f64::MAX, "value 302: "),
    (999.0, 0.5, |half| half.table[1000] = 1.0, "value 1000: "),
    (
        999.0,
        0.5,
        |half| half.table[2001] = 0.0,
        "derivative 999: ",
    ),
    (4.0, 0.0, |half| half.table[1] = 5e-324, "value 1: "),
];

#[test]
fn wrong_halves_are_seen() {
    for (v, x, change, beginning) in WRONG {
        for (x, side) in [(x, 0), (x, 1), (-x, 0), (-x, 1)] {
            let found = changed(v, x, side, change).expect("a difference");
            assert!(found.starts_with(beginning), "{found}");
        }
    }
}

#[test]
fn zeros_nans_and_unwritten_slots_are_no_difference() {
    let changes: [Row; 4] = [
        (4.0, 0.0, |half| half.table[1] *= -1.0, "a zero's sign"),
        (
            999.0,
            0.5,
            |half| half.table[1000] = -f64::NAN,
            "a NaN's sign",
        ),
        (
            3.0,
            0.5,
            |half| half.table[5] = 1.5,
            "an unwritten value slot",
        ),
        (
            3.0,
            0.5,
            |half| half.table[10] = 1.5,
            "an unwritten derivative slot",
        ),
    ];
    for (v, x, change, name) in changes {
        for side in 0..2 {
            assert_eq!(changed(v, x, side, change), None, "{name}");
        }
    }
}

/// The comparison over one of so many requests.
fn compared(step: usize, table_call: TableCall) -> Comparison {
    let mut comparison = Comparison::new();
    comparison.run(requests(1).step_by(step), table_call);
    comparison
}

#[test]
fn the_requests_meet_overflow_and_the_source_is_mirrored() {
    let comparison = compared(499, right);
    assert!(comparison.line.inputs > 4000 && comparison.line.differences == 0);
    assert!(comparison.infinite > 100 && comparison.nan > 100_000);
}

#[test]
fn the_requests_show_wrong_calls() {
    let wrong: [TableCall; 4] = [
        // the sign of x is lost
        |v, x, table| right(v, x.abs(), table),
        // the top value is not written
        |v, x, table| {
            let top = v as usize + 1;
            let found = table[top];
            let answer = right(v, x, table);
            table[top] = found;
            answer
        },
        // derivatives begin after the values
        |v, x, table| {
            let (n, num) = (v as usize + 1, v as usize + 3);
            let found = table.to_vec();
            let answer = right(v, x, table);
            table.copy_within(num..num + n, n + 1);
            table[2 * n + 1..].copy_from_slice(&found[2 * n + 1..]);
            answer
        },
        |_, _, _| Answer::refused(3),
    ];
    for (i, table_call) in wrong.into_iter().enumerate() {
        let Line {
            inputs,
            differences,
            ..
        } = compared(4999, table_call).line;
        assert!(
            inputs > 400 && differences > inputs / 2,
            "{i}: {differences}"
        );
    }
}

#[test]
fn every_argument_stands_with_every_order_and_other_tables() {
    let (mut orders, mut many) = (HashSet::new(), 0);
    let (mut lengths, mut different) = (HashSet::new(), HashSet::new());
    let (mut zeros, mut centres) = (HashSet::new(), HashSet::new());
    for request in requests(1) {
        let Request {
            v,
            x,
            other: (w, y),
            lengths: [first, second],
            places,
        } = request;
        assert!(v.trunc() == v && (0.0..1000.0).contains(&v) && !x.is_nan());
        assert!(w == v && y == -x);
        zeros.extend((v == 0.0).then(|| [v, w].map(f64::is_sign_negative)));
        centres.extend((x == 0.0).then(|| [x, y].map(f64::is_sign_negative)));
        orders.insert(v.to_bits());
        different.insert(x.to_bits());
        lengths.insert([first, second].map(|length| length - needed(v)));
        assert_ne!(places[0], places[1]);
        many += 1;
    }
    assert_eq!(orders.len(), 1001);
    // Both signs of the order 0 with both; 0.0 among the arguments with both.
    assert_eq!((zeros.len(), centres.len()), (4, 2));
    assert!(different.len() > 2000 && lengths.len() == 64);
    assert_eq!(many, 1001 * arguments(1).len());
}

#[test]
fn the_seed_fixes_the_drawn_arguments() {
    let bits = |seed| -> Vec<u64> { arguments(seed).into_iter().map(f64::to_bits).collect() };
    assert!(bits(1) == bits(1) && bits(1) != bits(2));
    assert_eq!(
        bits(1)[..bits(1).len() - DRAWN],
        bits(2)[..bits(2).len() - DRAWN]
    );
}

#[test]
fn a_request_is_shown_with_its_bits() {
    let expected = "v 3.0 (0x4008000000000000), x -0.5 (0xbfe0000000000000), lengths 12 and 13";
    assert_eq!(Request::new(3.0, -0.5, 256).show(), expected);
    let sides = "value 1: 2.0 (0x4000000000000000) at x, 2.0 (0x4000000000000000) at −x";
    assert_eq!(
        number_difference("value 1", 1, 2.0, 2.0).as_deref(),
        Some(sides)
    );
}
