//! The comparison with calls in place of the library's: a right one, and wrong ones.

use super::{COUNT, D, STEP, V, all_requests};
use crate::tables::outcome::{Lent, MARGIN};
use crate::tables::requests::{Junk, Request};
use crate::tables::split::{Split, needed};
use crate::tables::{Answer, CALLS, Call};

/// A call that was made.
struct Made<'a> {
    call: &'a Call,
    v: f64,
    x: f64,
    split: Split,
    answer: Answer,
    found: &'a [f64],
    left: &'a mut [f64],
    length: usize,
    is_null: bool,
}

impl Made<'_> {
    fn is_accepted(&self) -> bool {
        self.answer.refusal == 0
    }

    fn slot(&mut self, k: usize) -> &mut f64 {
        &mut self.left[MARGIN + k]
    }

    /// The source on the lent table itself.
    fn fill(&mut self) {
        let table = &mut self.left[MARGIN..][..2 * self.split.num];
        self.answer = Answer::pair((self.call.reference)(self.x, self.v, table, self.split.num));
    }
}

/// Makes a right call wrong.
type Change = fn(&mut Made);

/// A right call, then the change.
fn called(call: &Call, v: f64, x: f64, lent: &mut Lent, change: Change) -> Answer {
    let found = lent.slots.clone();
    let refusal = if v.is_nan() || x.is_nan() {
        1
    } else if v.abs() >= 1000.0 {
        2
    } else {
        3
    };
    let mut made = Made {
        call,
        v,
        x,
        split: Split::of(v),
        answer: Answer::refused(refusal),
        found: &found,
        left: &mut lent.slots,
        length: lent.length,
        is_null: lent.is_null,
    };
    if refusal == 3 && lent.length >= needed(v) {
        made.fill();
    }
    change(&mut made);
    made.answer
}

/// A change, a request at which the call is then wrong, and how the difference begins.
type Row = (Change, &'static Call, (f64, f64, usize), &'static str);

const ROWS: [Row; 15] = [
    (
        derivatives_from_n_plus_1,
        D,
        (2.5, 1.0, 10),
        "slot 4: library",
    ),
    (no_slot_2_of_v, V, (-1e-20, 1.0, 6), "slot 2: library"),
    (
        |made| *made.slot(made.length) = 1.25,
        D,
        (0.5, 1.0, 7),
        "slot 7: library 1.25",
    ),
    (
        |made| made.left[MARGIN - 1] = 1.25,
        V,
        (0.5, 1.0, 6),
        "slot -1: library 1.25",
    ),
    (wrong_bit, V, (-9.0, 1.0, 24), "slot 5: library"),
    (
        wrong_last_derivative,
        D,
        (-9.5, 3.0, 24),
        "slot 21: library 0.5",
    ),
    (unused_slot, D, (3.0, 1.0, 12), "slot 5: library 0.0"),
    (quiet_nan, D, (3.0, 1.0, 12), "slot 11: library NaN"),
    (refusal_3_for_2, V, (1000.0, 1.0, 6), "refusal: library 3, "),
    (
        refusal_2_before_1,
        D,
        (1000.0, f64::NAN, 6),
        "refusal: library 2, Rust 1",
    ),
    (slot_of_a_refusal, D, (0.5, 1.0, 5), "slot 4: library 0.25"),
    (
        number_of_a_refusal,
        V,
        (0.5, 1.0, 5),
        "derivative: library 0.0 (0x0000000000000000), Rust NaN",
    ),
    (
        no_test_of_the_length,
        D,
        (0.5, 1.0, 5),
        "refusal: library 0, Rust 3",
    ),
    (value_of_slot_n, V, (-0.5, 1.0, 6), "value: library"),
    (
        refusal_3_for_null,
        D,
        (1000.0, f64::NAN, 0),
        "refusal: library 3, Rust 1",
    ),
];

fn derivatives_from_n_plus_1(made: &mut Made) {
    if made.is_accepted() {
        let Split { n, num, .. } = made.split;
        let derivatives = made.left[MARGIN + num..][..n].to_vec();
        made.left[MARGIN + num..].copy_from_slice(&made.found[MARGIN + num..]);
        made.left[MARGIN + n + 1..][..n].copy_from_slice(&derivatives);
    }
}

fn no_slot_2_of_v(made: &mut Made) {
    if made.is_accepted() && made.split.writes_slot_2(made.call.kind) {
        *made.slot(2) = made.found[MARGIN + 2];
    }
}

fn wrong_bit(made: &mut Made) {
    if made.is_accepted() {
        let middle = made.slot(made.split.n / 2);
        *middle = f64::from_bits(middle.to_bits() ^ 1);
    }
}

/// The answer stays right.
fn wrong_last_derivative(made: &mut Made) {
    if made.is_accepted() {
        *made.slot(made.split.num + made.split.n - 1) = 0.5;
    }
}

/// The last of the value slots is written only if n is num − 1.
fn unused_slot(made: &mut Made) {
    if made.is_accepted() && made.split.n + 1 < made.split.num {
        *made.slot(made.split.num - 1) = 0.0;
    }
}

fn quiet_nan(made: &mut Made) {
    let last = made.slot(2 * made.split.num - 1);
    if last.is_nan() {
        *last = f64::from_bits(last.to_bits() | 1 << 51);
    }
}

fn refusal_3_for_2(made: &mut Made) {
    if made.answer.refusal == 2 {
        made.answer.refusal = 3;
    }
}

fn refusal_2_before_1(made: &mut Made) {
    if made.v.abs() >= 1000.0 {
        made.answer.refusal = 2;
    }
}

fn slot_of_a_refusal(made: &mut Made) {
    if !made.is_accepted() && made.length > 0 {
        *made.slot(made.length - 1) = 0.25;
    }
}

fn number_of_a_refusal(made: &mut Made) {
    if !made.is_accepted() {
        made.answer.derivative = 0.0;
    }
}

fn no_test_of_the_length(made: &mut Made) {
    if made.answer.refusal == 3 {
        made.fill();
    }
}

fn value_of_slot_n(made: &mut Made) {
    if made.is_accepted() {
        made.answer.value = *made.slot(made.split.n);
    }
}

/// A null pointer is refused before the numbers are tested.
fn refusal_3_for_null(made: &mut Made) {
    if made.is_null {
        made.answer.refusal = 3;
    }
}

fn no_change(_: &mut Made) {}

/// The difference where the last slot that the order needs is a NaN that is not quiet.
fn difference(change: Change, call: &Call, (v, x, length): (f64, f64, usize)) -> Option<String> {
    let is_nan = |junk: &Junk| {
        let last = junk.slot(MARGIN + needed(v) - 1);
        last.is_nan() && last.to_bits() & (1 << 51) == 0
    };
    let junk = (1..).map(Junk).find(is_nan).expect("there is such junk");
    let is_null = length == 0;
    let request = Request {
        v,
        x,
        length,
        is_null,
        junk,
    };
    let library = |v, x, lent: &mut Lent| called(call, v, x, lent, change);
    let (input, difference) = call.difference(&request, library)?;
    assert_eq!(input, request.show());
    Some(difference)
}

#[test]
fn wrong_calls_differ_where_they_are_wrong() {
    for (change, call, request, beginning) in ROWS {
        let found = difference(change, call, request).expect("a difference");
        assert!(found.starts_with(beginning), "{found}");
        assert_eq!(difference(no_change, call, request), None);
    }
}

/// The differences among the requests of a comparison.
fn differences(change: Change, call: &Call) -> usize {
    let differs = |request: &Request| {
        let library = |v, x, lent: &mut Lent| called(call, v, x, lent, change);
        call.difference(request, library).is_some()
    };
    all_requests(call).step_by(STEP).filter(differs).count()
}

#[test]
fn the_requests_show_wrong_calls_and_no_right_one() {
    for (change, call, _, beginning) in ROWS {
        let many = differences(change, call);
        assert!(many > COUNT / STEP / 1000, "{beginning} {many}");
    }
    for call in &CALLS {
        assert_eq!(differences(no_change, call), 0, "{}", call.name);
    }
}

#[test]
fn a_request_is_shown_with_its_bits() {
    let request = Request {
        v: -0.5,
        x: 2.0,
        length: 6,
        is_null: false,
        junk: Junk(1),
    };
    let expected = "v -0.5 (0xbfe0000000000000), x 2.0 (0x4000000000000000), length 6";
    assert_eq!(request.show(), expected);
    let empty = Request {
        length: 0,
        is_null: true,
        ..request
    };
    assert!(empty.show().ends_with(", length 0, null pointer"));
}
