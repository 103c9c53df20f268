//! A ladder answers as single table calls would, over random requests.

mod common;

use common::{
    DERIVATIVE_SLOTS, Generator, TABLE_SLOTS, VALUE_SLOTS, alike, all_alike, mark, marked, table,
    written,
};
use gozhnerim::{
    Case, Column, Function, Ladder, Refusal, Reply, State, column, rungs_needed, slots_needed,
};

/// A stream of requests: some are the last one again, some the last one some rungs higher, others
/// new.
struct Requests {
    generator: Generator,
    last: (Function, f64, f64),
}

impl Requests {
    fn new(seed: u64) -> Self {
        Requests {
            generator: Generator::new(seed),
            last: (Function::D, 0.5, 1.5),
        }
    }

    fn fresh(&mut self) -> (Function, f64, f64) {
        let generator = &mut self.generator;
        let function = generator.function();
        let whole = match generator.below(8) {
            0 => generator.below(1010) as f64,
            _ => generator.below(30) as f64,
        };
        let size = whole + generator.one_of(&[0.0, 0.5, 0.25]);
        let v = if generator.below(2) == 0 { -size } else { size };
        let x = generator.one_of(&[1.5, -2.0, -0.0, 12.0, -12.0, f64::NAN, f64::INFINITY]);
        (function, v, x)
    }
}

impl Iterator for Requests {
    type Item = (Function, f64, f64);

    fn next(&mut self) -> Option<Self::Item> {
        let (function, v, x) = self.last;
        let rungs = 1.0 + self.generator.below(9) as f64;
        self.last = match self.generator.below(6) {
            0 => self.last,
            1 | 2 => (function, v + rungs.copysign(v), x),
            _ => self.fresh(),
        };
        Some(self.last)
    }
}

/// The rungs of a single table call: values 0 to n and derivatives 0 to n − 1.
fn rungs(function: Function, v: f64, x: f64) -> Result<(f64, f64, Vec<f64>, Vec<f64>), Refusal> {
    let mut slots = marked(TABLE_SLOTS);
    let pair = table(function, v, x, &mut slots)?;
    let (n, num) = (rungs_needed(v)?, slots_needed(v)? / 2);
    let (values, derivatives) = (slots[..=n].to_vec(), slots[num..num + n].to_vec());
    Ok((pair.value, pair.derivative, values, derivatives))
}

/// What the tests count, so that each case and refusal is seen to have come.
#[derive(Default)]
struct Seen {
    cases: [usize; 3],
    refusals: usize,
}

impl Seen {
    fn note(&mut self, reply: &Result<Reply, Refusal>) {
        match reply {
            Ok(reply) => self.cases[reply.case as usize] += 1,
            Err(_) => self.refusals += 1,
        }
    }

    fn all_came(&self) -> bool {
        self.cases.iter().all(|&count| count > 1000) && self.refusals > 1000
    }
}

#[test]
fn an_owning_ladder_is_single_tables() {
    let (mut ladder, mut seen) = (Ladder::new(), Seen::default());
    let (mut values, mut derivatives) = (Vec::new(), Vec::new());
    for (turn, (function, v, x)) in Requests::new(1).take(20_000).enumerate() {
        let reply = ladder.request(function, v, x);
        seen.note(&reply);
        match (reply, rungs(function, v, x)) {
            (Ok(reply), Ok(single)) => {
                assert!(alike(reply.value, single.0), "turn {turn}: {v:?} {x:?}");
                assert!(alike(reply.derivative, single.1), "turn {turn}");
                (values, derivatives) = (single.2, single.3);
            }
            (reply, single) => assert_eq!(reply.unwrap_err(), single.unwrap_err(), "turn {turn}"),
        }
        assert!(all_alike(ladder.values(), &values), "turn {turn}");
        assert!(all_alike(ladder.derivatives(), &derivatives), "turn {turn}");
    }
    assert!(seen.all_came());
}

/// The record of the scope paper's ladder machine: function, side, bits of x and f, n.
type Record = (Function, bool, u64, u64, usize);

fn record(function: Function, v: f64, x: f64) -> Record {
    let u = if v < 0.0 { v - 1.0 } else { v + 1.0 };
    let f = u - u.trunc();
    let n = u.abs() as usize;
    (function, v < 0.0, x.to_bits(), f.to_bits(), n)
}

/// Whether the branch of a record runs forward.
fn forward((function, below, x, f, n): Record) -> bool {
    let (x, u) = (f64::from_bits(x), n as f64 + f64::from_bits(f));
    match (function, below) {
        (Function::D, false) | (Function::V, true) => true,
        (Function::D, true) => x <= 0.0,
        (Function::V, false) => x < 0.0 && !(x.abs() <= 10.0 && u <= 0.5 * x * x),
    }
}

/// The case and count that the machine gives for an accepted request.
fn judged(held: Option<Record>, next: Record) -> (Case, usize) {
    let same = |held: Record| (held.0, held.1, held.2, held.3) == (next.0, next.1, next.2, next.3);
    match held {
        Some(held) if held == next => (Case::Repeat, 0),
        Some(held) if same(held) && held.4 >= 2 && next.4 > held.4 && forward(held) => {
            (Case::Climb, next.4 - held.4)
        }
        _ => (Case::StartOver, next.4 + 1),
    }
}

#[test]
fn cases_and_counts_are_the_machines() {
    let (mut ladder, mut held, mut seen) = (Ladder::new(), None, Seen::default());
    for (turn, (function, v, x)) in Requests::new(2).take(100_000).enumerate() {
        let reply = ladder.request(function, v, x);
        seen.note(&reply);
        let Ok(reply) = reply else { continue };
        let next = record(function, v, x);
        let expected = judged(held, next);
        assert_eq!(
            (reply.case, reply.written),
            expected,
            "turn {turn}: {v:?} {x:?}"
        );
        held = Some(next);
    }
    assert!(seen.all_came());
}

/// Tables filled anew before each request: the named slots are written, all others stay, and
/// answers do not depend on what the tables hold.
#[test]
fn lent_tables_hold_anything() {
    let (mut state, mut ladder) = (State::EMPTY, Ladder::new());
    for (turn, (function, v, x)) in Requests::new(3).take(5_000).enumerate() {
        let (mut values, mut derivatives) = (marked(VALUE_SLOTS), marked(DERIVATIVE_SLOTS));
        let reply = state.request(function, v, x, &mut values, &mut derivatives);
        let owned = ladder.request(function, v, x);
        let Ok(reply) = reply else {
            assert_eq!(reply, owned);
            assert!(written(&values).is_empty() && written(&derivatives).is_empty());
            continue;
        };
        let owned = owned.unwrap();
        assert!(alike(reply.value, owned.value) && alike(reply.derivative, owned.derivative));
        assert_eq!((reply.case, reply.written), (owned.case, owned.written));
        let n = state.held().unwrap().n;
        let first = n + 1 - reply.written;
        let values_expected: Vec<usize> = (first..=n).collect();
        let derivatives_expected: Vec<usize> = (first.saturating_sub(1)..n).collect();
        assert_eq!(written(&values), values_expected, "turn {turn}");
        assert_eq!(written(&derivatives), derivatives_expected, "turn {turn}");
    }
}

#[test]
fn growing_keeps_the_rungs() {
    let mut ladder = Ladder::new();
    for step in 0..142 {
        let v = 0.25 + 7.0 * f64::from(step);
        let before = ladder.values().to_vec();
        let reply = ladder.d(v, 2.0).unwrap();
        if step > 1 {
            assert_eq!((reply.case, reply.written), (Case::Climb, 7));
        }
        assert!(all_alike(&ladder.values()[..before.len()], &before));
        let single = rungs(Function::D, v, 2.0).unwrap();
        assert!(all_alike(ladder.values(), &single.2));
        assert!(all_alike(ladder.derivatives(), &single.3));
    }
}

#[test]
fn a_cleared_ladder_starts_over() {
    let mut ladder = Ladder::new();
    ladder.d(5.5, 1.0).unwrap();
    ladder.clear();
    assert!(ladder.values().is_empty() && ladder.derivatives().is_empty());
    assert!(ladder.column(Column::Values, 1).is_empty());
    assert_eq!(ladder.d(5.5, 1.0).unwrap().case, Case::StartOver);
}

#[test]
fn columns_of_lent_tables() {
    let (values, derivatives) = (marked(4), marked(3));
    let read = |which, c| column(&values, &derivatives, which, c);
    for c in 0..=4 {
        assert!(std::ptr::eq(read(Column::Values, c), &values[..c]));
    }
    for c in 0..=3 {
        assert!(std::ptr::eq(
            read(Column::Derivatives, c),
            &derivatives[..c]
        ));
    }
    for c in [5, 1000, usize::MAX] {
        assert!(read(Column::Values, c).is_empty());
    }
    for c in [4, usize::MAX] {
        assert!(read(Column::Derivatives, c).is_empty());
    }
    assert_eq!(
        column(&derivatives, &values, Column::Derivatives, 4).len(),
        4
    );
    assert!(column(&[], &[], Column::Values, 0).is_empty());
    assert_eq!(values[3].to_bits(), mark(3).to_bits());
}

#[test]
fn columns_of_a_ladder_are_its_rungs() {
    let mut ladder = Ladder::new();
    ladder.d(40.5, 1.0).unwrap();
    ladder.d(3.5, 1.0).unwrap();
    assert_eq!(ladder.column(Column::Values, 5), ladder.values());
    assert_eq!(ladder.column(Column::Derivatives, 4), ladder.derivatives());
    assert!(ladder.column(Column::Values, 6).is_empty());
    assert!(ladder.column(Column::Derivatives, 5).is_empty());
}
