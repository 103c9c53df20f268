//! The scope paper's examples P5 to P12, and which slots a table call writes.

mod common;

use common::{BELOW_ONE, TABLE_SLOTS, alike, all_alike, marked, table, written};
use gozhnerim::{
    Case, Function, Ladder, Pair, Refusal, State, d_expansion, d_table, maclaurin, rungs_needed,
    slots_needed, v_table,
};

fn is(pair: Pair, value: f64, derivative: f64) -> bool {
    alike(pair.value, value) && alike(pair.derivative, derivative)
}

#[test]
fn p5_six_slots_do_and_five_give_3() {
    let mut slots = marked(8);
    let refused = d_table(0.0, 0.0, &mut slots[..5]);
    assert_eq!(refused, Err(Refusal::TableTooShort));
    assert!(written(&slots).is_empty());
    assert!(is(d_table(0.0, 0.0, &mut slots[..6]).unwrap(), 1.0, 0.0));
    assert_eq!(written(&slots), [0, 1, 3]);
}

#[test]
fn p6_order_1_at_0() {
    assert!(is(d_table(1.0, 0.0, &mut marked(8)).unwrap(), 0.0, 1.0));
}

#[test]
fn p7_order_2_at_0() {
    let mut slots = marked(12);
    assert!(is(d_table(2.0, 0.0, &mut slots).unwrap(), -1.0, 0.0));
    assert!(all_alike(&slots[..4], &[1.0, 0.0, -1.0, -0.0]));
    assert_eq!(written(&slots), [0, 1, 2, 3, 5, 6, 7]);
}

#[test]
fn p8_v_at_order_minus_1() {
    let pair = v_table(-1.0, 0.0, &mut marked(8)).unwrap();
    assert!(is(pair, 0.7978845608028654, 0.0));
}

#[test]
fn p9_order_1000_gives_2() {
    let mut slots = marked(TABLE_SLOTS + 1);
    for function in [Function::D, Function::V] {
        for v in [1000.0, -1000.0] {
            let refused = table(function, v, 0.0, &mut slots);
            assert_eq!(refused, Err(Refusal::OrderTooLarge));
        }
    }
    assert!(written(&slots).is_empty());
}

#[test]
fn p10_order_999_and_a_half_needs_2004_slots() {
    assert_eq!(slots_needed(999.5), Ok(TABLE_SLOTS));
    for function in [Function::D, Function::V] {
        let mut slots = marked(TABLE_SLOTS);
        let refused = table(function, 999.5, 0.0, &mut slots[..2003]);
        assert_eq!(refused, Err(Refusal::TableTooShort));
        assert!(written(&slots).is_empty());
        assert!(table(function, 999.5, 0.0, &mut slots).is_ok());
        let expected: Vec<usize> = (0..=1000).chain(1002..2002).collect();
        assert_eq!(written(&slots), expected);
    }
}

/// Orders 2, 4, 4, 2 of D at 0, with counts, cases and values.
const P11: [(f64, usize, Case, f64); 4] = [
    (2.0, 4, Case::StartOver, -1.0),
    (4.0, 2, Case::Climb, 3.0),
    (4.0, 0, Case::Repeat, 3.0),
    (2.0, 4, Case::StartOver, -1.0),
];

#[test]
fn p11_on_a_ladder() {
    let mut ladder = Ladder::new();
    for (v, count, case, value) in P11 {
        let reply = ladder.d(v, 0.0).unwrap();
        assert_eq!((reply.written, reply.case), (count, case));
        assert!(alike(reply.value, value) && alike(reply.derivative, 0.0));
        assert_eq!(ladder.values().len(), v as usize + 2);
        assert_eq!(ladder.derivatives().len(), v as usize + 1);
    }
}

#[test]
fn p11_on_lent_tables() {
    let (mut values, mut derivatives) = (marked(8), marked(7));
    let mut state = State::EMPTY;
    for (v, count, case, value) in P11 {
        let (values, derivatives) = (&mut values[..6], &mut derivatives[..5]);
        let reply = state.request(Function::D, v, 0.0, values, derivatives);
        let reply = reply.unwrap();
        assert_eq!((reply.written, reply.case), (count, case));
        assert!(alike(reply.value, value) && alike(reply.derivative, 0.0));
        let held = state.held().unwrap();
        assert_eq!((held.function, held.below_zero), (Function::D, false));
        assert_eq!(held.n, v as usize + 1);
        assert!(alike(held.x, 0.0) && alike(held.f, 0.0) && alike(held.value_below, value));
    }
    assert_eq!(written(&values), [0, 1, 2, 3, 4, 5]);
    assert_eq!(written(&derivatives), [0, 1, 2, 3, 4]);
}

#[test]
fn p12_the_order_next_below_1() {
    assert_eq!(rungs_needed(BELOW_ONE), Ok(2));
    let mut ladder = Ladder::new();
    assert_eq!(ladder.d(BELOW_ONE, 0.5).unwrap().written, 3);
    let held = ladder.state().held().unwrap();
    assert_eq!(held.n, 2);
    assert!(alike(held.f, 0.0));
}

/// V with v < 0, no fraction and n = 1 writes value slot 2 too; the ladder does not.
#[test]
fn the_special_slot_of_v() {
    let v = -5e-324;
    let mut slots = marked(6);
    v_table(v, 0.5, &mut slots).unwrap();
    assert_eq!(written(&slots), [0, 1, 2, 3]);
    let mut slots = marked(6);
    d_table(v, 0.5, &mut slots).unwrap();
    assert_eq!(written(&slots), [0, 1, 3]);
    let (mut values, mut derivatives) = (marked(3), marked(2));
    let mut state = State::EMPTY;
    let reply = state.request(Function::V, v, 0.5, &mut values, &mut derivatives);
    assert_eq!(reply.unwrap().written, 2);
    assert_eq!(
        (written(&values), written(&derivatives)),
        (vec![0, 1], vec![0])
    );
}

/// The numbers of the expansion were worked out with 40 digits.
#[test]
fn off_the_ladders_path() {
    let near = |a: f64, b: f64| (a - b).abs() <= 1e-13 * b.abs();
    let pair = d_expansion(-25.0, 3.0).unwrap();
    assert!(near(pair.value, 1.773775869714531e-19));
    assert!(near(pair.derivative, -9.199522091590112e-19));
    let pair = maclaurin(-0.5, 0.5, 1.0, 0.0, 0.0).unwrap();
    assert!(near(pair.value, (-0.0625_f64).exp()));
    assert!(near(pair.derivative, -0.25 * (-0.0625_f64).exp()));
}
