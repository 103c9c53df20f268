//! States from elsewhere: fields that no call hands out, and values of the caller's own choosing.

mod common;

use common::{Generator, bits, marked, written};
use gozhnerim::{Case, Function, RawState, Refusal, State};

/// A state with bits in every field that no call hands out.
fn odd_state() -> RawState {
    RawState {
        function: 7,
        below_zero: 5,
        n: 4_000_000_000,
        reserved: [1, u32::MAX, 3],
        x: f64::from_bits(0x7ff8_0000_0000_0123),
        f: f64::from_bits(0xfff4_0000_0000_0001),
        value_below: -0.0,
        value_top: f64::from_bits(0x7ff0_0000_0000_0bad),
    }
}

/// The state after a request on tables long enough.
fn after(function: Function, v: f64, x: f64) -> RawState {
    let mut state = State::EMPTY;
    let (mut values, mut derivatives) = (marked(1001), marked(1000));
    state
        .request(function, v, x, &mut values, &mut derivatives)
        .unwrap();
    state.to_raw()
}

/// The case of a request on a raw state, and the state after it.
fn ask(raw: RawState, function: Function, v: f64, x: f64) -> (Case, RawState) {
    let mut state = State::from_raw(raw);
    let (mut values, mut derivatives) = (marked(1001), marked(1000));
    let reply = state.request(function, v, x, &mut values, &mut derivatives);
    (reply.unwrap().case, state.to_raw())
}

#[test]
fn a_refusal_leaves_any_state_and_tables_as_they_came() {
    let (mut values, mut derivatives) = (marked(8), marked(8));
    let odd = odd_state();
    let refused = [
        (f64::NAN, 8, 8, Refusal::NotANumber),
        (1e300, 8, 8, Refusal::OrderTooLarge),
        (2.0, 3, 8, Refusal::TableTooShort),
        (2.0, 8, 2, Refusal::TableTooShort),
        (2.0, 0, 0, Refusal::TableTooShort),
    ];
    for function in [Function::D, Function::V] {
        for (v, value_slots, derivative_slots, refusal) in refused {
            let mut state = State::from_raw(odd);
            let (a, b) = (
                &mut values[..value_slots],
                &mut derivatives[..derivative_slots],
            );
            assert_eq!(state.request(function, v, 0.0, a, b), Err(refusal));
            assert_eq!(bits(&state.to_raw()), bits(&odd));
        }
    }
    assert!(written(&values).is_empty() && written(&derivatives).is_empty());
}

#[test]
fn a_repeat_tests_the_tables_lengths_too() {
    let mut state = State::from_raw(after(Function::D, 2.0, 0.0));
    let short = state.request(Function::D, 2.0, 0.0, &mut marked(3), &mut marked(3));
    assert_eq!(short, Err(Refusal::TableTooShort));
}

#[test]
fn unknown_functions_are_empty_where_all_else_fits() {
    let mut raw = after(Function::V, -2.25, 1.0);
    for function in 0..5 {
        raw.function = function;
        assert_eq!(State::from_raw(raw).is_empty(), !matches!(function, 1 | 2));
        let expected = if function == 2 {
            Case::Repeat
        } else {
            Case::StartOver
        };
        assert_eq!(ask(raw, Function::V, -2.25, 1.0).0, expected);
    }
}

#[test]
fn malformed_states_count_as_empty() {
    let good = after(Function::D, 4.5, 1.0);
    assert_eq!(ask(good, Function::D, 4.5, 1.0).0, Case::Repeat);
    let changes: [fn(&mut RawState); 9] = [
        |raw| raw.n = 0,
        |raw| raw.n = 1001,
        |raw| raw.n += 1 << 16,
        |raw| raw.n = u32::MAX,
        |raw| raw.x = f64::NAN,
        |raw| raw.f = f64::NAN,
        |raw| raw.f = 1.0,
        |raw| raw.f = -1.5,
        |raw| raw.f = f64::INFINITY,
    ];
    for change in changes {
        let mut raw = good;
        change(&mut raw);
        let state = State::from_raw(raw);
        assert!(state.is_empty() && state.held().is_none(), "{raw:?}");
        let (case, next) = ask(raw, Function::D, 4.5, 1.0);
        assert_eq!(case, Case::StartOver, "{raw:?}");
        assert_eq!(bits(&next), bits(&good));
    }
    let (case, next) = ask(odd_state(), Function::D, 4.5, 1.0);
    assert_eq!(case, Case::StartOver);
    assert_eq!(bits(&next), bits(&good));
}

#[test]
fn below_zero_above_1_counts_as_1_and_no_request_looks_at_reserved() {
    let good = after(Function::D, -3.25, -1.0);
    let mut raw = good;
    raw.below_zero = 5;
    raw.reserved[1] = u32::MAX;
    let (case, next) = ask(raw, Function::D, -3.25, -1.0);
    assert_eq!(case, Case::Repeat);
    assert_eq!(bits(&next), bits(&good));
    let (case, next) = ask(raw, Function::D, -5.25, -1.0);
    assert_eq!(case, Case::Climb);
    assert_eq!((next.below_zero, next.reserved), (1, [0; 3]));
}

/// Rung 4 of D at order 0 + 4 and x = 2 is 2·7 − 3·5.
#[test]
fn a_climb_goes_on_from_the_two_values_given() {
    let mut raw = after(Function::D, 2.0, 2.0);
    raw.value_below = 5.0;
    raw.value_top = 7.0;
    let mut state = State::from_raw(raw);
    let (mut values, mut derivatives) = (marked(6), marked(5));
    let reply = state.request(Function::D, 3.0, 2.0, &mut values, &mut derivatives);
    let reply = reply.unwrap();
    assert_eq!(
        (reply.case, reply.written, reply.value),
        (Case::Climb, 1, 7.0)
    );
    assert_eq!((state.to_raw().value_top, values[4]), (-1.0, -1.0));
    assert_eq!(
        (written(&values), written(&derivatives)),
        (vec![4], vec![3])
    );
}

/// Random bits in every field: `is_empty` foretells whether the library takes a state for empty,
/// and no call panics.
#[test]
fn random_states() {
    let mut generator = Generator::new(9);
    let mut repeats = 0;
    for _ in 0..20_000 {
        let function = generator.function();
        let v = generator.one_of(&[0.25, 2.25, 5.25, -2.25, -5.25]);
        let x = generator.one_of(&[0.5, -0.5, -0.0]);
        let mut raw = after(function, v, x);
        match generator.below(7) {
            0 => raw.function = generator.below(5) as u32,
            1 => raw.n = generator.below(2003) as u32,
            2 => raw.x = f64::from_bits(generator.next()),
            3 => raw.f = f64::from_bits(generator.next()),
            4 => raw.value_top = f64::from_bits(generator.next()),
            5 => raw.below_zero = generator.next() as u32,
            _ => raw.reserved[0] = generator.next() as u32,
        }
        let (case, next) = ask(raw, function, v, x);
        if case != Case::StartOver {
            assert!(!State::from_raw(raw).is_empty(), "{raw:?}");
        }
        repeats += u32::from(case == Case::Repeat);
        assert!(!State::from_raw(next).is_empty());
        assert_eq!(next.reserved, [0; 3]);
    }
    assert!(repeats > 1000);
}
