//! Every refusal through every call, and the lengths of tables at the edges.

mod common;

use common::{BELOW_ONE, TABLE_SLOTS, marked, table, written};
use gozhnerim::{
    Function, Ladder, Refusal, State, d_expansion, maclaurin, rung_order, rungs_needed,
    slots_needed,
};

const BOTH: [Function; 2] = [Function::D, Function::V];
const NAN: f64 = f64::NAN;
const INFINITY: f64 = f64::INFINITY;

/// Orders at which the split or the length changes, with both signs.
fn edge_orders() -> Vec<f64> {
    let mut orders = vec![0.0, 5e-324, 0.5, BELOW_ONE, f64::MIN_POSITIVE, 1e-17];
    for whole in [1.0, 2.0, 3.0, 4.0, 255.0, 256.0, 511.0, 512.0, 998.0, 999.0] {
        orders.extend([f64::next_down(whole), whole, f64::next_up(whole)]);
    }
    orders.extend([999.5, f64::next_down(1000.0)]);
    let negative: Vec<f64> = orders.iter().map(|v| -v).collect();
    orders.extend(negative);
    orders
}

#[test]
fn slots_needed_is_where_the_library_begins_to_answer() {
    let mut slots = marked(TABLE_SLOTS);
    for v in edge_orders() {
        let needed = slots_needed(v).unwrap();
        for function in BOTH {
            let short = table(function, v, 0.5, &mut slots[..needed - 1]);
            assert_eq!(short, Err(Refusal::TableTooShort), "{v:?}");
            let enough = table(function, v, 0.5, &mut slots[..needed]);
            assert!(enough.is_ok(), "{v:?}");
        }
    }
}

#[test]
fn rungs_needed_is_where_a_ladder_begins_to_answer() {
    for v in edge_orders() {
        let n = rungs_needed(v).unwrap();
        for function in BOTH {
            let mut state = State::EMPTY;
            let mut ask = |values: usize, derivatives: usize| {
                let (mut values, mut derivatives) = (marked(values), marked(derivatives));
                state.request(function, v, 0.5, &mut values, &mut derivatives)
            };
            assert_eq!(ask(n, n), Err(Refusal::TableTooShort), "{v:?}");
            assert_eq!(ask(n + 1, n - 1), Err(Refusal::TableTooShort), "{v:?}");
            assert_eq!(ask(n + 1, n).unwrap().written, n + 1, "{v:?}");
            assert_eq!(state.held().unwrap().n, n);
        }
    }
}

#[test]
fn the_rung_below_the_top_has_the_order_asked_for() {
    for v in edge_orders() {
        let n = rungs_needed(v).unwrap();
        let order = rung_order(v, n - 1).unwrap();
        assert!((order - v).abs() <= 1e-12, "{v:?} {order:?}");
        let held = {
            let mut ladder = Ladder::new();
            ladder.d(v, 0.5).unwrap();
            ladder.state().held().unwrap()
        };
        assert_eq!(rung_order(v, 0).unwrap().to_bits(), held.f.to_bits());
    }
}

#[test]
fn helpers_refuse_orders_as_the_library_does() {
    let mut slots = marked(TABLE_SLOTS);
    for v in [NAN, -NAN, 1000.0, -1000.0, 1e300, INFINITY, -INFINITY] {
        let refusal = slots_needed(v).unwrap_err();
        assert_eq!(rungs_needed(v), Err(refusal));
        assert_eq!(rung_order(v, 0), Err(refusal));
        for function in BOTH {
            assert_eq!(table(function, v, 0.5, &mut slots), Err(refusal));
            assert_eq!(Ladder::new().request(function, v, 0.5), Err(refusal));
        }
    }
    assert!(written(&slots).is_empty());
}

#[test]
fn table_refusals_go_by_rising_number() {
    for function in BOTH {
        let refusal = |v, x, len| table(function, v, x, &mut marked(len)).unwrap_err();
        assert_eq!(refusal(NAN, 0.0, 6), Refusal::NotANumber);
        assert_eq!(refusal(0.0, NAN, 6), Refusal::NotANumber);
        assert_eq!(refusal(INFINITY, NAN, 0), Refusal::NotANumber);
        assert_eq!(refusal(INFINITY, 0.0, 0), Refusal::OrderTooLarge);
        assert_eq!(refusal(0.0, 0.0, 0), Refusal::TableTooShort);
        assert!(table(function, 0.0, INFINITY, &mut marked(6)).is_ok());
    }
}

#[test]
fn expansion_and_series_refusals() {
    let expansion = |v, x| d_expansion(v, x).unwrap_err();
    assert_eq!(expansion(-25.0, NAN), Refusal::NotANumber);
    assert_eq!(expansion(NAN, INFINITY), Refusal::NotANumber);
    let next_above = f64::next_up(-20.0);
    for v in [next_above, -19.5, 0.0, 25.0, -2147483648.0, -INFINITY] {
        assert_eq!(expansion(v, INFINITY), Refusal::OrderOutsideExpansion);
    }
    assert_eq!(expansion(-25.0, -INFINITY), Refusal::Infinite);
    assert!(d_expansion(-20.0, 3.0).is_ok());
    assert!(d_expansion(-2147483647.5, 3.0).is_ok());

    let inputs = [-0.5, 0.5, 1.0, 0.0, 0.0];
    let series = |[a, x, c0, c1, e]: [f64; 5]| maclaurin(a, x, c0, c1, e);
    assert!(series(inputs).is_ok());
    for place in 0..inputs.len() {
        let mut changed = inputs;
        changed[place] = -INFINITY;
        assert_eq!(series(changed), Err(Refusal::Infinite));
        changed[(place + 1) % inputs.len()] = NAN;
        assert_eq!(series(changed), Err(Refusal::NotANumber));
    }
}

#[test]
fn a_refusal_is_an_error_that_threads_can_pass_on() {
    fn passes<T: std::error::Error + Send + Sync + 'static>(_: T) {}
    passes(Refusal::NotANumber);
    fn moves<T: Send + Sync>(_: T) {}
    moves((Ladder::new(), State::EMPTY));
}
