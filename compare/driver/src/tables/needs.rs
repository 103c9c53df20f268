//! What the library tells of an order, against the source's buffer and the scope paper's split.

use source::entry::alloc_buf;

use super::split::Split;
use super::{number_difference, requests, whole_difference};
use crate::comparing::{Comparable, Difference, Tally};

mod library {
    use super::Order;

    unsafe extern "C" {
        pub safe fn gozhnerim_split(v: f64) -> Order;
    }
}

/// What a request for an order needs; with a refusal 0 in every other number, and NaN for f.
#[repr(C)]
#[derive(Clone, Copy)]
struct Order {
    refusal: u32,
    below_zero: u32,
    n: u32,
    num: u32,
    table_slots: usize,
    value_slots: usize,
    derivative_slots: usize,
    f: f64,
}

/// Compares the library over the orders of `count` requests for table calls.
pub fn compare(tally: &mut Tally, count: usize, seed: u64) {
    let orders = requests::requests(count, seed).map(|request| request.v);
    tally.count("split", orders, |&v| {
        difference(v, &library::gozhnerim_split(v))
    });
}

fn expected(v: f64) -> Order {
    let refused = |refusal| Order {
        refusal,
        below_zero: 0,
        n: 0,
        num: 0,
        table_slots: 0,
        value_slots: 0,
        derivative_slots: 0,
        f: f64::NAN,
    };
    if v.is_nan() {
        return refused(1);
    }
    let Some((buffer, num)) = alloc_buf(v) else {
        return refused(2);
    };
    let Split { f, n, .. } = Split::of(v);
    Order {
        refusal: 0,
        below_zero: u32::from(v < 0.0),
        n: n as u32,
        num: num as u32,
        table_slots: buffer.len(),
        value_slots: n + 1,
        derivative_slots: n,
        f,
    }
}

fn difference(v: f64, ours: &Order) -> Option<Difference> {
    let rust = expected(v);
    let slots = |order: &Order| {
        let Order {
            table_slots,
            value_slots,
            derivative_slots,
            ..
        } = *order;
        [table_slots, value_slots, derivative_slots].map(|slots| slots as u32)
    };
    let ([table, values, derivatives], rust_slots) = (slots(ours), slots(&rust));
    let wholes = [
        ("refusal", ours.refusal, rust.refusal),
        ("below_zero", ours.below_zero, rust.below_zero),
        ("n", ours.n, rust.n),
        ("num", ours.num, rust.num),
        ("table_slots", table, rust_slots[0]),
        ("value_slots", values, rust_slots[1]),
        ("derivative_slots", derivatives, rust_slots[2]),
    ];
    let difference = wholes
        .into_iter()
        .find_map(|(name, ours, rust)| whole_difference(name, ours, rust))
        .or_else(|| number_difference([("f", ours.f, rust.f)]))?;
    Some((format!("v {}", v.show()), difference))
}

#[cfg(test)]
mod tests {
    use super::{Order, difference, expected};

    #[test]
    fn wrong_splits_are_seen() {
        let changes: [fn(&mut Order); 8] = [
            |order| order.refusal += 1,
            |order| order.below_zero ^= 1,
            |order| order.n += 1,
            |order| order.num += 1,
            |order| order.table_slots += 1,
            |order| order.value_slots += 1,
            |order| order.derivative_slots += 1,
            |order| order.f += 0.5,
        ];
        for v in [0.0, -0.0, 2.5, -2.5, 1.0_f64.next_down(), 999.5] {
            assert!(difference(v, &expected(v)).is_none());
            for change in changes {
                let mut wrong = expected(v);
                change(&mut wrong);
                assert!(difference(v, &wrong).is_some());
            }
        }
        assert_eq!(expected(1000.0).refusal, 2);
        assert_eq!(expected(f64::NAN).refusal, 1);
    }
}
