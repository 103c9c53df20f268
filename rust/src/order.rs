//! How an order is split, and what follows from it: lengths of tables and the orders of rungs.

use crate::{Refusal, c};

/// The split of an order that is not refused.
fn split(v: f64) -> Result<c::Order, Refusal> {
    let order = c::split(v);
    match Refusal::from_number(order.refusal) {
        Some(refusal) => Err(refusal),
        None => Ok(order),
    }
}

/// How many slots [`d_table`](crate::d_table) and [`v_table`](crate::v_table) need for order v:
/// 2·num, num being the whole part of the size of v, plus 3.
///
/// 2004 slots do for every order that is not refused.
///
/// # Errors
///
/// Refusal 1 where v is NaN, 2 where its size is 1000 or more.
///
/// ```
/// use gozhnerim::{Refusal, slots_needed};
///
/// assert_eq!(slots_needed(0.0), Ok(6));
/// assert_eq!(slots_needed(-2.5), Ok(10));
/// assert_eq!(slots_needed(999.5), Ok(2004));
/// assert_eq!(slots_needed(1000.0), Err(Refusal::OrderTooLarge));
/// ```
pub fn slots_needed(v: f64) -> Result<usize, Refusal> {
    Ok(split(v)?.table_slots)
}

/// n, the top rung of a request for order v: the whole part of the size of v + 1 (v ≥ 0) or v − 1
/// (v < 0), rounded. It is at least 1 and at most 1000.
///
/// A ladder request needs n + 1 value slots and n derivative slots.
///
/// # Errors
///
/// Refusal 1 where v is NaN, 2 where its size is 1000 or more.
///
/// ```
/// use gozhnerim::rungs_needed;
///
/// assert_eq!(rungs_needed(2.5), Ok(3));
/// assert_eq!(rungs_needed(-2.5), Ok(3));
/// // The order next below 1: its shifted order rounds to 2.
/// assert_eq!(rungs_needed(1.0_f64.next_down()), Ok(2));
/// ```
pub fn rungs_needed(v: f64) -> Result<usize, Refusal> {
    Ok(split(v)?.n as usize)
}

/// The order of rung k in a request for order v, rounded: f + k (v ≥ 0) or f − k (v < 0), f being
/// the fraction of the shifted order. Rung n − 1 has order v, up to the rounding of the shifted
/// order.
///
/// # Errors
///
/// Refusal 1 where v is NaN, 2 where its size is 1000 or more.
///
/// ```
/// use gozhnerim::rung_order;
///
/// assert_eq!(rung_order(2.5, 0), Ok(0.5));
/// assert_eq!(rung_order(2.5, 2), Ok(2.5));
/// assert_eq!(rung_order(-2.5, 2), Ok(-2.5));
/// ```
pub fn rung_order(v: f64, k: usize) -> Result<f64, Refusal> {
    let order = split(v)?;
    Ok(match order.below_zero {
        0 => order.f + k as f64,
        _ => order.f - k as f64,
    })
}
