//! Both halves of D: tables at x and at −x.

use crate::{Column, Refusal, rungs_needed, slots_needed};

/// Whether `at_minus_x`, rung k of a column at −x, mirrors `at_x`, the same rung at x.
///
/// D of a whole order k from 0 on is even where k is even and odd where k is odd, and its derivative
/// the other way round ([DLMF 12.7](https://dlmf.nist.gov/12.7)). So value k at −x has to be (−1)^k
/// times value k at x, and derivative k (−1)^(k+1) times derivative k at x: exactly, infinities with
/// their signs. Zeros of either sign are equal, and NaN has to be exactly where the other is NaN.
///
/// ```
/// use gozhnerim::{Column, is_mirrored};
///
/// assert!(is_mirrored(Column::Values, 1, 0.5, -0.5));
/// assert!(is_mirrored(Column::Derivatives, 1, 0.5, 0.5));
/// assert!(is_mirrored(Column::Values, 1, 0.0, 0.0));
/// assert!(is_mirrored(Column::Values, 1, f64::NAN, f64::NAN));
/// assert!(!is_mirrored(Column::Values, 1, f64::NAN, 0.5));
/// ```
#[must_use]
pub fn is_mirrored(column: Column, k: usize, at_x: f64, at_minus_x: f64) -> bool {
    let is_odd = k % 2 == 1;
    let opposite = match column {
        Column::Values => is_odd,
        Column::Derivatives => !is_odd,
    };
    let mirror = if opposite { -at_x } else { at_x };
    at_minus_x == mirror || (at_minus_x.is_nan() && at_x.is_nan())
}

/// The rungs that are not mirrored ([`is_mirrored`]) in two tables of D of a whole order, one at x
/// and one at −x: by rising number, and of a rung the value before the derivative.
///
/// There are none in what [`d_table`](crate::d_table) writes for a whole order from 0 to 999 at x
/// and at −x: of the library this is proved, for every x but NaN, through overflow too. What is found
/// came from outside: from damaged memory, from another part that wrote to a slot, or from a table
/// of another order or argument. This function itself is tested, not proved.
///
/// # Errors
///
/// Refusal 2 where the order is 1000 or more, 3 where a table has fewer slots than
/// [`slots_needed`] says.
///
/// ```
/// use gozhnerim::{Column, Refusal, d_table, unmirrored};
///
/// let (mut at_x, mut at_minus_x) = ([0.0; 12], [0.0; 12]);
/// d_table(3.0, 0.5, &mut at_x)?;
/// d_table(3.0, -0.5, &mut at_minus_x)?;
/// assert_eq!(unmirrored(3, &at_x, &at_minus_x), Ok(vec![]));
///
/// at_minus_x[2] = -at_minus_x[2];
/// assert_eq!(unmirrored(3, &at_x, &at_minus_x), Ok(vec![(Column::Values, 2)]));
///
/// assert_eq!(unmirrored(4, &at_x, &at_minus_x), Err(Refusal::TableTooShort));
/// # Ok::<(), Refusal>(())
/// ```
pub fn unmirrored(
    order: u32,
    at_x: &[f64],
    at_minus_x: &[f64],
) -> Result<Vec<(Column, usize)>, Refusal> {
    let v = f64::from(order);
    let (n, slots) = (rungs_needed(v)?, slots_needed(v)?);
    if at_x.len().min(at_minus_x.len()) < slots {
        return Err(Refusal::TableTooShort);
    }
    let num = slots / 2;
    let rung = |column: Column, k: usize, slot: usize| {
        (!is_mirrored(column, k, at_x[slot], at_minus_x[slot])).then_some((column, k))
    };
    let mut found = Vec::new();
    for k in 0..=n {
        found.extend(rung(Column::Values, k, k));
        if k < n {
            found.extend(rung(Column::Derivatives, k, num + k));
        }
    }
    Ok(found)
}
