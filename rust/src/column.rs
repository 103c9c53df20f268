//! The column reader, and how a column is named.

use crate::c;

/// One of the two columns of a ladder.
///
/// ```
/// use gozhnerim::{Column, Ladder};
///
/// let mut ladder = Ladder::new();
/// ladder.d(2.0, 0.0)?;
/// assert_eq!(ladder.column(Column::Values, 3), [1.0, 0.0, -1.0]);
/// assert_eq!(ladder.column(Column::Derivatives, 3), ladder.derivatives());
/// # Ok::<(), gozhnerim::Refusal>(())
/// ```
#[derive(Clone, Copy, Debug, PartialEq, Eq, Hash)]
pub enum Column {
    /// The values, rung k in slot k.
    Values,
    /// The derivatives, rung k in slot k.
    Derivatives,
}

impl Column {
    /// The column's table, one of a ladder's two, and its number in the C interface.
    pub(crate) fn of<'a>(self, values: &'a [f64], derivatives: &'a [f64]) -> (&'a [f64], u32) {
        match self {
            Column::Values => (values, 1),
            Column::Derivatives => (derivatives, 2),
        }
    }
}

/// The first c slots of one of a ladder's two tables, or an empty slice where c exceeds its length.
///
/// ```
/// use gozhnerim::{Column, column};
///
/// let (values, derivatives) = ([1.0, 2.0, 3.0], [4.0, 5.0]);
/// assert_eq!(column(&values, &derivatives, Column::Values, 2), [1.0, 2.0]);
/// assert_eq!(column(&values, &derivatives, Column::Derivatives, 2), [4.0, 5.0]);
/// assert!(column(&values, &derivatives, Column::Derivatives, 3).is_empty());
/// ```
#[must_use]
pub fn column<'a>(values: &'a [f64], derivatives: &'a [f64], which: Column, c: usize) -> &'a [f64] {
    let (named, number) = which.of(values, derivatives);
    let lent = c::column(values, derivatives, number, c);
    named.get(..lent).unwrap_or(&[])
}
