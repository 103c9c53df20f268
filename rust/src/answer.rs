//! The requests that hold nothing: the table calls, the expansion and the series.

use crate::{Function, Refusal, c};

/// A function and its derivative with respect to x, at one order and argument.
///
/// ```
/// use gozhnerim::{Pair, d_table};
///
/// let Pair { value, derivative } = d_table(1.0, 0.0, &mut [0.0; 8])?;
/// assert_eq!((value, derivative), (0.0, 1.0));
/// # Ok::<(), gozhnerim::Refusal>(())
/// ```
#[derive(Clone, Copy, Debug, PartialEq)]
pub struct Pair {
    /// The function.
    pub value: f64,
    /// Its derivative with respect to x.
    pub derivative: f64,
}

impl From<Pair> for (f64, f64) {
    /// Value and derivative.
    ///
    /// ```
    /// use gozhnerim::d_table;
    ///
    /// let (value, derivative) = d_table(1.0, 0.0, &mut [0.0; 8])?.into();
    /// assert_eq!((value, derivative), (0.0, 1.0));
    /// # Ok::<(), gozhnerim::Refusal>(())
    /// ```
    fn from(pair: Pair) -> Self {
        (pair.value, pair.derivative)
    }
}

fn pair(answer: c::Answer) -> Result<Pair, Refusal> {
    match Refusal::from_number(answer.refusal) {
        Some(refusal) => Err(refusal),
        None => Ok(Pair {
            value: answer.value,
            derivative: answer.derivative,
        }),
    }
}

/// D of order v and those below it, at x, into `table`.
///
/// With num = [`slots_needed`](crate::slots_needed)(v) / 2 and n =
/// [`rungs_needed`](crate::rungs_needed)(v), value k goes to slot k for k from 0 to n, and
/// derivative k to slot num + k for k from 0 to n − 1. All other slots stay as they are, and what
/// the slots held before plays no part. The answer is rung n − 1 of both.
///
/// D is defined in [DLMF 12.1](https://dlmf.nist.gov/12.1); the rungs are tied by the recurrences
/// and derivative formulas of [DLMF 12.8](https://dlmf.nist.gov/12.8).
///
/// # Errors
///
/// Refusal 1 where v or x is NaN, 2 where the size of v is 1000 or more, 3 where the table has
/// fewer than `slots_needed(v)` slots.
///
/// ```
/// use gozhnerim::{d_table, slots_needed};
///
/// let mut table = vec![0.0; slots_needed(2.0)?];
/// let pair = d_table(2.0, 0.0, &mut table)?;
/// assert_eq!((pair.value, pair.derivative), (-1.0, 0.0));
/// assert_eq!(table[..4], [1.0, 0.0, -1.0, -0.0]);
/// # Ok::<(), gozhnerim::Refusal>(())
/// ```
pub fn d_table(v: f64, x: f64, table: &mut [f64]) -> Result<Pair, Refusal> {
    pair(c::table(Function::D, v, x, table))
}

/// V of order v and those below it, at x, into `table`: as [`d_table`] does for D.
///
/// With v < 0, n = 1 and no fraction, value slot 2 is written too.
///
/// V is defined in [DLMF 12.1](https://dlmf.nist.gov/12.1) and
/// [DLMF 12.2](https://dlmf.nist.gov/12.2); the recurrences are in
/// [DLMF 12.8](https://dlmf.nist.gov/12.8).
///
/// # Errors
///
/// Those of [`d_table`].
///
/// ```
/// use gozhnerim::v_table;
///
/// let pair = v_table(-1.0, 0.0, &mut [0.0; 8])?;
/// assert_eq!((pair.value, pair.derivative), (0.7978845608028654, 0.0));
/// # Ok::<(), gozhnerim::Refusal>(())
/// ```
pub fn v_table(v: f64, x: f64, table: &mut [f64]) -> Result<Pair, Refusal> {
    pair(c::table(Function::V, v, x, table))
}

/// D of order v at x, by the expansion for large negative orders,
/// [DLMF 12.10](https://dlmf.nist.gov/12.10).
///
/// # Errors
///
/// Refusal 1 where v or x is NaN, 4 where not −2147483648 < v ≤ −20, 5 where x is infinite.
///
/// ```
/// use gozhnerim::d_expansion;
///
/// let pair = d_expansion(-25.0, 3.0)?;
/// assert!((pair.value - 1.773775869714531e-19).abs() < 1e-32);
/// assert!((pair.derivative + 9.199522091590112e-19).abs() < 1e-31);
/// # Ok::<(), gozhnerim::Refusal>(())
/// ```
pub fn d_expansion(v: f64, x: f64) -> Result<Pair, Refusal> {
    pair(c::d_expansion(v, x))
}

/// The solution w of w″ = (x²/4 + a)·w with w(0) = c0·exp(e) and w′(0) = c1·exp(e), and its
/// derivative, at x, by the series at 0, [DLMF 12.4](https://dlmf.nist.gov/12.4).
///
/// # Errors
///
/// Refusal 1 where an input is NaN, 5 where one is infinite.
///
/// ```
/// use gozhnerim::maclaurin;
///
/// // With a = -1/2, w(0) = 1 and w'(0) = 0 it is D of order 0: exp(-x * x / 4).
/// let pair = maclaurin(-0.5, 0.5, 1.0, 0.0, 0.0)?;
/// assert!((pair.value - (-0.0625_f64).exp()).abs() < 1e-15);
/// # Ok::<(), gozhnerim::Refusal>(())
/// ```
pub fn maclaurin(a: f64, x: f64, c0: f64, c1: f64, e: f64) -> Result<Pair, Refusal> {
    pair(c::maclaurin(a, x, c0, c1, e))
}
