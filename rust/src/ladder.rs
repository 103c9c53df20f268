//! A ladder that owns its tables.

use crate::{Column, Function, Refusal, Reply, State, column, rungs_needed};

/// A ladder with its two tables: it holds the rungs of the last accepted request and climbs when a
/// higher order comes.
///
/// The tables grow as a request needs it, so that refusal 3 never happens. It answers as
/// [`d_table`](crate::d_table) and [`v_table`](crate::v_table) would, with the same bits or both
/// NaN. The recurrences are those of [DLMF 12.8](https://dlmf.nist.gov/12.8).
///
/// ```
/// use gozhnerim::{Case, Ladder};
///
/// let mut ladder = Ladder::new();
/// ladder.d(2.0, 0.0)?;
/// let reply = ladder.d(4.0, 0.0)?;
/// assert_eq!((reply.value, reply.derivative), (3.0, 0.0));
/// assert_eq!((reply.written, reply.case), (2, Case::Climb));
/// assert_eq!(ladder.values(), [1.0, 0.0, -1.0, -0.0, 3.0, 0.0]);
/// # Ok::<(), gozhnerim::Refusal>(())
/// ```
#[derive(Clone, Debug, Default)]
pub struct Ladder {
    state: State,
    values: Vec<f64>,
    derivatives: Vec<f64>,
}

impl Ladder {
    /// A ladder that holds nothing.
    ///
    /// ```
    /// let ladder = gozhnerim::Ladder::new();
    /// assert!(ladder.values().is_empty() && ladder.state().is_empty());
    /// ```
    #[must_use]
    pub fn new() -> Self {
        Ladder::default()
    }

    /// A request for a function of order v at x.
    ///
    /// # Errors
    ///
    /// Refusal 1 where v or x is NaN, 2 where the size of v is 1000 or more. The ladder then holds
    /// what it held.
    ///
    /// ```
    /// use gozhnerim::{Case, Function, Ladder};
    ///
    /// let mut ladder = Ladder::new();
    /// ladder.request(Function::V, -3.25, 1.5)?;
    /// let reply = ladder.request(Function::V, -5.25, 1.5)?;
    /// assert_eq!((reply.written, reply.case), (2, Case::Climb));
    /// # Ok::<(), gozhnerim::Refusal>(())
    /// ```
    pub fn request(&mut self, function: Function, v: f64, x: f64) -> Result<Reply, Refusal> {
        let reply = self.request_once(function, v, x);
        if reply != Err(Refusal::TableTooShort) {
            return reply;
        }
        self.grow(rungs_needed(v)?);
        self.request_once(function, v, x)
    }

    /// A request on the tables as long as they are.
    fn request_once(&mut self, function: Function, v: f64, x: f64) -> Result<Reply, Refusal> {
        let (values, derivatives) = (&mut self.values, &mut self.derivatives);
        self.state.request(function, v, x, values, derivatives)
    }

    /// A request for D of order v at x, [DLMF 12.1](https://dlmf.nist.gov/12.1).
    ///
    /// # Errors
    ///
    /// Those of [`Ladder::request`].
    ///
    /// ```
    /// let reply = gozhnerim::Ladder::new().d(1.0, 0.0)?;
    /// assert_eq!((reply.value, reply.derivative), (0.0, 1.0));
    /// # Ok::<(), gozhnerim::Refusal>(())
    /// ```
    pub fn d(&mut self, v: f64, x: f64) -> Result<Reply, Refusal> {
        self.request(Function::D, v, x)
    }

    /// A request for V of order v at x, [DLMF 12.1](https://dlmf.nist.gov/12.1).
    ///
    /// # Errors
    ///
    /// Those of [`Ladder::request`].
    ///
    /// ```
    /// let reply = gozhnerim::Ladder::new().v(-1.0, 0.0)?;
    /// assert_eq!((reply.value, reply.derivative), (0.7978845608028654, 0.0));
    /// # Ok::<(), gozhnerim::Refusal>(())
    /// ```
    pub fn v(&mut self, v: f64, x: f64) -> Result<Reply, Refusal> {
        self.request(Function::V, v, x)
    }

    /// The values of the rungs held, 0 to n; empty where the ladder holds nothing.
    ///
    /// ```
    /// let mut ladder = gozhnerim::Ladder::new();
    /// ladder.d(2.0, 0.0)?;
    /// assert_eq!(ladder.values(), [1.0, 0.0, -1.0, -0.0]);
    /// # Ok::<(), gozhnerim::Refusal>(())
    /// ```
    #[must_use]
    pub fn values(&self) -> &[f64] {
        let slots = self.state.held().map_or(0, |held| held.n + 1);
        &self.values[..slots]
    }

    /// The derivatives of the rungs held, 0 to n − 1; empty where the ladder holds nothing.
    ///
    /// ```
    /// let mut ladder = gozhnerim::Ladder::new();
    /// let reply = ladder.d(2.0, 0.0)?;
    /// assert_eq!(ladder.derivatives().len(), 3);
    /// assert_eq!(ladder.derivatives()[2], reply.derivative);
    /// # Ok::<(), gozhnerim::Refusal>(())
    /// ```
    #[must_use]
    pub fn derivatives(&self) -> &[f64] {
        let slots = self.state.held().map_or(0, |held| held.n);
        &self.derivatives[..slots]
    }

    /// The first c rungs held of a column; empty where it has fewer.
    ///
    /// ```
    /// use gozhnerim::{Column, Ladder};
    ///
    /// let mut ladder = Ladder::new();
    /// ladder.d(2.0, 0.0)?;
    /// assert_eq!(ladder.column(Column::Values, 2), [1.0, 0.0]);
    /// assert!(ladder.column(Column::Values, 5).is_empty());
    /// # Ok::<(), gozhnerim::Refusal>(())
    /// ```
    #[must_use]
    pub fn column(&self, which: Column, c: usize) -> &[f64] {
        column(self.values(), self.derivatives(), which, c)
    }

    /// The tested reader: all rungs held of a column, lent only where both tables still hold what
    /// they have to. [`State::tested`] says how that is tested.
    ///
    /// # Errors
    ///
    /// Refusal 6 where the ladder holds nothing or its branch does not run forward, 7 where a rung
    /// differs. No part of a Rust program that keeps to safe code can write to the tables, so 7 means
    /// damaged memory or other code at fault.
    ///
    /// ```
    /// use gozhnerim::{Column, Ladder, Refusal};
    ///
    /// let mut ladder = Ladder::new();
    /// ladder.d(2.0, 0.0)?;
    /// assert_eq!(ladder.tested(Column::Values)?, [1.0, 0.0, -1.0, -0.0]);
    ///
    /// // D of an order below 0 runs forward only up to x = 0.
    /// ladder.d(-2.5, 1.0)?;
    /// assert_eq!(ladder.tested(Column::Values), Err(Refusal::NotForward));
    /// # Ok::<(), Refusal>(())
    /// ```
    pub fn tested(&self, which: Column) -> Result<&[f64], Refusal> {
        self.state.tested(&self.values, &self.derivatives, which)
    }

    /// A copy of the state.
    ///
    /// ```
    /// let mut ladder = gozhnerim::Ladder::new();
    /// ladder.d(2.5, 1.0)?;
    /// assert_eq!(ladder.state().held().unwrap().n, 3);
    /// # Ok::<(), gozhnerim::Refusal>(())
    /// ```
    #[must_use]
    pub fn state(&self) -> State {
        self.state
    }

    /// Makes the ladder hold nothing. The tables keep their memory.
    ///
    /// ```
    /// let mut ladder = gozhnerim::Ladder::new();
    /// ladder.d(2.5, 1.0)?;
    /// ladder.clear();
    /// assert!(ladder.values().is_empty());
    /// # Ok::<(), gozhnerim::Refusal>(())
    /// ```
    pub fn clear(&mut self) {
        self.state = State::EMPTY;
    }

    /// Makes the tables long enough for top rung n, and longer, so that a climb rung by rung seldom
    /// comes back. The slots that there are keep what they hold.
    fn grow(&mut self, n: usize) {
        let slots = (n + 1).next_power_of_two();
        for table in [&mut self.values, &mut self.derivatives] {
            table.resize(slots.max(table.len()), 0.0);
        }
    }
}

#[cfg(test)]
mod tests {
    use super::*;

    /// Changes one slot after the other of a ladder's own tables, as no caller can.
    #[test]
    fn a_damaged_table_is_refused_and_a_start_over_repairs_it() {
        let mut whole = Ladder::new();
        for v in [2.5, 4.5, 7.5] {
            whole.d(v, 1.5).unwrap();
        }
        let refused = Err(Refusal::RungDiffers);
        let (values, derivatives) = (whole.values().len(), whole.derivatives().len());
        for slot in 0..values + derivatives {
            let mut ladder = whole.clone();
            match slot.checked_sub(values) {
                None => ladder.values[slot] += 1.0,
                Some(slot) => ladder.derivatives[slot] += 1.0,
            }
            assert_eq!(ladder.tested(Column::Values), refused, "slot {slot}");
            assert_eq!(ladder.tested(Column::Derivatives), refused, "slot {slot}");
            ladder.d(9.5, 1.5).unwrap();
            assert_eq!(ladder.tested(Column::Values), refused, "slot {slot}");
            ladder.clear();
            ladder.d(9.5, 1.5).unwrap();
            assert_eq!(ladder.tested(Column::Values).unwrap(), ladder.values());
        }
        assert_eq!(
            whole.tested(Column::Derivatives).unwrap(),
            whole.derivatives()
        );
    }
}
