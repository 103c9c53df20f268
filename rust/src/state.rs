//! A ladder's state, over tables that the caller lends.

use crate::{Column, Function, RawState, Refusal, Reply, c};

/// The largest n of a state that is not empty.
const LARGEST_N: u32 = 1000;

/// What a ladder holds between two requests, as a value. The tables are lent for each request.
///
/// A request takes the same tables as the one before left them, or longer ones: then slots 0 to n
/// of the value table and 0 to n − 1 of the derivative table are the rungs. No request reads a
/// slot that it has not written itself, so answers do not depend on what the tables hold.
///
/// A copy of a state may be kept, and a state may come from elsewhere by [`State::from_raw`].
/// [`Ladder`](crate::Ladder) is the same with tables of its own.
///
/// ```
/// use gozhnerim::{Case, Function, State};
///
/// let (mut values, mut derivatives) = ([0.0; 6], [0.0; 5]);
/// let mut state = State::EMPTY;
/// state.request(Function::D, 2.0, 0.0, &mut values, &mut derivatives)?;
/// let reply = state.request(Function::D, 4.0, 0.0, &mut values, &mut derivatives)?;
/// assert_eq!((reply.value, reply.case), (3.0, Case::Climb));
/// assert_eq!(values, [1.0, 0.0, -1.0, -0.0, 3.0, 0.0]);
/// # Ok::<(), gozhnerim::Refusal>(())
/// ```
#[derive(Clone, Copy, Debug, Default)]
pub struct State {
    raw: RawState,
}

/// What a state holds that is not empty.
///
/// ```
/// use gozhnerim::{Function, Ladder};
///
/// let mut ladder = Ladder::new();
/// ladder.v(-3.25, 1.5)?;
/// let held = ladder.state().held().unwrap();
/// assert_eq!((held.function, held.below_zero, held.n), (Function::V, true, 4));
/// assert_eq!((held.x, held.f), (1.5, -0.25));
/// assert_eq!(held.value_top, ladder.values()[4]);
/// # Ok::<(), gozhnerim::Refusal>(())
/// ```
#[non_exhaustive]
#[derive(Clone, Copy, Debug, PartialEq)]
pub struct Held {
    /// The function.
    pub function: Function,
    /// Whether v < 0.
    pub below_zero: bool,
    /// The top rung.
    pub n: usize,
    /// The argument.
    pub x: f64,
    /// The fraction of v + 1 (v ≥ 0) or v − 1 (v < 0), with its sign.
    pub f: f64,
    /// Rung n − 1.
    pub value_below: f64,
    /// Rung n.
    pub value_top: f64,
}

impl State {
    /// The state of a ladder that holds nothing.
    ///
    /// ```
    /// assert!(gozhnerim::State::EMPTY.is_empty());
    /// ```
    pub const EMPTY: State = State {
        raw: RawState {
            function: 0,
            below_zero: 0,
            n: 0,
            reserved: [0; 3],
            x: 0.0,
            f: 0.0,
            value_below: 0.0,
            value_top: 0.0,
        },
    };

    /// A request for a function of order v at x. `values` needs n + 1 slots and `derivatives` n,
    /// with n = [`rungs_needed`](crate::rungs_needed)(v). [`Case`](crate::Case) says what is
    /// written; all other slots stay as they are. The state becomes the one for the next request.
    ///
    /// # Errors
    ///
    /// Refusal 1 where v or x is NaN, 2 where the size of v is 1000 or more, 3 where one of the two
    /// tables is too short. State and tables then stay as they were.
    ///
    /// ```
    /// use gozhnerim::{Function, Refusal, State};
    ///
    /// let mut state = State::EMPTY;
    /// let short = state.request(Function::V, 2.0, 0.5, &mut [0.0; 3], &mut [0.0; 3]);
    /// assert_eq!(short, Err(Refusal::TableTooShort));
    /// assert!(state.is_empty());
    /// assert!(state.request(Function::V, 2.0, 0.5, &mut [0.0; 4], &mut [0.0; 3]).is_ok());
    /// ```
    pub fn request(
        &mut self,
        function: Function,
        v: f64,
        x: f64,
        values: &mut [f64],
        derivatives: &mut [f64],
    ) -> Result<Reply, Refusal> {
        let reply = c::request(self.raw, function, (v, x), values, derivatives);
        self.raw = reply.state;
        reply.try_into()
    }

    /// The tested reader: a column of two tables, lent back only where both hold all rungs of this
    /// state, whoever wrote to them: values 0 to n, or derivatives 0 to n − 1.
    ///
    /// It is for branches that run forward: D with v ≥ 0; D with v < 0 and x ≤ 0; V with v < 0; V
    /// with v ≥ 0, x < 0 and not both |x| ≤ 10 and n + f ≤ x²/2.
    ///
    /// Both tables are tested, whichever column is named. Values 0 and 1 are held to rungs worked out
    /// afresh from function, side, x and f, each later value to one step of the recurrence over the
    /// two slots before it, and derivative k to its formula over values k and k + 1: by their bits,
    /// but any NaN does for another. The state's two values play no part.
    ///
    /// Where requests left this state, the first of them made on an empty one, a column is lent just
    /// where all rungs are those of the table call for the last request that was not refused. Of the
    /// library that is proved.
    ///
    /// # Errors
    ///
    /// In this order: refusal 6 where the state counts as empty or its branch does not run forward,
    /// 3 where `values` has fewer than n + 1 slots or `derivatives` fewer than n, 7 where a rung
    /// differs.
    ///
    /// ```
    /// use gozhnerim::{Column, Function, Refusal, State};
    ///
    /// let (mut values, mut derivatives) = ([0.0; 8], [0.0; 7]);
    /// let mut state = State::EMPTY;
    /// state.request(Function::D, 2.0, 0.0, &mut values, &mut derivatives)?;
    /// let tested = state.tested(&values, &derivatives, Column::Values)?;
    /// assert_eq!(tested, [1.0, 0.0, -1.0, -0.0]);
    ///
    /// derivatives[1] = 0.0;
    /// let refused = state.tested(&values, &derivatives, Column::Values);
    /// assert_eq!(refused, Err(Refusal::RungDiffers));
    /// # Ok::<(), Refusal>(())
    /// ```
    pub fn tested<'a>(
        &self,
        values: &'a [f64],
        derivatives: &'a [f64],
        which: Column,
    ) -> Result<&'a [f64], Refusal> {
        let (named, number) = which.of(values, derivatives);
        let part = c::tested_column(self.raw, values, derivatives, number);
        match Refusal::from_number(part.refusal) {
            Some(refusal) => Err(refusal),
            None => Ok(named.get(..part.length).unwrap_or(&[])),
        }
    }

    /// Whether the state holds nothing. A state from elsewhere counts as empty also where its
    /// function is neither D nor V, its n is 0 or above 1000, its x or f is NaN, or the size of f
    /// is 1 or more.
    ///
    /// ```
    /// use gozhnerim::{RawState, State};
    ///
    /// let mut raw = RawState { function: 1, n: 3, ..RawState::default() };
    /// assert!(!State::from_raw(raw).is_empty());
    /// raw.f = 1.0;
    /// assert!(State::from_raw(raw).is_empty());
    /// ```
    #[must_use]
    pub fn is_empty(&self) -> bool {
        self.held().is_none()
    }

    /// What the state holds, or nothing where it counts as empty.
    ///
    /// ```
    /// assert_eq!(gozhnerim::State::EMPTY.held(), None);
    /// ```
    #[must_use]
    pub fn held(&self) -> Option<Held> {
        let raw = &self.raw;
        let function = Function::from_number(raw.function)?;
        let counts = (1..=LARGEST_N).contains(&raw.n) && !raw.x.is_nan() && raw.f.abs() < 1.0;
        counts.then_some(Held {
            function,
            below_zero: raw.below_zero != 0,
            n: raw.n as usize,
            x: raw.x,
            f: raw.f,
            value_below: raw.value_below,
            value_top: raw.value_top,
        })
    }

    /// A state from elsewhere. Any bits in any field are safe.
    ///
    /// ```
    /// use gozhnerim::{Ladder, State};
    ///
    /// let mut ladder = Ladder::new();
    /// ladder.d(2.5, 1.0)?;
    /// let raw = ladder.state().to_raw();
    /// assert_eq!(State::from_raw(raw).held(), ladder.state().held());
    /// # Ok::<(), gozhnerim::Refusal>(())
    /// ```
    #[must_use]
    pub fn from_raw(raw: RawState) -> Self {
        State { raw }
    }

    /// The fields of the state, to be kept elsewhere.
    ///
    /// ```
    /// use gozhnerim::State;
    ///
    /// assert_eq!(State::EMPTY.to_raw().function, 0);
    /// ```
    #[must_use]
    pub fn to_raw(self) -> RawState {
        self.raw
    }
}
