//! What a ladder answers.

use std::fmt;

use crate::Refusal;
use crate::c;

/// A ladder's answer to an accepted request.
///
/// ```
/// use gozhnerim::{Case, Ladder};
///
/// let reply = Ladder::new().d(2.0, 0.0)?;
/// assert_eq!((reply.value, reply.derivative), (-1.0, 0.0));
/// assert_eq!((reply.written, reply.case), (4, Case::StartOver));
/// # Ok::<(), gozhnerim::Refusal>(())
/// ```
#[non_exhaustive]
#[derive(Clone, Copy, Debug, PartialEq)]
pub struct Reply {
    /// D or V at order v.
    pub value: f64,
    /// Its derivative with respect to x.
    pub derivative: f64,
    /// How many rungs were written.
    pub written: usize,
    /// Which of the three cases the request was.
    pub case: Case,
}

/// What a ladder did with an accepted request.
///
/// ```
/// use gozhnerim::{Case, Ladder};
///
/// let mut ladder = Ladder::new();
/// let mut cases = Vec::new();
/// for v in [2.0, 4.0, 4.0, 2.0] {
///     cases.push(ladder.d(v, 0.0)?.case);
/// }
/// assert_eq!(cases, [Case::StartOver, Case::Climb, Case::Repeat, Case::StartOver]);
/// # Ok::<(), gozhnerim::Refusal>(())
/// ```
#[non_exhaustive]
#[derive(Clone, Copy, Debug, PartialEq, Eq, Hash)]
pub enum Case {
    /// The request held: function, side, x, fraction and n are the held ones. Nothing is written.
    Repeat,
    /// The same with a higher n, on a branch that runs forward: only the new rungs are written.
    Climb,
    /// Any other: all rungs, 0 to n, are written.
    StartOver,
}

impl Case {
    /// The case of a reply that is no refusal: the library tells it by its number, 1 to 3.
    fn of(reply: c::Reply) -> Self {
        match c::case(reply) {
            1 => Case::Repeat,
            2 => Case::Climb,
            _ => Case::StartOver,
        }
    }
}

impl fmt::Display for Case {
    fn fmt(&self, f: &mut fmt::Formatter<'_>) -> fmt::Result {
        f.pad(match self {
            Case::Repeat => "repeat",
            Case::Climb => "climb",
            Case::StartOver => "start-over",
        })
    }
}

impl TryFrom<c::Reply> for Reply {
    type Error = Refusal;

    fn try_from(reply: c::Reply) -> Result<Self, Refusal> {
        match Refusal::from_number(reply.refusal) {
            Some(refusal) => Err(refusal),
            None => Ok(Reply {
                value: reply.value,
                derivative: reply.derivative,
                written: reply.written as usize,
                case: Case::of(reply),
            }),
        }
    }
}
