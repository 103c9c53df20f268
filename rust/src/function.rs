//! The two functions.

use std::fmt;

/// The function that a request asks for.
///
/// Their definitions are in [DLMF 12.2](https://dlmf.nist.gov/12.2); the names and the order are
/// those of [DLMF 12.1](https://dlmf.nist.gov/12.1).
///
/// ```
/// use gozhnerim::{Function, Ladder};
///
/// let mut ladder = Ladder::new();
/// for function in [Function::D, Function::V] {
///     println!("{function} {:?}", ladder.request(function, 2.5, 1.0)?.value);
/// }
/// # Ok::<(), gozhnerim::Refusal>(())
/// ```
#[derive(Clone, Copy, Debug, PartialEq, Eq, Hash)]
pub enum Function {
    /// D of order v at x: U(−v − ½, x).
    D,
    /// V of order v at x: V(−v − ½, x).
    V,
}

impl Function {
    /// The number of the function in a state.
    ///
    /// ```
    /// use gozhnerim::Function;
    ///
    /// assert_eq!((Function::D.number(), Function::V.number()), (1, 2));
    /// ```
    #[must_use]
    pub fn number(self) -> u32 {
        match self {
            Function::D => 1,
            Function::V => 2,
        }
    }

    /// The function of that number, if there is one.
    ///
    /// ```
    /// use gozhnerim::Function;
    ///
    /// assert_eq!(Function::from_number(2), Some(Function::V));
    /// assert_eq!(Function::from_number(0), None);
    /// ```
    #[must_use]
    pub fn from_number(number: u32) -> Option<Self> {
        match number {
            1 => Some(Function::D),
            2 => Some(Function::V),
            _ => None,
        }
    }
}

impl fmt::Display for Function {
    fn fmt(&self, f: &mut fmt::Formatter<'_>) -> fmt::Result {
        f.pad(match self {
            Function::D => "D",
            Function::V => "V",
        })
    }
}
