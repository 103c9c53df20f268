//! Refusals as an error type.

use std::error::Error;
use std::fmt;
use std::num::NonZeroU32;

/// Why a call gave no answer. A refused call writes to no table and leaves a ladder as it was.
///
/// The tests are made by rising number, those of the tested reader in the order 6, 3, 7, and the
/// first that applies is given. The message says what happened and what to do next.
///
/// ```
/// use gozhnerim::{Refusal, d_table};
///
/// let mut table = [0.0; 5];
/// let refusal = d_table(0.0, 0.0, &mut table).unwrap_err();
/// assert_eq!(refusal, Refusal::TableTooShort);
/// assert_eq!(refusal.number(), 3);
/// assert!(refusal.to_string().starts_with("refusal 3: a table has too few slots"));
/// ```
#[non_exhaustive]
#[derive(Clone, Copy, Debug, PartialEq, Eq, Hash)]
pub enum Refusal {
    /// 1: an input number is NaN. Slots of a table and fields of a state are no inputs.
    NotANumber,
    /// 2: tables and ladder: the size of the order is 1000 or more.
    OrderTooLarge,
    /// 3: tables, ladder and tested reader: a table has too few slots. A
    /// [`Ladder`](crate::Ladder) never gives it.
    TableTooShort,
    /// 4: expansion: the order is not in −2147483648 < v ≤ −20.
    OrderOutsideExpansion,
    /// 5: expansion: x is infinite; series: an input is infinite.
    Infinite,
    /// 6: tested reader: the state counts as empty, or its branch does not run forward.
    NotForward,
    /// 7: tested reader: a rung in the tables is not the state's.
    RungDiffers,
    /// A number that this package has no name for. The library that goes with this package gives none.
    Unknown(NonZeroU32),
}

impl Refusal {
    /// The number of the refusal, as in the C interface. It is never 0.
    ///
    /// ```
    /// use gozhnerim::{Refusal, d_expansion};
    ///
    /// assert_eq!(d_expansion(-19.5, 3.0).unwrap_err().number(), 4);
    /// assert_eq!(Refusal::from_number(40).unwrap().number(), 40);
    /// ```
    #[must_use]
    pub fn number(self) -> u32 {
        match self {
            Refusal::NotANumber => 1,
            Refusal::OrderTooLarge => 2,
            Refusal::TableTooShort => 3,
            Refusal::OrderOutsideExpansion => 4,
            Refusal::Infinite => 5,
            Refusal::NotForward => 6,
            Refusal::RungDiffers => 7,
            Refusal::Unknown(number) => number.get(),
        }
    }

    /// The refusal of that number, or nothing for 0, which means answered.
    ///
    /// ```
    /// use gozhnerim::Refusal;
    ///
    /// assert_eq!(Refusal::from_number(2), Some(Refusal::OrderTooLarge));
    /// assert!(matches!(Refusal::from_number(40), Some(Refusal::Unknown(_))));
    /// assert_eq!(Refusal::from_number(0), None);
    /// ```
    #[must_use]
    pub fn from_number(number: u32) -> Option<Self> {
        match number {
            1 => Some(Refusal::NotANumber),
            2 => Some(Refusal::OrderTooLarge),
            3 => Some(Refusal::TableTooShort),
            4 => Some(Refusal::OrderOutsideExpansion),
            5 => Some(Refusal::Infinite),
            6 => Some(Refusal::NotForward),
            7 => Some(Refusal::RungDiffers),
            _ => NonZeroU32::new(number).map(Refusal::Unknown),
        }
    }

    /// What happened, and what to do next.
    fn message(self) -> &'static str {
        match self {
            Refusal::NotANumber => {
                "an input number is NaN; look for where the order, the argument or another input \
                 was worked out and why it became NaN"
            }
            Refusal::OrderTooLarge => {
                "the size of the order is 1000 or more; ask for an order above -1000 and below \
                 1000, or for D at a large negative order use the expansion"
            }
            Refusal::TableTooShort => {
                "a table has too few slots; lend a table of slots_needed(v) slots, and to a \
                 ladder n + 1 for the values and n for the derivatives with n = rungs_needed(v)"
            }
            Refusal::OrderOutsideExpansion => {
                "the order is outside the expansion's range; it takes orders above -2147483648 \
                 and up to -20, and for other orders there is the table call"
            }
            Refusal::Infinite => {
                "an input is infinite; the expansion and the series take finite numbers, so look \
                 for an overflow where the input was worked out"
            }
            Refusal::NotForward => {
                "the ladder holds nothing or its branch does not run forward, so no rung is tested; \
                 make a request first, and where the branch does not run forward compare the rungs \
                 with the slots of a table call for the same order and argument"
            }
            Refusal::RungDiffers => {
                "a rung in the tables is not the one that belongs to the ladder's state; find out \
                 which other part wrote to the tables, or whether they are another ladder's, and \
                 make the request again on an empty ladder, which writes every rung"
            }
            Refusal::Unknown(_) => {
                "this package has no words for it; take the package that belongs to the library \
                 linked"
            }
        }
    }
}

impl fmt::Display for Refusal {
    fn fmt(&self, f: &mut fmt::Formatter<'_>) -> fmt::Result {
        write!(f, "refusal {}: {}", self.number(), self.message())
    }
}

impl Error for Refusal {}

#[cfg(test)]
mod tests {
    use super::*;

    #[test]
    fn numbers_read_back() {
        for number in 1..=7 {
            let refusal = Refusal::from_number(number).unwrap();
            assert!(!matches!(refusal, Refusal::Unknown(_)));
            assert_eq!(refusal.number(), number);
        }
    }

    #[test]
    fn messages_say_what_happened_and_what_to_do() {
        for number in 1..=8 {
            let text = Refusal::from_number(number).unwrap().to_string();
            assert!(text.starts_with(&format!("refusal {number}: ")), "{text}");
            assert!(text.contains("; "), "{text}");
            assert!(!text.contains("  ") && !text.ends_with('.'), "{text}");
        }
    }

    #[test]
    fn unknown_numbers_have_words_too() {
        for number in [8, 17, 40, u32::MAX] {
            let refusal = Refusal::from_number(number).unwrap();
            assert!(matches!(refusal, Refusal::Unknown(_)));
            assert_eq!(refusal.number(), number);
            assert!(refusal.to_string().contains(&number.to_string()));
        }
    }
}
