//! The split of an order and what follows from it: the table's length and the slots written.

use super::Kind;

/// A larger order is refused whatever the length, and counts as this one.
const LARGEST: usize = 1001;

/// An order that is not refused, split as in the scope paper.
#[derive(Clone, Copy, Debug, PartialEq)]
pub struct Split {
    /// The shifted order.
    pub u: f64,
    /// What is left of it after the cut.
    pub f: f64,
    /// The size of the cut order.
    pub n: usize,
    /// The number of the first derivative slot.
    pub num: usize,
}

impl Split {
    pub fn of(v: f64) -> Self {
        let u = if v < 0.0 { v - 1.0 } else { v + 1.0 };
        Split {
            u,
            f: u - u.trunc(),
            n: u.abs() as usize,
            num: needed(v) / 2,
        }
    }

    /// Whether a table call writes the slot.
    pub fn writes(&self, kind: Kind, slot: usize) -> bool {
        let value = slot <= self.n || (slot == 2 && self.writes_slot_2(kind));
        value || (self.num..self.num + self.n).contains(&slot)
    }

    /// Whether V writes value slot 2 though n is 1.
    pub fn writes_slot_2(&self, kind: Kind) -> bool {
        kind == Kind::V && self.u < 0.0 && self.f == 0.0 && self.n == 1
    }
}

/// The length of table that the order needs. NaN counts as 0.
pub fn needed(v: f64) -> usize {
    2 * ((v.abs() as usize).min(LARGEST) + 3)
}
