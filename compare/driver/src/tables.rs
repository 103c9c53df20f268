//! The library crate `tables`: the table calls of D and V.

mod edges;
pub mod mirror;
pub mod needs;
mod outcome;
mod requests;
mod split;
pub mod stored;
#[cfg(test)]
mod tests;

use crate::comparing::{Difference, Line, Tally};
pub use edges::{arguments, square_at_order};
pub use outcome::{Lent, MARGIN, number_difference, slot_difference, whole_difference};
use requests::Request;
pub use requests::{Junk, argument};
pub use split::{Split, needed};
#[cfg(test)]
pub use tests::branches;

/// The library's calls.
mod library {
    use super::Answer;

    unsafe extern "C" {
        pub fn gozhnerim_d_table(v: f64, x: f64, table: *mut f64, len: usize) -> Answer;
        pub fn gozhnerim_v_table(v: f64, x: f64, table: *mut f64, len: usize) -> Answer;
    }
}

type Library = unsafe extern "C" fn(f64, f64, *mut f64, usize) -> Answer;
type Reference = fn(f64, f64, &mut [f64], usize) -> (f64, f64);
/// A call of one side, with order, argument and table.
type Side = fn(&Call, f64, f64, &mut [f64]) -> Answer;

/// A pair with refusal 0, or a refusal with two NaNs.
#[repr(C)]
#[derive(Clone, Copy, Debug)]
pub struct Answer {
    pub refusal: u32,
    pub value: f64,
    pub derivative: f64,
}

/// The function tabulated, with its number in the seed and in a ladder.
#[derive(Clone, Copy, Debug, PartialEq)]
pub enum Kind {
    D = 1,
    V = 2,
}

impl Kind {
    pub const BOTH: [Kind; 2] = [Kind::D, Kind::V];
}

/// A table call of the library with its reference.
pub struct Call {
    kind: Kind,
    /// Its number in the stored answers. The functions have those before.
    number: u64,
    pub name: &'static str,
    library: Library,
    /// The source's function over the stand-ins.
    reference: Reference,
    /// The source's function over the platform's functions, for the times.
    platform: Reference,
}

pub const CALLS: [Call; 2] = [
    Call {
        kind: Kind::D,
        number: 24,
        name: "d_table",
        library: library::gozhnerim_d_table,
        reference: source::entry::pbdv_impl,
        platform: platform::entry::pbdv_impl,
    },
    Call {
        kind: Kind::V,
        number: 25,
        name: "v_table",
        library: library::gozhnerim_v_table,
        reference: source::entry::pbvv_impl,
        platform: platform::entry::pbvv_impl,
    },
];

/// The table call of a function.
pub fn call(kind: Kind) -> &'static Call {
    match kind {
        Kind::D => &CALLS[0],
        Kind::V => &CALLS[1],
    }
}

impl Answer {
    pub fn refused(refusal: u32) -> Self {
        Answer {
            refusal,
            value: f64::NAN,
            derivative: f64::NAN,
        }
    }

    pub fn pair((value, derivative): (f64, f64)) -> Self {
        Answer {
            refusal: 0,
            value,
            derivative,
        }
    }
}

impl Call {
    /// The library, the Rust over the stand-ins and the Rust over the platform's functions, on a
    /// table of the length that the order needs, for the times.
    pub const SIDES: [Side; 3] = [
        |call, v, x, table| {
            // SAFETY: the table has `table.len()` slots.
            unsafe { (call.library)(v, x, table.as_mut_ptr(), table.len()) }
        },
        |call, v, x, table| {
            let num = table.len() / 2;
            Answer::pair((call.reference)(x, v, table, num))
        },
        |call, v, x, table| {
            let num = table.len() / 2;
            Answer::pair((call.platform)(x, v, table, num))
        },
    ];

    /// A seed of its own, so that its requests do not depend on the other call's.
    fn seed(&self, seed: u64) -> u64 {
        seed ^ ((self.kind as u64) << 40)
    }

    /// Compares both sides over `count` requests.
    pub fn compare(&self, tally: &mut Tally, count: usize, seed: u64) {
        let requests = requests::requests(count, self.seed(seed));
        tally.count(self.name, requests, |request| {
            self.library_difference(request)
        });
    }

    /// Compares both sides over `count` drawn requests.
    pub fn compare_drawn(&self, line: &mut Line, count: usize, seed: u64) {
        let requests = requests::drawn(self.seed(seed)).take(count);
        line.count_all(requests, |request| self.library_difference(request));
    }

    fn library_difference(&self, request: &Request) -> Option<Difference> {
        self.difference(request, |v, x, lent| {
            // SAFETY: there are `lent.length` slots, and more on either side.
            unsafe { (self.library)(v, x, lent.first_slot(), lent.length) }
        })
    }
}
