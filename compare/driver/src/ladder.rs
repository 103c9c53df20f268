//! The library crate `ladder`: requests that are given a state and hand the next one back. The
//! reader that tests what they wrote.

mod alone;
mod comparison;
mod drawn;
mod edges;
mod handed_in;
mod lists;
mod machine;
mod outcome;
mod rungs;
mod running;
mod state;
pub mod tested;
#[cfg(test)]
mod tests;

use crate::comparing::Tally;
use crate::tables::{Kind, Lent};
pub use alone::Alone;
pub use comparison::Comparison;
pub use state::State;

/// The library's calls.
mod library {
    use super::{Reply, State};

    unsafe extern "C" {
        pub safe fn gozhnerim_case(reply: Reply) -> u32;
        pub fn gozhnerim_ladder_d(
            held: State,
            v: f64,
            x: f64,
            values: *mut f64,
            values_len: usize,
            derivatives: *mut f64,
            derivatives_len: usize,
        ) -> Reply;
        pub fn gozhnerim_ladder_v(
            held: State,
            v: f64,
            x: f64,
            values: *mut f64,
            values_len: usize,
            derivatives: *mut f64,
            derivatives_len: usize,
        ) -> Reply;
    }
}

/// How many calls there are: those of D and V, and the tested reader.
pub const CALLS: usize = 3;
/// For so many requests in lists from an empty ladder there is one state handed in.
const REQUESTS_FOR_A_STATE: usize = 5;

/// The state handed back, and the answer with the written count, which is 0 with a refusal.
#[repr(C)]
#[derive(Clone, Copy, Debug)]
pub struct Reply {
    pub state: State,
    pub refusal: u32,
    pub written: u32,
    pub value: f64,
    pub derivative: f64,
}

/// What is asked for: a function, an order and an argument.
#[derive(Clone, Copy, Debug)]
pub struct Point {
    pub kind: Kind,
    pub v: f64,
    pub x: f64,
}

/// Asks the library's ladder, with value table and derivative table.
pub fn ask(held: State, point: &Point, [values, derivatives]: [&mut Lent; 2]) -> Reply {
    let call = match point.kind {
        Kind::D => library::gozhnerim_ladder_d,
        Kind::V => library::gozhnerim_ladder_v,
    };
    let (values_len, derivatives_len) = (values.length, derivatives.length);
    let (values, derivatives) = (values.first_slot(), derivatives.first_slot());
    // SAFETY: both tables have as many slots as is said, and more on either side.
    unsafe {
        call(
            held,
            point.v,
            point.x,
            values,
            values_len,
            derivatives,
            derivatives_len,
        )
    }
}

/// The case that the library tells of a reply.
pub fn case_told(reply: &Reply) -> u32 {
    library::gozhnerim_case(*reply)
}

/// Compares the library's ladder over `count` requests in drawn lists from an empty ladder.
pub fn compare_drawn_from_empty(comparison: &mut Comparison, count: usize, seed: u64) {
    comparison.run(lists::cut(lists::drawn_from_empty(seed), count), ask);
}

/// The same from drawn states handed in.
pub fn compare_drawn_from_elsewhere(comparison: &mut Comparison, count: usize, seed: u64) {
    comparison.run(lists::cut(lists::drawn_from_elsewhere(seed), count), ask);
}

/// Compares the library's ladder with the scope paper's over `count` requests in lists from an
/// empty ladder, and over lists from states handed in; then its tested reader.
pub fn compare(tally: &mut Tally, count: usize, seed: u64) {
    let mut from_empty = Comparison::from_empty();
    from_empty.run(lists::from_empty(count, seed), ask);
    from_empty.finish(tally);
    let mut from_elsewhere = Comparison::from_elsewhere();
    let states = count.div_ceil(REQUESTS_FOR_A_STATE);
    from_elsewhere.run(lists::from_elsewhere(states, seed), ask);
    from_elsewhere.finish(tally);
    tested::compare(tally, count, seed);
}
