//! The library crate `ladder_tested_reader`: it works out a state's rungs again, holds both tables
//! to them, and lends a column.

mod comparison;
mod damage;
mod reading;
mod steps;
mod subject;
#[cfg(test)]
mod tests;
mod wanted;

use super::lists::{List, drawn_from_elsewhere, drawn_from_empty};
use super::{State, ask, edges, handed_in};
use crate::comparing::Tally;
use crate::inputs::Draw;
use crate::tables::Lent;
pub use comparison::Comparison;

/// The library's call.
mod library {
    use super::{Part, State};

    unsafe extern "C" {
        pub fn gozhnerim_tested_column(
            held: State,
            values: *const f64,
            values_len: usize,
            derivatives: *const f64,
            derivatives_len: usize,
            which: u32,
        ) -> Part;
    }
}

/// A seed of its own, beside those of the table calls and of the lists for the ladder.
const SEED: u64 = 1 << 50;
/// There are at least so many readings of each kind, so that every answer is met.
const LEAST: usize = 20_000;

/// The number of the refusal, or 0 and how many slots of the column are lent.
#[repr(C)]
#[derive(Clone, Copy, Debug, PartialEq)]
pub struct Part {
    pub refusal: u32,
    pub length: usize,
}

impl Part {
    fn refused(refusal: u32) -> Self {
        Part { refusal, length: 0 }
    }
}

/// Reads with the library, from value table and derivative table.
pub fn read(held: State, [values, derivatives]: [&mut Lent; 2], which: u32) -> Part {
    let (values_len, derivatives_len) = (values.length, derivatives.length);
    let (values, derivatives) = (values.first_slot(), derivatives.first_slot());
    // SAFETY: both tables have as many slots as is said, and more on either side.
    unsafe {
        library::gozhnerim_tested_column(
            held,
            values,
            values_len,
            derivatives,
            derivatives_len,
            which,
        )
    }
}

/// Compares the library's reader with 02, #102: `count` readings after lists from an empty ladder,
/// and as many after lists from states handed in.
pub fn compare(tally: &mut Tally, count: usize, seed: u64) {
    let count = count.max(LEAST);
    let mut from_empty = Comparison::from_empty(seed);
    from_empty.run(lists_from_empty(seed), count, ask, read);
    let mut from_elsewhere = Comparison::from_elsewhere(seed);
    from_elsewhere.run(lists_from_elsewhere(seed), count, ask, read);
    for comparison in [&mut from_empty, &mut from_elsewhere] {
        comparison.count_what_was_not_met();
        comparison.finish(tally);
    }
}

/// Compares the library's reader over `count` readings after drawn lists from an empty ladder.
pub fn compare_drawn_from_empty(comparison: &mut Comparison, count: usize, seed: u64) {
    comparison.run(drawn_from_empty(seed ^ SEED), count, ask, read);
}

/// The same from drawn states handed in.
pub fn compare_drawn_from_elsewhere(comparison: &mut Comparison, count: usize, seed: u64) {
    let lists = with_both_zeros(drawn_from_elsewhere(seed ^ SEED), seed);
    comparison.run(lists, count, ask, read);
}

fn lists_from_empty(seed: u64) -> impl Iterator<Item = List> {
    in_turn(edges::lists(), drawn_from_empty(seed ^ SEED), seed)
}

fn lists_from_elsewhere(seed: u64) -> impl Iterator<Item = List> {
    let lists = in_turn(handed_in::edges(), drawn_from_elsewhere(seed ^ SEED), seed);
    with_both_zeros(lists, seed)
}

/// In a quarter of the states whose f is 0 it has the other sign.
fn with_both_zeros(lists: impl Iterator<Item = List>, seed: u64) -> impl Iterator<Item = List> {
    let mut draw = Draw::new(seed ^ SEED);
    lists.map(move |mut list| {
        if list.state.f == 0.0 && draw.below(4) == 0 {
            list.state.f = -list.state.f;
        }
        list
    })
}

/// Edge lists in a drawn order and drawn lists in turn, so that few of them are of all kinds too.
/// Without end.
fn in_turn(
    mut edges: Vec<List>,
    drawn: impl Iterator<Item = List>,
    seed: u64,
) -> impl Iterator<Item = List> {
    let mut draw = Draw::new(seed ^ SEED);
    edges.sort_by_cached_key(|_| draw.bits());
    let mut edges = edges.into_iter();
    drawn.flat_map(move |list| edges.next().into_iter().chain([list]))
}
